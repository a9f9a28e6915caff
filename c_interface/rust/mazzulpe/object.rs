//! Procedures straight from the object file that clang makes of C for BPF, as `mazzulpe_object.h` documents them.

use super::{
    BAD_OBJECT, DC_UNKNOWN, Key, MEMORY, NAME_TAKEN, NO_PROCEDURE, NOT_TEXT, Program, Refusal, Slot, Tc, Unloaded,
};

/// A section with its name.
struct Section<'a> {
    name: &'a [u8],
    bytes: &'a [u8],
}

struct Procedure<'a> {
    name: &'a [u8],
    code: &'a [u8],
    slots: Vec<Slot>,
    args: u8,
}

fn number<const N: usize>(bytes: &[u8], at: u64) -> Option<u64> {
    let at = usize::try_from(at).ok()?;
    let mut whole = [0; 8];
    whole[..N].copy_from_slice(bytes.get(at..at.checked_add(N)?)?);
    Some(u64::from_le_bytes(whole))
}

fn part(bytes: &[u8], at: u64, length: u64) -> Option<&[u8]> {
    let at = usize::try_from(at).ok()?;
    bytes.get(at..at.checked_add(usize::try_from(length).ok()?)?)
}

/// The sections of an ELF64 object, little-endian, that have bytes.
fn sections(file: &[u8]) -> Option<Vec<Section<'_>>> {
    if file.len() < 64 || !file.starts_with(b"\x7fELF\x02\x01") {
        return None;
    }
    let (headers, each) = (number::<8>(file, 40)?, number::<2>(file, 58)?);
    let (count, names) = (number::<2>(file, 60)?, number::<2>(file, 62)?);
    let headers = part(file, headers, each * count)?;
    if each < 64 || names >= count {
        return None;
    }
    let extent = |at: u64| part(file, number::<8>(headers, at + 24)?, number::<8>(headers, at + 32)?);
    let names = extent(names * each)?;
    let section = |at: u64| {
        let name = names.get(usize::try_from(number::<4>(headers, at)?).ok()?..)?;
        let end = name.iter().position(|byte| *byte == 0)?;
        (number::<4>(headers, at + 4)? == 1).then_some(())?;
        Some(Section { name: &name[..end], bytes: extent(at)? })
    };
    Some((0..count).filter_map(|i| section(i * each)).collect())
}

/// The entries of `accesses/NAME`: how many arguments it takes, and a slot each.
fn accesses(bytes: &[u8]) -> Option<(u8, Vec<Slot>)> {
    let mut entries = bytes.chunks_exact(16);
    let first = entries.next()?;
    if bytes.len() % 16 != 0 || bytes.len() / 16 > 18 || number::<2>(first, 4)? != 4 {
        return None;
    }
    let slot = |entry: &[u8]| {
        let (flags, key) = (number::<2>(entry, 4)?, number::<8>(entry, 8)?);
        let key = match flags {
            0 | 1 => Key::Fixed(key),
            2 | 3 => Key::Argument(u8::try_from(key).ok()?),
            _ => return None,
        };
        Some(Slot {
            write: flags % 2 == 1,
            dc: number::<2>(entry, 0)? as u16,
            table: number::<2>(entry, 2)? as u16,
            key,
        })
    };
    Some((u8::try_from(number::<8>(first, 8)?).ok()?, entries.map(slot).collect::<Option<_>>()?))
}

/// The file's procedures, in the order of its sections; `Err`: one whose access slots aren't there.
fn procedures<'a>(sections: &[Section<'a>]) -> Result<Vec<Procedure<'a>>, &'a [u8]> {
    let named = |section: &Section<'a>| Some((section.name.strip_prefix(b"procedure/")?, section.bytes));
    let procedure = |(name, code): (&'a [u8], &'a [u8])| {
        let its = |section: &&Section<'a>| section.name.strip_prefix(b"accesses/") == Some(name);
        let (args, slots) = sections.iter().find(its).and_then(|section| accesses(section.bytes)).ok_or(name)?;
        Ok(Procedure { name, code, slots, args })
    };
    sections.iter().filter_map(named).map(procedure).collect()
}

/// FNV-1a.
fn digest(bytes: &[u8]) -> u64 {
    bytes.iter().fold(0xcbf2_9ce4_8422_2325, |digest, byte| (digest ^ u64::from(*byte)).wrapping_mul(0x100_0000_01b3))
}

impl Tc {
    /// Why [`Tc::load`] would refuse this procedure, want of memory aside; `loaded`: its name is taken by itself.
    fn checked(
        &mut self,
        program: &mut Program,
        it: &Procedure,
        loaded: bool,
        twice: bool,
    ) -> Result<(), (Refusal, u64)> {
        program.verify(it.code, &it.slots, it.args)?;
        let name = std::str::from_utf8(it.name).map_err(|_| (NOT_TEXT, 0))?;
        match self.find(name) {
            Err(NO_PROCEDURE) => {}
            Ok(_) if loaded => {}
            Ok(_) => return Err((NAME_TAKEN, 0)),
            Err(refusal) => return Err((refusal, 0)),
        }
        if twice {
            return Err((NAME_TAKEN, 0));
        }
        match it.slots.iter().position(|slot| self.site(slot.dc).is_err()) {
            Some(slot) => Err((DC_UNKNOWN, slot as u64)),
            None => Ok(()),
        }
    }

    /// Loads each procedure of an object file, in the order of its sections, under their names. All or nothing, but
    /// for [`MEMORY`], behind which it goes on with the same file.
    pub fn load_object(&mut self, file: &[u8]) -> Result<(), Unloaded> {
        let told = |name: &[u8]| String::from_utf8_lossy(name).into_owned();
        let sections = sections(file).ok_or((BAD_OBJECT, String::new(), 0))?;
        let all = procedures(&sections).map_err(|name| (BAD_OBJECT, told(name), 0))?;
        let mut program = Program::new().map_err(|refusal| (refusal, String::new(), 0))?;
        let digest = digest(file);
        let loaded = self.cut_off.filter(|(of, _)| *of == digest).map_or(0, |(_, loaded)| loaded);
        for (i, it) in all.iter().enumerate() {
            let twice = all[..i].iter().any(|other| other.name == it.name);
            self.checked(&mut program, it, i < loaded, twice)
                .map_err(|(refusal, slot)| (refusal, told(it.name), slot))?;
        }
        for (i, it) in all.iter().enumerate().skip(loaded) {
            let name = std::str::from_utf8(it.name).map_err(|_| (NOT_TEXT, told(it.name), 0))?;
            if let Err((refusal, slot)) = self.load(name, it.code, &it.slots, it.args) {
                self.cut_off = (refusal == MEMORY).then_some((digest, i));
                return Err((refusal, told(it.name), slot));
            }
        }
        self.cut_off = None;
        Ok(())
    }

    /// The same of a file on disk. [`BAD_OBJECT`] also where it can't be read.
    pub fn load_object_file(&mut self, path: impl AsRef<std::path::Path>) -> Result<(), Unloaded> {
        let file = std::fs::read(path).map_err(|_| (BAD_OBJECT, String::new(), 0))?;
        self.load_object(&file)
    }
}
