//! Why nothing was done: each code of `mazzulpe.h` by its name, and its word.

/// Why nothing was done: a letter and a number, as `B1`.
#[derive(Clone, Copy, PartialEq, Eq)]
pub struct Refusal(pub u32);

impl std::fmt::Debug for Refusal {
    fn fmt(&self, f: &mut std::fmt::Formatter<'_>) -> std::fmt::Result {
        write!(f, "{}{}", (self.0 >> 8) as u8 as char, self.0 & 255)
    }
}

const fn code(letter: char, number: u32) -> Refusal {
    Refusal((letter as u32) << 8 | number)
}

pub const NO_SUCH_CALL: Refusal = code('W', 1);
pub const BAD_ARGUMENT: Refusal = code('W', 2);
pub const NOT_TEXT: Refusal = code('W', 3);
pub const BAD_OBJECT: Refusal = code('W', 4);
pub const MEMORY: Refusal = code('W', 5);
pub const NO_PLACE: Refusal = code('W', 6);
pub const SILENT: Refusal = code('W', 7);
pub const OTHER_LIBRARY: Refusal = code('W', 8);
pub const BUSY: Refusal = code('B', 1);
pub const NUMBERS_SPENT: Refusal = code('B', 2);
pub const NO_PROCEDURE: Refusal = code('B', 4);
pub const ARGUMENT_COUNT: Refusal = code('B', 5);
pub const NO_TXN: Refusal = code('I', 2);
pub const NOT_OVER: Refusal = code('I', 5);
pub const NOTHING_OPEN: Refusal = code('I', 6);
pub const STRANGER: Refusal = code('I', 9);
pub const NO_DC: Refusal = code('I', 10);
pub const INCARNATIONS_SPENT: Refusal = code('I', 12);
/// The data component is down, so nothing is sent there.
pub const DC_DOWN: Refusal = code('I', 13);
pub const OLD_NEWS: Refusal = code('I', 15);
pub const NOT_DOWN: Refusal = code('I', 16);
/// The data component lost what the log can't redo any more.
pub const FORGOTTEN: Refusal = code('Q', 3);
/// The data component says otherwise than the log, or than can be.
pub const DIVERGED: Refusal = code('D', 1);
/// It says Old to what isn't old: it serves another transaction component.
pub const DEPOSED: Refusal = code('D', 2);
pub const NOTHING_YET: Refusal = code('G', 1);
pub const TXNS_OPEN: Refusal = code('G', 2);
pub const ONE_DOWN: Refusal = code('G', 4);
pub const BEHIND: Refusal = code('G', 5);
pub const ADMISSIONS_SPENT: Refusal = code('G', 6);
pub const BEGUN: Refusal = code('R', 1);
pub const NOTE_COUNT: Refusal = code('R', 2);
pub const ROW_LENGTH: Refusal = code('L', 1);
pub const NO_EVENT: Refusal = code('L', 2);
pub const LOG_ILLEGAL: Refusal = code('U', 1);
/// The file of a log is damaged.
pub const DAMAGED: Refusal = code('F', 1);
pub const NO_LOG: Refusal = code('F', 2);
pub const OTHER_PROCEDURES: Refusal = code('F', 3);
pub const NO_BASE: Refusal = code('F', 4);
pub const NO_BATCH: Refusal = code('F', 5);
pub const FRAMES_SPENT: Refusal = code('F', 6);
pub const HAS_RECORDS: Refusal = code('F', 7);
/// [`log::Log`] has failed before.
pub const LOG_FAILED: Refusal = code('F', 8);
pub const LOG_IN_USE: Refusal = code('F', 9);
pub const NO_SESSION: Refusal = code('F', 10);
/// The log's file says it, or a wire may have it.
pub const SESSION_STAYS: Refusal = code('F', 11);
pub const NAME_TAKEN: Refusal = code('P', 1);
pub const DC_UNKNOWN: Refusal = code('P', 2);

const VIOLATIONS: [&str; 14] = [
    "Backward",
    "OutOfCode",
    "IntoWide",
    "FallsOff",
    "EmptyRegister",
    "WritesR10",
    "NotAPointer",
    "OutOfBounds",
    "ReadOnly",
    "MaybeNull",
    "UnknownHelper",
    "SlotUnknown",
    "ModeTooWeak",
    "PointerReturned",
];
const CODE_FAULTS: [&str; 7] =
    ["NoCode", "Length", "TooLong", "WideCut", "UnusedField", "Undefined", "OutsideProfile"];
const SLOT_FAULTS: [&str; 3] = ["TooManyArgs", "TooManySlots", "NoSuchArg"];

impl Refusal {
    /// What it says, in a word, as `Busy`; `?` of a number that is none.
    pub fn code_text(self) -> &'static str {
        let listed =
            |words: &[&'static str]| words.get(((self.0 & 255) as usize).wrapping_sub(1)).copied().unwrap_or("?");
        match self {
            NO_SUCH_CALL => "NoSuchCall",
            BAD_ARGUMENT => "BadArgument",
            NOT_TEXT => "NotText",
            BAD_OBJECT => "BadObject",
            MEMORY => "Memory",
            NO_PLACE => "NoPlace",
            SILENT => "Silent",
            OTHER_LIBRARY => "OtherLibrary",
            BUSY => "Busy",
            NUMBERS_SPENT => "NumbersSpent",
            NO_PROCEDURE => "NoProcedure",
            ARGUMENT_COUNT => "ArgumentCount",
            NO_TXN => "NoTxn",
            NOT_OVER => "NotOver",
            NOTHING_OPEN => "NothingOpen",
            STRANGER => "Stranger",
            NO_DC => "NoDc",
            INCARNATIONS_SPENT => "IncarnationsSpent",
            DC_DOWN => "Down",
            OLD_NEWS => "OldNews",
            NOT_DOWN => "NotDown",
            FORGOTTEN => "Forgotten",
            DIVERGED => "Diverged",
            DEPOSED => "Deposed",
            NOTHING_YET => "NothingYet",
            TXNS_OPEN => "TxnsOpen",
            ONE_DOWN => "OneDown",
            BEHIND => "Behind",
            ADMISSIONS_SPENT => "AdmissionsSpent",
            BEGUN => "Begun",
            NOTE_COUNT => "NoteCount",
            ROW_LENGTH => "RowLength",
            NO_EVENT => "NoEvent",
            LOG_ILLEGAL => "LogIllegal",
            DAMAGED => "Damaged",
            NO_LOG => "NoLog",
            OTHER_PROCEDURES => "OtherProcedures",
            NO_BASE => "NoBase",
            NO_BATCH => "NoBatch",
            FRAMES_SPENT => "FramesSpent",
            HAS_RECORDS => "HasRecords",
            LOG_FAILED => "LogFailed",
            LOG_IN_USE => "LogInUse",
            NO_SESSION => "NoSession",
            SESSION_STAYS => "SessionStays",
            NAME_TAKEN => "NameTaken",
            DC_UNKNOWN => "DcUnknown",
            Refusal(code) => match (code >> 8) as u8 {
                b'V' => listed(&VIOLATIONS),
                b'E' => listed(&CODE_FAULTS),
                b'S' => listed(&SLOT_FAULTS),
                _ => "?",
            },
        }
    }
}
