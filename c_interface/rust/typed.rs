//! Calls by the modules that mz_skeleton makes: what they log is what calls by name and number log, with each argument in its
//! place; and what their access slots hold by name is what they hold by number. The same of calls by a pool.
#[path = "../build/bank.rs"]
mod bank;
#[allow(dead_code)]
mod mazzulpe;
#[path = "../build/named.rs"]
mod named;

use mazzulpe::pool::{Ended, Options, Pool};
use mazzulpe::{
    Carried, DC_UNKNOWN, Dc, Event, NAME_TAKEN, NO_PROCEDURE, NO_TXN, NOT_OVER, Next, NotAdmitted, Outcome, Ran,
    Record, Refusal, Tc, Value, Wire,
};
use std::sync::Mutex;

/// What reads an access slot of a transaction.
type Slot = fn(&mut Tc, u64) -> Result<Option<Value>, Refusal>;

/// The same call, made by name at another component, logs the same.
fn is_by_name(typed: &mut Tc, by_name: &mut Tc, admitted: Result<u64, NotAdmitted>, name: &str, args: &[u64]) {
    let procedure = by_name.find(name).expect("it is loaded");
    assert_eq!(admitted, by_name.admit(procedure, args), "{name}");
    assert_eq!(typed.log_length(), by_name.log_length());
    let last = typed.log_length() - 1;
    assert_eq!(typed.log_bytes(last), by_name.log_bytes(last), "{name}");
}

/// Runs a call to its end: the first number of what each slot holds, which by name is what it is by its number.
fn read(tc: &mut Tc, dcs: &mut [Dc; 2], txn: u64, slots: &[Slot], outcome: Outcome) -> Vec<Option<u64>> {
    let carry =
        |wire: &Wire| dcs[usize::from(wire.op.record().dc)].perform(wire).map_or(Carried::Lost, Carried::Replied);
    assert!(slots.iter().all(|slot| slot(tc, txn) == Err(NOT_OVER)));
    assert_eq!(tc.run_until_over(txn, 1, carry), Ok(Ran::Over(())));
    let held = slots.iter().zip(0..).map(|(slot, number)| {
        let held = slot(tc, txn).expect("its run is over");
        assert_eq!(tc.result(txn, number), Ok(held));
        held.map(|value| u64::from_le_bytes(value[..8].try_into().expect("8 bytes")))
    });
    let held = held.collect();
    assert_eq!(tc.end(txn).expect("it is over").outcome, outcome);
    assert!(slots.iter().all(|slot| slot(tc, txn) == Err(NO_TXN)));
    held
}

/// Both balances behind a transfer, one of an account that isn't there, and a procedure with many slots.
fn slots(tc: &mut Tc) -> Result<(), NotAdmitted> {
    let mut dcs = [(); 2].map(|()| Dc::new(10, 100).expect("memory"));
    let mut read = |tc: &mut Tc, txn, slots: &[Slot], outcome| read(tc, &mut dcs, txn, slots, outcome);
    let here = bank::deposit_here(tc, 101, 100)?;
    assert_eq!(read(tc, here, &[bank::deposit_here_account], Outcome::Committed), [Some(100)]);
    let there = bank::deposit_there(tc, 102, 7)?;
    assert_eq!(read(tc, there, &[bank::deposit_there_account], Outcome::Committed), [Some(7)]);
    let moved = bank::move_(tc, 101, 102, 30)?;
    assert_eq!(read(tc, moved, &[bank::move_from, bank::move_to], Outcome::Committed), [Some(70), Some(37)]);
    let balances: [Slot; 2] = [bank::balances_here, bank::balances_there];
    let both = bank::balances(tc, 101, 102)?;
    assert_eq!(read(tc, both, &balances, Outcome::Committed), [Some(70), Some(37)]);
    let one = bank::balances(tc, 101, 103)?;
    assert_eq!(read(tc, one, &balances, Outcome::Aborted(1)), [Some(70), None]);
    let many: [Slot; 7] = [
        named::many_key_1,
        named::many_key_0_2,
        named::many_key_1_2,
        named::many_key_1_3_3,
        named::many_key_1_3_4,
        named::many_slot5_1,
        named::many_slot5_2,
    ];
    let txn = named::many(tc, 7, 8)?;
    assert_eq!(read(tc, txn, &many, Outcome::Committed), [1, 2, 3, 5, 50, 6, 7].map(Some));
    Ok(())
}

/// What stands in the way of a call is told, and whether waiting is in vain.
fn in_the_way(tc: &mut Tc) -> Result<(), Refusal> {
    let holder = named::put(tc, 7, 1).expect("nothing in the way");
    let record = Record { dc: 1, table: 5, key: 7 };
    assert_eq!(named::put(tc, 7, 2), Err(NotAdmitted::Busy { record, holder }));
    assert!(!named::put_blocked(tc, 7, 2)?);
    assert!(matches!(tc.ask(holder)?, Next::Request(_)));
    tc.give_up(holder)?;
    assert!(named::put_blocked(tc, 7, 2)? && !named::put_blocked(tc, 8, 2)?);
    Ok(())
}

/// The calls by a pool: each argument and each slot in its place.
fn by_pool(tc: Tc) -> Result<(), Refusal> {
    let dcs = [(); 2].map(|()| Mutex::new(Dc::new(10, 100).expect("memory")));
    let carry = move |wires: &[Wire]| {
        let mut dc = dcs[usize::from(wires[0].op.record().dc)].lock().expect("nobody panics");
        wires.iter().map(|wire| dc.perform(wire).map_or(Carried::Lost, Carried::Replied)).collect()
    };
    let pool: Pool = Pool::open(tc, None, 4, Options::default(), carry)?;
    let first = |ended: Ended| ended.values.iter().map(|it| it.map_or(0, |value| value[0])).collect::<Vec<_>>();
    assert_eq!(first(bank::deposit_here_call(&pool, 21, 100)?), [100]);
    assert_eq!(first(bank::deposit_there_call(&pool, 22, 7)?), [7]);
    assert_eq!(first(bank::move_call(&pool, 21, 22, 13)?), [87, 20]);
    assert_eq!(first(named::many_call(&pool, 21, 22)?), [1, 2, 3, 5, 50, 6, 7]);
    assert_eq!(first(named::mixed_call(&pool, 1, 2, 3, 4, 5, 6, 7, 8)?), [0, 0]);
    let args = pool.look(|tc| (0..).map_while(|place| tc.log_at(place).ok()).filter_map(args_of).last());
    assert_eq!(args, Some(vec![1, 2, 3, 4, 5, 6, 7, 8]));
    Ok(())
}

fn args_of(event: Event) -> Option<Vec<u64>> {
    match event {
        Event::Admit { args, .. } => Some(args),
        _ => None,
    }
}

fn main() -> Result<(), Refusal> {
    assert_eq!((bank::DCS, named::DCS), (2, 2));
    let mut typed = Tc::new(bank::DCS)?;
    assert_eq!(named::put(&mut typed, 1, 2), Err(NotAdmitted::Refused(NO_PROCEDURE)));
    assert_eq!(named::put_blocked(&mut typed, 1, 2), Err(NO_PROCEDURE));
    assert_eq!(bank::open(&mut typed), Ok(()));
    assert_eq!(named::open(&mut typed), Ok(()));
    assert_eq!(named::open(&mut typed), Err((NAME_TAKEN, "put".to_string(), 0)));
    let mut small = Tc::new(named::DCS - 1)?;
    assert_eq!(named::open(&mut small), Err((DC_UNKNOWN, "put".to_string(), 0)));
    assert_eq!(small.find("plain"), Err(NO_PROCEDURE));
    let mut by_name = Tc::new(2)?;
    by_name.load_object_file("build/bank.o").map_err(|(refusal, ..)| refusal)?;
    by_name.load_object_file("build/named.o").map_err(|(refusal, ..)| refusal)?;
    let admitted = bank::move_(&mut typed, 11, 12, 13);
    is_by_name(&mut typed, &mut by_name, admitted, "move", &[11, 12, 13]);
    let admitted = named::mixed(&mut typed, 11, 12, 13, 14, 15, 16, 17, 18);
    is_by_name(&mut typed, &mut by_name, admitted, "mixed", &[11, 12, 13, 14, 15, 16, 17, 18]);
    let admitted = named::match_(&mut typed, 11, 12, 13, 14, 15);
    is_by_name(&mut typed, &mut by_name, admitted, "match", &[11, 12, 13, 14, 15]);
    let admitted = named::nothing(&mut typed);
    is_by_name(&mut typed, &mut by_name, admitted, "nothing", &[]);
    in_the_way(&mut typed)?;
    slots(&mut typed).expect("nothing in the way");
    by_pool(typed)?;
    println!("typed calls in Rust: as calls by name, and slots by name as by number");
    Ok(())
}
