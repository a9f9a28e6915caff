//! moves SECONDS, or moves --whole MOVES: how often a plain Rust program moves an amount between two of a
//! thousand records, with no procedures, no resends and no undo. Ten events of 96 bytes are logged for each
//! move. Without `--whole` a log is emptied where it has half a million or two million events, so that its
//! memory is used again; with it so many moves are made, and each log is kept to its end.
//!
//! The shapes: `coarse` does all under one taking of one lock; `claims` takes it twice, and works on rows
//! under locks of their own between; `fine` has no shared state but a log for each worker; `steps` takes the
//! lock at each of a move's steps, and another for the component of the rows, as `bench calls` does; `rings`
//! has that component in a thread of its own behind bounded queues, as `bench rings` has.

mod locks;
mod log;
mod measure;
mod rows;
mod steps;

use measure::Measure;

const TRIES: u32 = 3;

const SHAPES: [(&str, fn(usize, Measure) -> f64); 5] = [
    ("coarse", locks::coarse),
    ("claims", locks::claims),
    ("fine", locks::fine),
    ("steps", steps::locked),
    ("rings", steps::rings),
];

fn measure_of(words: &[String]) -> Option<Measure> {
    match words {
        [seconds] => seconds.parse().ok().map(Measure::Seconds),
        [flag, moves] if flag == "--whole" => moves.parse().ok().map(Measure::Moves),
        _ => None,
    }
}

fn main() {
    let words: Vec<String> = std::env::args().skip(1).collect();
    let Some(measure) = measure_of(&words) else {
        eprintln!("usage: moves SECONDS\n       moves --whole MOVES");
        std::process::exit(2);
    };
    println!("{:<8} {:>8} {:>14}  (best of {TRIES})", "shape", "workers", "moves/s");
    for (name, shape) in SHAPES {
        for workers in [1, 2, 4] {
            let rate = (0..TRIES).map(|_| shape(workers, measure)).fold(0.0, f64::max);
            println!("{name:<8} {workers:>8} {rate:>14.0}");
        }
    }
}
