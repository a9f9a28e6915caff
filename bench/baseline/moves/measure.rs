//! How a rate is measured.

use crate::log::Log;
use std::sync::atomic::{AtomicBool, Ordering};
use std::thread;
use std::time::{Duration, Instant};

/// How much is done.
#[derive(Clone, Copy)]
pub enum Measure {
    /// As much as is done in so many seconds; logs are emptied, so that their memory is used again.
    Seconds(f64),
    /// So many moves, by all workers together; logs keep every event.
    Moves(u64),
}

/// Until when a worker goes on.
#[derive(Clone, Copy)]
pub enum Until<'a> {
    Stopped(&'a AtomicBool),
    Made(u64),
}

impl Until<'_> {
    /// Whether a worker that has made so many moves goes on.
    pub fn goes_on(self, made: u64) -> bool {
        match self {
            Until::Stopped(flag) => !flag.load(Ordering::Relaxed),
            Until::Made(moves) => made < moves,
        }
    }
}

impl Measure {
    /// A log, emptied at so many events where logs are emptied.
    pub fn log(self, most: usize) -> Log {
        match self {
            Measure::Seconds(_) => Log::emptied_at(most),
            Measure::Moves(_) => Log::whole(),
        }
    }

    /// Moves a second, by so many workers, each of which says how many it made.
    pub fn rate(self, workers: usize, work: impl Fn(usize, Until) -> u64 + Sync) -> f64 {
        let stop = AtomicBool::new(false);
        let until = match self {
            Measure::Seconds(_) => Until::Stopped(&stop),
            Measure::Moves(moves) => Until::Made(moves / workers as u64),
        };
        let begin = Instant::now();
        let made: u64 = thread::scope(|scope| {
            let work = &work;
            let started: Vec<_> =
                (0..workers).map(|worker| scope.spawn(move || work(worker, until))).collect();
            if let Measure::Seconds(seconds) = self {
                thread::sleep(Duration::from_secs_f64(seconds));
                stop.store(true, Ordering::Relaxed);
            }
            started.into_iter().map(|worker| worker.join().expect("no worker panics")).sum()
        });
        made as f64 / begin.elapsed().as_secs_f64()
    }
}
