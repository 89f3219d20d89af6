//! The common part of the programs in Rust that `bench/longest_waits` runs: `PROGRAM HOLD_MICROSECONDS WAITS`.
//!
//! One thread borrows the only object of a pool, holds it, returns it and borrows it again at once. Another borrows it WAITS times, with a pause
//! after each. Prints how long these borrows took.

use std::hint::spin_loop;
use std::process::ExitCode;
use std::sync::atomic::{AtomicBool, Ordering};
use std::sync::Barrier;
use std::time::{Duration, Instant};
use std::{env, thread};

/// The longest hold that a thread spins for. In a longer one it sleeps.
const LONGEST_SPIN: Duration = Duration::from_micros(10);

/// What the second thread does between two borrows: nothing.
const PAUSE: Duration = Duration::from_millis(1);

struct Task {
    hold: Duration,
    waits: usize,
}

impl Task {
    /// Reads the task from the arguments. Returns `None` if they are others.
    fn from_arguments() -> Option<Task> {
        let words: Vec<String> = env::args().skip(1).collect();
        let [hold, waits] = words.as_slice() else {
            return None;
        };
        let waits = waits.parse().ok().filter(|&waits| waits > 0)?;
        let hold = Duration::from_micros(hold.parse().ok()?);
        Some(Task { hold, waits })
    }

    /// Holds an object.
    fn hold(&self) {
        if self.hold > LONGEST_SPIN {
            return thread::sleep(self.hold);
        }
        let start = Instant::now();
        while start.elapsed() < self.hold {
            spin_loop();
        }
    }

    /// Returns how long each borrow of the second thread took. `borrow` returns a guard whose drop returns the object.
    fn waits<G>(&self, borrow: impl Fn() -> G + Sync) -> Vec<Duration> {
        let (start, is_over) = (Barrier::new(2), AtomicBool::new(false));
        thread::scope(|scope| {
            scope.spawn(|| {
                start.wait();
                while !is_over.load(Ordering::Relaxed) {
                    let guard = borrow();
                    self.hold();
                    drop(guard);
                }
            });
            start.wait();
            let waits = (0..self.waits).map(|_| one_wait(&borrow)).collect();
            is_over.store(true, Ordering::Relaxed);
            waits
        })
    }
}

/// Borrows and returns, and then pauses. Returns how long the borrow took.
fn one_wait<G>(borrow: impl Fn() -> G) -> Duration {
    let start = Instant::now();
    let guard = borrow();
    let waited = start.elapsed();
    drop(guard);
    thread::sleep(PAUSE);
    waited
}

/// Does what the arguments say, over a pool from which `borrow` gets the guard of an object.
pub fn play<G>(borrow: impl Fn() -> G + Sync) -> ExitCode {
    let Some(task) = Task::from_arguments() else {
        return ExitCode::from(2);
    };
    let mut waits = task.waits(borrow);
    waits.sort_unstable();
    let (longest, median) = (waits[waits.len() - 1], waits[waits.len() / 2]);
    println!(
        "{} waits, longest {} us, median {} us",
        waits.len(),
        longest.as_micros(),
        median.as_micros()
    );
    ExitCode::SUCCESS
}
