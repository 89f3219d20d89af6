//! The common part of the pools in Rust that `bench/peers` runs: their arguments, and their threads.

use std::sync::Barrier;
use std::{env, thread};

/// Threads that share a pool.
pub struct Task {
    /// The objects that may be present at one time.
    pub objects: u32,
    pub threads: usize,
    /// The pairs of a borrow and a return that each thread makes.
    pub rounds: u64,
}

impl Task {
    /// Reads the task from the arguments `OBJECTS THREADS ROUNDS`. Returns `None` if they are others.
    pub fn from_arguments() -> Option<Task> {
        let words: Vec<String> = env::args().skip(1).collect();
        let [objects, threads, rounds] = words.as_slice() else {
            return None;
        };
        Some(Task {
            objects: objects.parse().ok()?,
            threads: threads.parse().ok()?,
            rounds: rounds.parse().ok()?,
        })
    }

    /// Calls `pair` with the thread's number for each round of each thread. All threads begin at the same time.
    pub fn run(&self, pair: impl Fn(usize) + Sync) {
        let start = Barrier::new(self.threads);
        thread::scope(|scope| {
            for number in 0..self.threads {
                let (pair, start) = (&pair, &start);
                scope.spawn(move || {
                    start.wait();
                    (0..self.rounds).for_each(|_| pair(number));
                });
            }
        });
    }
}
