//! The turns of workers, and what they report.

use std::fmt;
use std::time::{Duration, Instant};

pub type Failure = Box<dyn std::error::Error + Send + Sync>;

/// The connections of a pool.
pub const CONNECTIONS: u32 = 4;

/// No worker waits as long for a connection.
pub const LONGEST_WAIT: Duration = Duration::from_secs(60);

/// A turn: workers that share a pool, and for how long they transfer.
#[derive(Clone, Copy)]
pub struct Turn {
    pub workers: usize,
    pub length: Duration,
}

impl Turn {
    /// Reads a turn from the words `WORKERS MILLISECONDS`. Returns `None` if they are others.
    pub fn parse(line: &str) -> Option<Turn> {
        let words: Vec<&str> = line.split(' ').collect();
        let [workers, milliseconds] = words.as_slice() else {
            return None;
        };
        Some(Turn {
            workers: workers.parse().ok().filter(|&workers| workers > 0)?,
            length: Duration::from_millis(milliseconds.parse().ok()?),
        })
    }

    /// The number of a worker's next transfer, by which its accounts are chosen. No two workers of a turn have a number in common.
    pub fn number(&self, worker: usize, work: &Work) -> i32 {
        (worker + self.workers * work.made) as i32
    }
}

/// What a worker did.
#[derive(Default)]
pub struct Work {
    pub made: usize,
    longest: Duration,
}

impl Work {
    /// Notes a transfer whose connection was asked for at one time and lent at another.
    pub fn note(&mut self, asked: Instant, lent: Instant) {
        self.made += 1;
        self.longest = self.longest.max(lent - asked);
    }
}

/// What all workers of a turn did, and how long it took.
pub struct Report {
    work: Work,
    took: Duration,
}

impl Report {
    /// Adds up the works of a turn.
    pub fn of(works: Vec<Work>, took: Duration) -> Report {
        let made = works.iter().map(|work| work.made).sum();
        let longest = works.iter().map(|work| work.longest).max();
        let longest = longest.unwrap_or_default();
        let work = Work { made, longest };
        Report { work, took }
    }
}

impl fmt::Display for Report {
    fn fmt(&self, to: &mut fmt::Formatter<'_>) -> fmt::Result {
        let (made, took) = (self.work.made, self.took.as_micros());
        let longest = self.work.longest.as_micros();
        write!(
            to,
            "{made} transfers in {took} us, longest wait {longest} us"
        )
    }
}
