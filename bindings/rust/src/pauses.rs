//! The pauses of a thread that waits, before it sleeps.

use std::hint::spin_loop;
use std::sync::OnceLock;
use std::thread;
use std::time::{Duration, Instant};

/// How long the first pause is. Each further one is twice as long, up to the longest.
const FIRST_PAUSE: Duration = Duration::from_nanos(250);
const LONGEST_PAUSE: Duration = Duration::from_micros(5);

/// How long the pauses of a wait are in all, at most.
const ALL_PAUSES: Duration = Duration::from_micros(25);

/// The pauses of one wait. The thread looks after each whether it has to wait any longer. They end by the clock: a thread that did not run for a
/// time pauses no longer for that.
#[derive(Debug)]
pub(crate) struct Pauses {
    start: Instant,
    /// How long it has paused, when the clock was read last.
    passed: Duration,
    all: Duration,
    next: Duration,
}

impl Pauses {
    /// Begins the pauses of a wait, which are no longer in all than the wait may be. There are none if the other threads, for which this one
    /// waits, need all processors: a pause would keep one of them from running.
    pub fn begin_beside(threads: usize, longest: Option<Duration>) -> Pauses {
        Pauses::begin_on(count_processors(), threads, longest)
    }

    fn begin_on(processors: usize, threads: usize, longest: Option<Duration>) -> Pauses {
        let all = match threads < processors {
            true => longest.map_or(ALL_PAUSES, |longest| longest.min(ALL_PAUSES)),
            false => Duration::ZERO,
        };
        Pauses {
            start: Instant::now(),
            passed: Duration::ZERO,
            all,
            next: FIRST_PAUSE,
        }
    }

    /// Pauses. Returns false, without a pause, if their time is over.
    pub fn pause(&mut self) -> bool {
        if self.passed >= self.all {
            return false;
        }
        let until = self.all.min(self.passed + self.next);
        self.next = (2 * self.next).min(LONGEST_PAUSE);
        while self.passed < until {
            spin_loop();
            self.passed = self.start.elapsed();
        }
        true
    }

    /// Returns the time from the beginning to the end of the last pause.
    pub fn passed(&self) -> Duration {
        self.passed
    }
}

/// Returns the number of processors that the process may use, 1 if it is not known. It is found out once, by calls of the system that allocate.
pub(crate) fn count_processors() -> usize {
    static PROCESSORS: OnceLock<usize> = OnceLock::new();
    *PROCESSORS.get_or_init(|| thread::available_parallelism().map_or(1, usize::from))
}

#[cfg(test)]
mod tests {
    use super::{Pauses, ALL_PAUSES};
    use std::time::Duration;

    /// Pauses until that ends. Returns how often.
    fn count(pauses: &mut Pauses) -> usize {
        (0..).find(|_| !pauses.pause()).unwrap()
    }

    /// If none takes longer than it has to, five pauses of 250 ns to 4 µs take 7.75 µs, three of 5 µs follow, and the last one is shorter.
    #[test]
    fn pauses_double_and_end() {
        let mut pauses = Pauses::begin_on(2, 1, None);
        let times = count(&mut pauses);
        assert!((1..=9).contains(&times), "{times} pauses");
        assert!(pauses.passed() >= ALL_PAUSES);
        assert!(!pauses.pause());
    }

    #[test]
    fn pauses_are_no_longer_than_the_wait() {
        for (nanos, times) in [(0, 0), (1, 1), (250, 1)] {
            let longest = Duration::from_nanos(nanos);
            let mut pauses = Pauses::begin_on(2, 1, Some(longest));
            assert_eq!(count(&mut pauses), times, "{nanos} ns");
            assert!(pauses.passed() >= longest);
        }
        assert!(count(&mut Pauses::begin_on(2, 1, Some(Duration::MAX))) <= 9);
    }

    #[test]
    fn there_is_no_pause_without_a_processor_for_it() {
        for (processors, threads) in [(1, 1), (4, 4), (4, 5)] {
            let mut pauses = Pauses::begin_on(processors, threads, None);
            assert_eq!(count(&mut pauses), 0);
            assert_eq!(pauses.passed(), Duration::ZERO);
        }
        assert!(Pauses::begin_on(4, 3, None).pause());
    }
}
