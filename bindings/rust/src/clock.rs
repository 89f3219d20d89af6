//! Times of steps.

use crate::panics::unless_it_panics;
use std::ffi::c_int;
use std::mem::MaybeUninit;

extern "C" {
    /// Stores seconds and nanoseconds.
    fn clock_gettime(clock: c_int, time: *mut [u64; 2]) -> c_int;
}

const CLOCK_MONOTONIC: c_int = 1;

const NANOS_PER_MILLI: u64 = 1_000_000;

/// Returns the time by the clock of [`Instant`](std::time::Instant), in nanoseconds, in a quarter of its instructions.
#[inline]
fn monotonic() -> u64 {
    let mut time = MaybeUninit::uninit();
    // SAFETY: `timespec` has this layout where the crate compiles, with numbers that are not negative.
    let status = unsafe { clock_gettime(CLOCK_MONOTONIC, time.as_mut_ptr()) };
    assert!(status == 0, "the system has this clock");
    // SAFETY: the time is stored.
    let [seconds, nanos] = unsafe { time.assume_init() };
    seconds * 1_000_000_000 + nanos
}

/// A clock of the user's.
pub(crate) type GivenClock = Box<dyn Fn() -> u64 + Send + Sync>;

/// A time by a clock.
#[derive(Clone, Copy, Debug)]
pub(crate) struct Moment {
    /// In milliseconds, as entries have it.
    pub millis: u64,
    /// In nanoseconds modulo 2^64; the differences count.
    pub nanos: u64,
}

impl Moment {
    /// Returns this moment, or the beginning of the next millisecond by the system's clock: a wait from then on is as long as it is to be.
    pub fn rounded_up(self) -> Moment {
        let is_within = self.millis.wrapping_mul(NANOS_PER_MILLI) < self.nanos;
        let millis = self.millis + u64::from(is_within);
        Moment { millis, ..self }
    }

    pub fn of_millis(millis: u64) -> Moment {
        let nanos = millis.wrapping_mul(NANOS_PER_MILLI);
        Moment { millis, nanos }
    }
}

/// Returns times.
pub(crate) enum Clock {
    /// The time since this one of the system's clock, in nanoseconds.
    Since(u64),
    Given(GivenClock),
}

impl Clock {
    /// Returns a clock that counts from now on.
    pub fn since_now() -> Clock {
        Clock::Since(monotonic())
    }

    /// Returns the time, or none if the clock panicked.
    #[inline]
    pub fn read(&self) -> Option<Moment> {
        match self {
            Clock::Since(start) => {
                let nanos = monotonic().saturating_sub(*start);
                let millis = nanos / NANOS_PER_MILLI;
                Some(Moment { millis, nanos })
            }
            Clock::Given(clock) => read_given(clock),
        }
    }
}

/// Out of line, since its catch of a panic is long.
#[inline(never)]
fn read_given(clock: &GivenClock) -> Option<Moment> {
    unless_it_panics(clock).map(Moment::of_millis)
}

/// An object, and when it was made and lent.
#[derive(Debug)]
pub(crate) struct Aged<T> {
    pub object: T,
    /// In milliseconds; 0 if no lifetime is set.
    pub made: u64,
    /// When it was last lent, in nanoseconds; 0 if it never was.
    pub lent: u64,
}

impl<T> Aged<T> {
    /// Returns the object, lent at a time.
    #[inline]
    pub fn lent_at(mut self, at: Moment) -> Aged<T> {
        self.lent = at.nanos;
        self
    }
}

#[cfg(test)]
mod tests {
    use super::Clock;
    use std::thread;
    use std::time::{Duration, Instant};

    #[test]
    fn the_clock_of_the_system_is_that_of_instants() {
        let before = Instant::now();
        let clock = Clock::since_now();
        let begun = Instant::now();
        thread::sleep(Duration::from_millis(3));
        let least = begun.elapsed();
        let read = clock.read().unwrap();
        let most = before.elapsed();
        assert!((least..=most).contains(&Duration::from_nanos(read.nanos)));
        assert_eq!(read.millis, read.nanos / 1_000_000);
    }

    #[test]
    fn a_clock_before_its_start_reads_as_the_start() {
        let read = Clock::Since(u64::MAX).read().unwrap();
        assert_eq!((read.millis, read.nanos), (0, 0));
    }
}
