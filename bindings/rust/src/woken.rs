//! The tasks that were woken, until their calls go on.

use crate::proved_core::CallCopy;
use std::collections::VecDeque;
use std::time::{Duration, Instant};

/// How long a task has its wake if it is not polled.
pub(crate) const LONGEST_WAKE: Duration = Duration::from_secs(1);

/// A task that was woken: its number, its call, and when that was.
#[derive(Debug)]
struct Woken {
    number: u64,
    call: CallCopy,
    at: Instant,
}

/// Those tasks, in the order of their wakes.
#[derive(Debug, Default)]
pub(crate) struct WokenTasks(VecDeque<Woken>);

impl WokenTasks {
    /// Reserves memory for some more. Returns whether there is enough.
    pub fn reserve(&mut self, count: usize) -> bool {
        self.0.try_reserve(count).is_ok()
    }

    /// Returns whether a task was woken at least this long ago, and its call has not gone on.
    #[inline(always)]
    pub fn has_older(&self, age: Duration) -> bool {
        !self.0.is_empty() && self.is_older(age)
    }

    #[cold]
    fn is_older(&self, age: Duration) -> bool {
        self.0
            .front()
            .is_some_and(|woken| woken.at.elapsed() >= age)
    }

    /// A task is woken now.
    pub fn push(&mut self, number: u64, call: CallCopy) {
        let at = Instant::now();
        self.0.push_back(Woken { number, call, at });
    }

    /// Returns whether a task was woken, and its call has not gone on since then. It counts as not woken from now on.
    pub fn forget(&mut self, number: u64) -> bool {
        let position = self.0.iter().position(|woken| woken.number == number);
        position.is_some_and(|position| self.0.remove(position).is_some())
    }

    /// Returns the call of a task that was woken at least this long ago, and has not gone on. It counts as not woken from now on.
    pub fn take_older(&mut self, age: Duration) -> Option<CallCopy> {
        let oldest = self.is_older(age).then(|| self.0.pop_front()).flatten();
        oldest.map(|woken| woken.call)
    }
}

#[cfg(test)]
mod tests {
    use super::WokenTasks;
    use crate::proved_core::CallCopy;
    use std::time::Duration;

    #[test]
    fn a_task_is_woken_until_it_goes_on() {
        let mut woken = WokenTasks::default();
        for number in [3, 1, 2] {
            woken.push(number, CallCopy::default());
        }
        let forgotten = [1, 1, 4].map(|number| woken.forget(number));
        assert_eq!(forgotten, [true, false, false]);
        assert!(woken.take_older(Duration::MAX).is_none());
        assert!(woken.take_older(Duration::ZERO).is_some());
        // That was the one that was woken first.
        assert!(!woken.forget(3) && woken.forget(2));
        assert!(woken.take_older(Duration::ZERO).is_none());
    }
}
