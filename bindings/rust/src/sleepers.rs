//! The threads and the tasks that sleep, by the tickets that the core has given their calls.

use crate::panics::unless_it_panics;
use crate::proved_core::CallCopy;
use crate::woken::WokenTasks;
use std::collections::VecDeque;
use std::mem;
use std::sync::atomic::{AtomicU64, Ordering};
use std::sync::Arc;
use std::task::Waker;
use std::thread::Thread;

/// The ticket of the oldest sleeper, or the greatest number, for threads that do not have the lock. It is in a cache line of its own, which changes
/// only if another sleeper is the oldest one: so a thread that looks again and again disturbs nobody.
#[derive(Debug)]
#[repr(align(64))]
pub(crate) struct OldestSleeper(AtomicU64);

impl OldestSleeper {
    /// Returns whether one that slept with this ticket sleeps no longer: the core wakes sleepers in ascending order of their tickets. It does not
    /// see that if an older one, which was woken before, sleeps again.
    #[inline]
    pub fn is_after(&self, ticket: u64) -> bool {
        self.0.load(Ordering::Relaxed) > ticket
    }

    fn set(&self, oldest: u64) {
        if self.0.load(Ordering::Relaxed) != oldest {
            self.0.store(oldest, Ordering::Relaxed);
        }
    }
}

/// What wakes a sleeper.
#[derive(Debug)]
pub(crate) enum Alarm {
    Thread(Thread),
    /// The waker of a task, which has none before the end of the poll in which it falls asleep, and its call.
    Task(Option<Waker>, CallCopy),
}

impl Alarm {
    /// Wakes a sleeper. Fails with the call of a task whose waker panicked.
    pub fn ring(self) -> Result<(), CallCopy> {
        match self {
            Alarm::Thread(thread) => {
                thread.unpark();
                Ok(())
            }
            Alarm::Task(None, _) => Ok(()),
            Alarm::Task(Some(waker), call) => unless_it_panics(|| waker.wake()).ok_or(call),
        }
    }
}

/// The tickets of calls to wake, as the core told them.
#[derive(Clone, Copy, Debug, Default)]
pub(crate) struct Wakes {
    tickets: [u64; 4],
    len: usize,
}

impl Wakes {
    /// Those of a step or of a call: one ticket, if it told one.
    #[inline]
    pub fn of(ticket: Option<u64>) -> Wakes {
        let mut wakes = Wakes::default();
        wakes.push(ticket);
        wakes
    }

    #[inline]
    pub fn is_empty(&self) -> bool {
        self.len == 0
    }

    /// Adds a ticket, if there is one. A call of a pool has the core told for four at most.
    #[inline]
    pub fn push(&mut self, ticket: Option<u64>) {
        if let Some(ticket) = ticket {
            self.tickets[self.len] = ticket;
            self.len += 1;
        }
    }

    pub fn pop(&mut self) -> Option<u64> {
        self.len = self.len.checked_sub(1)?;
        Some(self.tickets[self.len])
    }
}

/// Those that sleep, in ascending order of their tickets, each with its alarm. Drop an alarm without the lock: it may be code of others.
#[derive(Debug)]
pub(crate) struct Sleepers {
    asleep: VecDeque<(u64, Alarm)>,
    /// The tickets of tasks whose wakers were called, until their calls go on.
    pub woken: WokenTasks,
    /// Whether a task sleeps, or has slept.
    has_tasks: bool,
    oldest: Arc<OldestSleeper>,
}

impl Sleepers {
    pub fn new() -> Sleepers {
        Sleepers {
            asleep: VecDeque::new(),
            woken: WokenTasks::default(),
            has_tasks: false,
            oldest: Arc::new(OldestSleeper(AtomicU64::new(u64::MAX))),
        }
    }

    /// Returns how many sleep.
    #[inline]
    pub fn len(&self) -> usize {
        self.asleep.len()
    }

    /// Returns whether a task sleeps, or has slept.
    pub fn has_tasks(&self) -> bool {
        self.has_tasks
    }

    /// Returns how many sleep with lower tickets.
    pub fn older(&self, ticket: u64) -> usize {
        self.asleep.partition_point(|sleeper| sleeper.0 < ticket)
    }

    /// Returns where the oldest sleeper is seen without the lock.
    pub fn oldest(&self) -> Arc<OldestSleeper> {
        Arc::clone(&self.oldest)
    }

    /// Shows who is the oldest.
    fn show_oldest(&self) {
        let oldest = self.asleep.front();
        self.oldest
            .set(oldest.map_or(u64::MAX, |sleeper| sleeper.0));
    }

    /// Returns the position of a ticket, or the one where it belongs.
    fn position(&self, ticket: u64) -> Result<usize, usize> {
        self.asleep
            .binary_search_by_key(&ticket, |sleeper| sleeper.0)
    }

    pub fn has(&self, ticket: u64) -> bool {
        self.position(ticket).is_ok()
    }

    /// Returns whether one sleeps as a task that has no waker yet.
    pub fn lacks_waker(&self, ticket: u64) -> bool {
        let position = self.position(ticket);
        position.is_ok_and(|position| matches!(self.asleep[position].1, Alarm::Task(None, _)))
    }

    /// One falls asleep, or sleeps on with another alarm. Returns the alarm that it had.
    ///
    /// # Errors
    ///
    /// There is no memory. It does not sleep, and its alarm is returned.
    pub fn sleep(&mut self, ticket: u64, alarm: Alarm) -> Result<Option<Alarm>, Alarm> {
        self.has_tasks |= matches!(alarm, Alarm::Task(..));
        match self.position(ticket) {
            Ok(position) => Ok(Some(mem::replace(&mut self.asleep[position].1, alarm))),
            Err(_) if !self.reserve() => Err(alarm),
            Err(position) => {
                self.asleep.insert(position, (ticket, alarm));
                self.show_oldest();
                Ok(None)
            }
        }
    }

    /// Reserves memory for one more sleeper, and for the wake of each. Returns whether there is enough.
    fn reserve(&mut self) -> bool {
        let most = self.asleep.len() + 1;
        self.asleep.try_reserve(1).is_ok() && self.woken.reserve(most)
    }

    /// One is to be woken. Returns its alarm, if it sleeps.
    pub fn wake(&mut self, ticket: u64) -> Option<Alarm> {
        let alarm = self.leave(ticket)?;
        if let Alarm::Task(_, call) = &alarm {
            self.woken.push(ticket, *call);
        }
        Some(alarm)
    }

    /// A call goes on. Returns whether it slept or was woken as a task, and its alarm, if it slept.
    pub fn go_on(&mut self, ticket: u64) -> (bool, Option<Alarm>) {
        let was_woken = self.woken.forget(ticket);
        let alarm = self.leave(ticket);
        (was_woken || alarm.is_some(), alarm)
    }

    /// One sleeps no longer. Returns its alarm, if it slept.
    fn leave(&mut self, ticket: u64) -> Option<Alarm> {
        let position = self.position(ticket).ok()?;
        let left = self.asleep.remove(position);
        self.show_oldest();
        left.map(|sleeper| sleeper.1)
    }

    /// Takes all alarms.
    pub fn take_all(&mut self) -> VecDeque<(u64, Alarm)> {
        mem::take(&mut self.asleep)
    }
}

#[cfg(test)]
mod tests {
    use super::{Alarm, Sleepers, Wakes};
    use crate::proved_core::CallCopy;
    use std::sync::atomic::{AtomicU32, Ordering};
    use std::sync::Arc;
    use std::task::{self, Waker};
    use std::thread;

    /// Counts its wakes.
    #[derive(Default)]
    struct Counter(AtomicU32);

    impl task::Wake for Counter {
        fn wake(self: Arc<Self>) {
            self.0.fetch_add(1, Ordering::Relaxed);
        }
    }

    fn alarm(counter: &Arc<Counter>) -> Alarm {
        Alarm::Task(Some(Waker::from(Arc::clone(counter))), CallCopy::default())
    }

    /// Sleepers with these tickets, who came in this order.
    fn asleep(tickets: &[u64]) -> Sleepers {
        let mut sleepers = Sleepers::new();
        for &ticket in tickets {
            let alarm = Alarm::Thread(thread::current());
            assert!(sleepers.sleep(ticket, alarm).unwrap().is_none());
        }
        sleepers
    }

    #[test]
    fn sleepers_are_in_the_order_of_their_tickets() {
        let mut sleepers = asleep(&[4, 2, 7]);
        assert_eq!((sleepers.len(), sleepers.older(4)), (3, 1));
        assert_eq!((sleepers.older(5), sleepers.older(9)), (2, 3));
        assert!(sleepers.has(4) && !sleepers.has(5));
        assert!(sleepers.leave(4).is_some());
        assert!(sleepers.leave(4).is_none());
        assert_eq!((sleepers.len(), sleepers.older(7)), (2, 1));
    }

    #[test]
    fn wakes_are_kept_until_they_are_done() {
        let mut wakes = Wakes::default();
        for ticket in [Some(1), None, Some(2), Some(3), Some(4)] {
            wakes.push(ticket);
        }
        let mut tickets: Vec<_> = std::iter::from_fn(|| wakes.pop()).collect();
        tickets.sort();
        assert_eq!(tickets, [1, 2, 3, 4]);
        assert!(wakes.is_empty());
    }

    #[test]
    fn one_who_sleeps_on_has_its_last_alarm() {
        let counters = [(); 2].map(|()| Arc::new(Counter::default()));
        let mut sleepers = Sleepers::new();
        assert!(sleepers.sleep(3, alarm(&counters[0])).unwrap().is_none());
        assert!(sleepers.sleep(3, alarm(&counters[1])).unwrap().is_some());
        assert!(sleepers.leave(3).unwrap().ring().is_ok());
        let rings = counters.map(|counter| counter.0.load(Ordering::Relaxed));
        assert_eq!(rings, [0, 1]);
    }

    #[test]
    fn a_task_is_woken_until_it_goes_on() {
        let counter = Arc::new(Counter::default());
        let mut sleepers = asleep(&[1]);
        for ticket in 2..5 {
            assert!(sleepers.sleep(ticket, alarm(&counter)).unwrap().is_none());
        }
        for ticket in 1..5 {
            assert!(sleepers.wake(ticket).is_some());
            assert!(sleepers.wake(ticket).is_none());
        }
        assert!(matches!(sleepers.go_on(3), (true, None)));
        assert!(matches!(sleepers.go_on(3), (false, None)));
        let woken = [1, 2, 3, 4, 4].map(|ticket| sleepers.woken.forget(ticket));
        assert_eq!(woken, [false, true, false, true, false]);
    }

    #[test]
    fn who_sleeps_no_longer_is_seen_without_the_lock() {
        let mut sleepers = asleep(&[1, 2, 3]);
        let oldest = sleepers.oldest();
        assert!(!oldest.is_after(1));
        sleepers.leave(1);
        assert!(oldest.is_after(1) && !oldest.is_after(2));
        let alarm = Alarm::Thread(thread::current());
        sleepers.sleep(1, alarm).unwrap();
        assert!(!oldest.is_after(1));
        sleepers.leave(1);
        sleepers.leave(3);
        assert!(oldest.is_after(1) && !oldest.is_after(2));
        sleepers.leave(2);
        assert!(oldest.is_after(2));
    }

    #[test]
    fn a_waker_that_panics_names_its_call() {
        struct Broken;
        impl task::Wake for Broken {
            fn wake(self: Arc<Self>) {
                std::panic::resume_unwind(Box::new(()));
            }
        }
        let waker = Some(Waker::from(Arc::new(Broken)));
        assert!(Alarm::Task(waker, CallCopy::default()).ring().is_err());
    }
}
