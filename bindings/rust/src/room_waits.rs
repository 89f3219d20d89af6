//! The tasks that wait for room in the journal while a thread writes a segment.

use crate::panics::unless_it_panics;
use crate::proved_core::CallCopy;
use crate::woken::WokenTasks;
use std::task::Waker;

/// The number of a task that waits, its waker, and its call.
type Waiting = (u64, Waker, CallCopy);

/// The wakers of those tasks, each under a number. Drop one without the lock: it may be code of others.
#[derive(Debug, Default)]
pub(crate) struct RoomWakers {
    wakers: Vec<Waiting>,
    /// The numbers of those that were called, until their calls go on.
    pub woken: WokenTasks,
    /// The number of the last one.
    last: u64,
}

impl RoomWakers {
    /// Keeps the waker of a call. Returns its number.
    ///
    /// # Errors
    ///
    /// There is no memory, and the waker is returned.
    pub fn keep(&mut self, waker: Waker, call: CallCopy) -> Result<u64, Waker> {
        if !self.reserve() {
            return Err(waker);
        }
        self.last += 1;
        self.wakers.push((self.last, waker, call));
        Ok(self.last)
    }

    /// Reserves memory for one more waker, and for the number of each. Returns whether there is enough.
    fn reserve(&mut self) -> bool {
        let most = self.wakers.len() + 1;
        self.wakers.try_reserve(1).is_ok() && self.woken.reserve(most)
    }

    /// A call goes on. Returns whether it waited or was woken, and its waker, if that was not called.
    pub fn go_on(&mut self, number: u64) -> (bool, Option<Waker>) {
        let was_woken = self.woken.forget(number);
        let position = self.wakers.iter().position(|one| one.0 == number);
        let waker = position.map(|position| self.wakers.swap_remove(position).1);
        (was_woken || waker.is_some(), waker)
    }

    /// Takes all wakers, which are called.
    pub fn take_all(&mut self) -> Vec<Waiting> {
        for (number, _, call) in &self.wakers {
            self.woken.push(*number, *call);
        }
        std::mem::take(&mut self.wakers)
    }
}

/// Wakes tasks, without the lock. Returns the numbers and the calls of those whose wakers panicked.
pub(crate) fn wake_all(wakers: Vec<Waiting>) -> impl Iterator<Item = (u64, CallCopy)> {
    wakers.into_iter().filter_map(|(number, waker, call)| {
        let woken = unless_it_panics(|| waker.wake());
        woken.is_none().then_some((number, call))
    })
}

#[cfg(test)]
mod tests {
    use super::{wake_all, RoomWakers};
    use crate::proved_core::CallCopy;
    use std::sync::atomic::{AtomicU32, Ordering};
    use std::sync::Arc;
    use std::task::{Wake, Waker};

    /// Counts its wakes, and panics in each.
    #[derive(Default)]
    struct Broken(AtomicU32);

    impl Wake for Broken {
        fn wake(self: Arc<Self>) {
            self.0.fetch_add(1, Ordering::Relaxed);
            std::panic::resume_unwind(Box::new(()));
        }
    }

    #[test]
    fn all_are_woken_though_each_panics() {
        let counter = Arc::new(Broken::default());
        let mut wakers = RoomWakers::default();
        let numbers = [(); 3].map(|()| {
            let waker = Waker::from(Arc::clone(&counter));
            wakers.keep(waker, CallCopy::default()).unwrap()
        });
        assert_eq!(numbers, [1, 2, 3]);
        assert!(matches!(wakers.go_on(2), (true, Some(_))));
        assert!(matches!(wakers.go_on(2), (false, None)));
        let panicked: Vec<_> = wake_all(wakers.take_all()).map(|one| one.0).collect();
        assert_eq!(panicked, [1, 3]);
        assert_eq!(counter.0.load(Ordering::Relaxed), 2);
        // The first one goes on, and the last one does not.
        assert!(matches!(wakers.go_on(1), (true, None)));
        let forgotten = [1, 3, 3].map(|number| wakers.woken.forget(number));
        assert_eq!(forgotten, [false, true, false]);
    }
}
