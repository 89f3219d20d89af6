//! A lock that is taken by one exchange while it is free, and what threads wait for that let it go meanwhile.
//!
//! It is a word, as the mutex of std, but for the test on each way whether a thread panics: a panic leaves no pool half done
//! ([`Shared::lock`](crate::shared::Shared::lock)).

use crate::pauses::Pauses;
use std::cell::UnsafeCell;
use std::marker::PhantomData;
use std::ops::{Deref, DerefMut};
use std::sync::atomic::{AtomicU8, Ordering};
use std::sync::{Condvar, Mutex, MutexGuard, PoisonError};
use std::time::Duration;

const FREE: u8 = 0;
const HELD: u8 = 1;
/// It is held, and threads may sleep until it is free.
const AWAITED: u8 = 2;

/// Whether the lock is held, in a cache line of its own: threads that look at it leave the holder's data alone.
#[repr(align(64))]
struct Word(AtomicU8);

/// A value that one thread has at a time. A thread that waits looks at the word, pauses for a short time, and then sleeps.
pub(crate) struct Locked<T> {
    word: Word,
    /// Held from the last look at the word to the sleep, so that no wake comes between.
    sleepers: Mutex<()>,
    freed: Condvar,
    value: UnsafeCell<T>,
}

// SAFETY: a guard alone leads to the value, and there is one at a time.
unsafe impl<T: Send> Sync for Locked<T> {}

/// The right to the value, until it is dropped.
pub(crate) struct Guard<'a, T> {
    lock: &'a Locked<T>,
    /// It is shared among threads as the value may be.
    value: PhantomData<&'a mut T>,
}

/// What threads wait for that let a lock go meanwhile.
pub(crate) struct Bell {
    rings: Mutex<u64>,
    rung: Condvar,
}

fn taken<T>(mutex: &Mutex<T>) -> MutexGuard<'_, T> {
    mutex.lock().unwrap_or_else(PoisonError::into_inner)
}

impl Bell {
    pub fn new() -> Bell {
        Bell {
            rings: Mutex::new(0),
            rung: Condvar::new(),
        }
    }

    /// Wakes all that wait.
    pub fn ring(&self) {
        let mut rings = taken(&self.rings);
        *rings = rings.wrapping_add(1);
        drop(rings);
        self.rung.notify_all();
    }
}

impl<T> Locked<T> {
    pub fn new(value: T) -> Locked<T> {
        Locked {
            word: Word(AtomicU8::new(FREE)),
            sleepers: Mutex::new(()),
            freed: Condvar::new(),
            value: UnsafeCell::new(value),
        }
    }

    /// Returns the value, which no other thread can have.
    pub fn get_mut(&mut self) -> &mut T {
        self.value.get_mut()
    }

    /// Takes the lock, and waits for it.
    #[inline(always)]
    pub fn lock(&self) -> Guard<'_, T> {
        if !self.is_taken() {
            self.wait_for_lock();
        }
        self.guard()
    }

    /// Takes the lock if it is free.
    #[inline]
    pub fn try_lock(&self) -> Option<Guard<'_, T>> {
        self.is_taken().then(|| self.guard())
    }

    /// Takes the lock if it is free, and returns whether it was.
    #[inline(always)]
    fn is_taken(&self) -> bool {
        let word = &self.word.0;
        word.compare_exchange(FREE, HELD, Ordering::Acquire, Ordering::Relaxed)
            .is_ok()
    }

    /// Returns the right to the value. The lock was taken.
    #[inline(always)]
    fn guard(&self) -> Guard<'_, T> {
        Guard {
            lock: self,
            value: PhantomData,
        }
    }

    #[cold]
    fn wait_for_lock(&self) {
        if !self.spin() {
            let mut sleepers = taken(&self.sleepers);
            while self.word.0.swap(AWAITED, Ordering::Acquire) != FREE {
                let woken = self.freed.wait(sleepers);
                sleepers = woken.unwrap_or_else(PoisonError::into_inner);
            }
        }
    }

    /// Looks at the word after each of some pauses, until the lock is taken or the time for them is over. Returns whether it is taken. While a thread
    /// pauses, another one keeps what it needs for many critical sections in its processor's cache.
    fn spin(&self) -> bool {
        let mut pauses = Pauses::begin_beside(1, None);
        while pauses.pause() {
            if self.word.0.load(Ordering::Relaxed) == FREE && self.is_taken() {
                return true;
            }
        }
        false
    }

    /// Wakes a thread that sleeps until the lock is free.
    #[cold]
    fn wake_sleeper(&self) {
        drop(taken(&self.sleepers));
        self.freed.notify_one();
    }

    /// Frees the lock, sleeps until the bell rings or the time is over, and takes the lock again.
    pub fn wait<'a>(
        &'a self,
        guard: Guard<'a, T>,
        bell: &Bell,
        longest: Option<Duration>,
    ) -> Guard<'a, T> {
        let rings = taken(&bell.rings);
        let before = *rings;
        drop(guard);
        let is_silent = |now: &mut u64| *now == before;
        match longest {
            Some(time) => drop(bell.rung.wait_timeout_while(rings, time, is_silent)),
            None => drop(bell.rung.wait_while(rings, is_silent)),
        }
        self.lock()
    }
}

impl<T> Deref for Guard<'_, T> {
    type Target = T;

    #[inline]
    fn deref(&self) -> &T {
        // SAFETY: the guard has the lock.
        unsafe { &*self.lock.value.get() }
    }
}

impl<T> DerefMut for Guard<'_, T> {
    #[inline]
    fn deref_mut(&mut self) -> &mut T {
        // SAFETY: the guard has the lock.
        unsafe { &mut *self.lock.value.get() }
    }
}

impl<T> Drop for Guard<'_, T> {
    #[inline(always)]
    fn drop(&mut self) {
        if self.lock.word.0.swap(FREE, Ordering::Release) == AWAITED {
            self.lock.wake_sleeper();
        }
    }
}

#[cfg(test)]
mod tests {
    use super::{Bell, Locked, FREE};
    use std::sync::atomic::Ordering;
    use std::thread;
    use std::time::{Duration, Instant};

    #[test]
    fn one_thread_at_a_time_has_the_value() {
        const TIMES: u64 = 20_000;
        let locked = Locked::new((0_u64, 0_u64));
        thread::scope(|scope| {
            for _ in 0..4 {
                scope.spawn(|| {
                    for _ in 0..TIMES {
                        let mut value = locked.lock();
                        value.0 += 1;
                        value.1 += 1;
                        assert_eq!(value.0, value.1);
                    }
                });
            }
        });
        assert_eq!(*locked.lock(), (4 * TIMES, 4 * TIMES));
        assert_eq!(locked.word.0.load(Ordering::Relaxed), FREE);
    }

    #[test]
    fn a_mutex_that_is_held_is_waited_for() {
        let locked = Locked::new(1);
        thread::scope(|scope| {
            let mut guard = locked.lock();
            assert!(locked.try_lock().is_none());
            let waiting = scope.spawn(|| *locked.lock());
            thread::sleep(Duration::from_millis(20));
            *guard = 2;
            drop(guard);
            assert_eq!(waiting.join().unwrap(), 2);
        });
    }

    #[test]
    fn a_spin_ends_while_the_mutex_is_held() {
        let locked = Locked::new(1);
        let guard = locked.lock();
        assert!(!locked.spin());
        drop(guard);
        assert_eq!(*locked.lock(), 1);
    }

    #[test]
    fn threads_that_sleep_for_the_lock_have_it_in_turn() {
        let locked = Locked::new(0);
        thread::scope(|scope| {
            let guard = locked.lock();
            for _ in 0..8 {
                scope.spawn(|| *locked.lock() += 1);
            }
            thread::sleep(Duration::from_millis(20));
            drop(guard);
        });
        assert_eq!(*locked.lock(), 8);
    }

    #[test]
    fn a_wait_frees_the_mutex() {
        let (locked, bell) = (Locked::new(false), Bell::new());
        thread::scope(|scope| {
            let waiting = scope.spawn(|| {
                let mut is_set = locked.lock();
                while !*is_set {
                    is_set = locked.wait(is_set, &bell, None);
                }
                assert!(locked.try_lock().is_none());
            });
            *locked.lock() = true;
            bell.ring();
            waiting.join().unwrap();
        });
        let (start, short) = (Instant::now(), Duration::from_millis(5));
        drop(locked.wait(locked.lock(), &bell, Some(short)));
        assert!(start.elapsed() >= short || *locked.lock());
    }

    #[test]
    fn a_panic_of_a_holder_leaves_the_value() {
        let locked = Locked::new(1);
        let panicked = thread::scope(|scope| {
            let holder = scope.spawn(|| {
                let mut guard = locked.lock();
                *guard = 2;
                std::panic::resume_unwind(Box::new(()));
            });
            holder.join().is_err()
        });
        assert!(panicked);
        assert_eq!(locked.try_lock().map(|value| *value), Some(2));
    }
}
