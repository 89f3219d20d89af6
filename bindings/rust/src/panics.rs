//! Panics of code that is not the pool's.

use std::any::Any;
use std::mem;
use std::panic::{catch_unwind, AssertUnwindSafe};

/// Calls code that may panic. Returns its result, or what it panicked with.
pub(crate) fn caught<R>(call: impl FnOnce() -> R) -> Result<R, Panic> {
    catch_unwind(AssertUnwindSafe(call)).map_err(Panic)
}

/// Calls code whose panic ends here.
pub(crate) fn unless_it_panics<R>(call: impl FnOnce() -> R) -> Option<R> {
    caught(call).map_err(Panic::ignore).ok()
}

/// Drops a value whose drop may panic.
pub(crate) fn drop_quietly<T>(value: T) {
    unless_it_panics(|| drop(value));
}

/// What some code panicked with. Its drop may panic, too.
pub(crate) struct Panic(Box<dyn Any + Send>);

impl Panic {
    /// Continues the panic.
    pub fn resume(self) -> ! {
        std::panic::resume_unwind(self.0)
    }

    /// Ends the panic, and drops what it was with. If that panics, what this second panic is with is leaked: such drops may panic without end.
    /// So an ignored panic leaks one value at most, and only if a drop panicked.
    pub fn ignore(self) {
        if let Err(second) = caught(|| drop(self.0)) {
            mem::forget(second);
        }
    }
}

#[cfg(test)]
mod tests {
    use super::unless_it_panics;
    use std::panic;
    use std::sync::atomic::{AtomicU64, Ordering};
    use std::sync::Arc;

    /// Counts its drops, and panics in each with one more of its kind, until none is left.
    struct Payload {
        drops: Arc<AtomicU64>,
        left: u64,
    }

    impl Drop for Payload {
        fn drop(&mut self) {
            self.drops.fetch_add(1, Ordering::SeqCst);
            if self.left > 0 {
                panic_with(&self.drops, self.left - 1);
            }
        }
    }

    fn panic_with(drops: &Arc<AtomicU64>, left: u64) {
        let drops = Arc::clone(drops);
        panic::resume_unwind(Box::new(Payload { drops, left }));
    }

    /// How many payloads are dropped by a panic that is ignored, and how many are left.
    fn dropped_and_left(payloads: u64) -> (u64, u64) {
        let drops = Arc::new(AtomicU64::new(0));
        assert!(unless_it_panics(|| panic_with(&drops, payloads - 1)).is_none());
        let left = Arc::strong_count(&drops) as u64 - 1;
        (drops.load(Ordering::SeqCst), left)
    }

    #[test]
    fn what_an_ignored_panic_was_with_is_dropped() {
        assert_eq!(dropped_and_left(1), (1, 0));
    }

    #[test]
    fn a_payload_is_leaked_only_if_the_drop_of_another_panicked_with_it() {
        for payloads in 2..5 {
            assert_eq!(dropped_and_left(payloads), (1, 1));
        }
    }

    /// Ignores a panic when it is dropped.
    struct Ignores<'a>(&'a Arc<AtomicU64>);

    impl Drop for Ignores<'_> {
        fn drop(&mut self) {
            assert!(unless_it_panics(|| panic_with(self.0, 1)).is_none());
        }
    }

    #[test]
    fn a_panic_may_be_ignored_while_the_thread_panics() {
        let drops = Arc::new(AtomicU64::new(0));
        let caught = panic::catch_unwind(|| {
            let _ignores = Ignores(&drops);
            panic::resume_unwind(Box::new(()));
        });
        assert!(caught.is_err());
        assert_eq!(drops.load(Ordering::SeqCst), 1);
    }
}
