//! Reports of the failures that no call returns.

use crate::failure::Failure;
use crate::manager::Manager;
use crate::panics::unless_it_panics;
use std::mem;
use std::sync::{Mutex, MutexGuard, PoisonError};
use std::thread::{self, ThreadId};

/// Receives the failures that no call returns.
pub(crate) type OnError<M> = Box<dyn Fn(Failure<<M as Manager>::Error>) + Send + Sync>;

/// The receiver of the failures of a pool.
pub(crate) struct Reports<M: Manager> {
    on_error: Option<OnError<M>>,
    /// The threads that are in the receiver.
    reporting: Mutex<Vec<ThreadId>>,
}

impl<M: Manager> Reports<M> {
    pub fn new(on_error: Option<OnError<M>>) -> Reports<M> {
        Reports {
            on_error,
            reporting: Mutex::new(Vec::new()),
        }
    }

    /// Leaks the receiver.
    pub fn leak(&mut self) {
        mem::forget(self.on_error.take());
    }

    fn reporting(&self) -> MutexGuard<'_, Vec<ThreadId>> {
        let reporting = self.reporting.lock();
        reporting.unwrap_or_else(PoisonError::into_inner)
    }

    /// Passes a failure to the receiver, unless this thread is in it, or there is no memory to note that it is. A panic of the receiver is ignored.
    pub fn report(&self, failure: Failure<M::Error>) {
        let Some(on_error) = &self.on_error else {
            return;
        };
        let this = thread::current().id();
        let mut reporting = self.reporting();
        if reporting.contains(&this) || reporting.try_reserve(1).is_err() {
            return;
        }
        reporting.push(this);
        drop(reporting);
        unless_it_panics(|| on_error(failure));
        self.reporting().retain(|thread| *thread != this);
    }
}
