//! The thread that stores a pool's journal.

use crate::exits::{mark_storing_thread, register};
use crate::failure::Failure;
use crate::manager::Manager;
use crate::panics::{drop_quietly, unless_it_panics};
use crate::shared::Shared;
use std::io;
use std::sync::mpsc::{channel, Sender};
use std::sync::{Arc, Condvar, Mutex, MutexGuard, PoisonError, Weak};
use std::thread::{self, ThreadId};
use std::time::{Duration, Instant};

/// The shortest time between two stores.
const SHORTEST: Duration = Duration::from_millis(1);

/// What the thread is to do, and what it does.
#[derive(Default)]
struct Told {
    is_over: bool,
    /// How many times others asked for a store, and how many of these are done.
    asked: u64,
    done: u64,
    /// The thread, while it has the pool and calls no code of users but the sink.
    stores: Option<ThreadId>,
}

/// The orders to the thread of one journal.
#[derive(Default)]
pub(crate) struct Orders {
    told: Mutex<Told>,
    changed: Condvar,
}

impl Orders {
    fn told(&self) -> MutexGuard<'_, Told> {
        self.told.lock().unwrap_or_else(PoisonError::into_inner)
    }

    /// Waits while something is so, up to an instant, if there is one.
    fn wait_while<'a>(
        &'a self,
        mut told: MutexGuard<'a, Told>,
        end: Option<Instant>,
        is_so: impl Fn(&Told) -> bool,
    ) -> MutexGuard<'a, Told> {
        while is_so(&told) {
            told = match end.map(|end| end.saturating_duration_since(Instant::now())) {
                Some(Duration::ZERO) => break,
                Some(left) => {
                    let waited = self.changed.wait_timeout(told, left);
                    waited.unwrap_or_else(PoisonError::into_inner).0
                }
                None => {
                    let waited = self.changed.wait(told);
                    waited.unwrap_or_else(PoisonError::into_inner)
                }
            };
        }
        told
    }

    /// Asks for a store now. Returns the number of this order.
    pub fn ask(&self) -> u64 {
        let mut told = self.told();
        told.asked += 1;
        self.changed.notify_all();
        told.asked
    }

    /// Waits until an order is done, up to an instant.
    pub fn wait_until_done(&self, order: u64, end: Instant) {
        drop(self.wait_while(self.told(), Some(end), |told| {
            !told.is_over && told.done < order
        }));
    }

    /// Tells the thread to end, and waits until it has done with the pool, unless it is in a report of a failure.
    pub fn end(&self) {
        let mut told = self.told();
        told.is_over = true;
        self.changed.notify_all();
        let this = thread::current().id();
        drop(self.wait_while(told, None, |told| {
            told.stores.is_some_and(|other| other != this)
        }));
    }

    /// Waits for the next store. Returns the number of the last order, or none if the thread is to end.
    fn next(&self, time: Duration) -> Option<u64> {
        let end = Instant::now().checked_add(time);
        let waits = |told: &Told| !told.is_over && told.asked == told.done;
        let mut told = self.wait_while(self.told(), end, waits);
        if told.is_over {
            return None;
        }
        told.stores = Some(thread::current().id());
        Some(told.asked)
    }

    /// The thread does not store any more.
    fn leave(&self) {
        self.told().stores = None;
        self.changed.notify_all();
    }

    fn finish(&self, order: u64) {
        let mut told = self.told();
        (told.done, told.stores) = (order, None);
        self.changed.notify_all();
    }
}

/// A thread that is to store the journal of a pool, and has none yet.
pub(crate) struct Storer<M: Manager> {
    orders: Arc<Orders>,
    pool: Sender<Weak<Shared<M>>>,
}

impl<M: Manager> Storer<M> {
    /// Starts a thread that stores a journal again and again after a time, until it is told to end. It ends without a pool if this is dropped.
    pub fn start(time: Duration) -> io::Result<Storer<M>> {
        let orders = Arc::new(Orders::default());
        let ((pool, given), own) = (channel::<Weak<_>>(), Arc::clone(&orders));
        let named = thread::Builder::new().name("zuphinka-sink".to_owned());
        named.spawn(move || {
            mark_storing_thread();
            let Ok(pool) = given.recv() else {
                return;
            };
            while let Some(order) = own.next(time.max(SHORTEST)) {
                store(&pool, &own);
                own.finish(order);
            }
        })?;
        Ok(Storer { orders, pool })
    }

    /// Has it store the journal of a pool from now on.
    pub fn serve(self, pool: &Arc<Shared<M>>) {
        // The thread waits for it.
        let _ = self.pool.send(Arc::downgrade(pool));
        register(&self.orders);
        *pool.storer() = Some(self.orders);
    }
}

/// Stores the journal of a pool once, if it is still there.
fn store<M: Manager>(pool: &Weak<Shared<M>>, orders: &Orders) {
    let Some(pool) = pool.upgrade() else {
        return;
    };
    let stored = unless_it_panics(|| pool.flush_journal());
    if let Some(Err(error)) = stored {
        // The receiver may wait for the thread that ends the pool.
        orders.leave();
        pool.report(Failure::Sink(error));
    }
    // The users may be gone, and then a panic of the manager is not for this thread.
    drop_quietly(pool);
}
