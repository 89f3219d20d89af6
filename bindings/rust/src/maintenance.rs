//! The thread that maintains a pool.

use crate::error::Error;
use crate::failure::Failure;
use crate::manager::Manager;
use crate::panics::{drop_quietly, unless_it_panics};
use crate::shared::Shared;
use std::io;
use std::sync::{Arc, Condvar, Mutex, MutexGuard, PoisonError, Weak};
use std::thread::{self, ThreadId};
use std::time::Duration;

/// The shortest time between two rounds.
const SHORTEST: Duration = Duration::from_millis(1);

/// How far a maintenance thread is.
#[derive(Clone, Copy, Default, PartialEq, PartialOrd)]
enum Stage {
    #[default]
    Works,
    /// It is to end once it has done its round.
    IsToEnd,
    HasEnded,
}

/// What a pool and its maintenance thread tell each other.
#[derive(Default)]
struct Progress {
    stage: Mutex<Stage>,
    told: Condvar,
}

impl Progress {
    fn stage(&self) -> MutexGuard<'_, Stage> {
        self.stage.lock().unwrap_or_else(PoisonError::into_inner)
    }

    /// Tells that the thread is as far as this.
    fn tell(&self, next: Stage) {
        let mut stage = self.stage();
        if *stage < next {
            *stage = next;
        }
        drop(stage);
        self.told.notify_all();
    }

    /// Waits until the thread is as far as this, or for a time. Returns whether it is.
    fn wait(&self, wanted: Stage, time: Duration) -> bool {
        let stage = self.stage();
        let waited = self
            .told
            .wait_timeout_while(stage, time, |stage| *stage < wanted);
        *waited.unwrap_or_else(PoisonError::into_inner).0 >= wanted
    }
}

/// A maintenance thread.
#[derive(Clone)]
pub(crate) struct Maintainer {
    progress: Arc<Progress>,
    thread: ThreadId,
}

/// Tells that the thread has ended, at its drop.
struct End(Arc<Progress>);

impl Drop for End {
    fn drop(&mut self) {
        self.0.tell(Stage::HasEnded);
    }
}

/// Starts a maintenance thread for a pool.
pub(crate) type Start<M> = fn(&Arc<Shared<M>>, Duration) -> io::Result<Maintainer>;

impl Maintainer {
    /// Starts a thread that maintains a pool at once, and then again and again after a time.
    pub fn start<M: Manager + 'static>(
        pool: &Arc<Shared<M>>,
        time: Duration,
    ) -> io::Result<Maintainer> {
        let progress = Arc::new(Progress::default());
        let (weak, end) = (Arc::downgrade(pool), End(Arc::clone(&progress)));
        let time = time.max(SHORTEST);
        let thread = thread::Builder::new()
            .name("zuphinka".to_owned())
            .spawn(move || while maintain(&weak) && !end.0.wait(Stage::IsToEnd, time) {})?;
        Ok(Maintainer {
            progress,
            thread: thread.thread().id(),
        })
    }

    /// Tells the thread to end once it has done its round. Nothing waits for that: the round may wait for this thread.
    pub fn stop(&self) {
        self.progress.tell(Stage::IsToEnd);
    }

    /// Waits until the thread has ended, or for a time; not at all if it is this one. Returns whether it has.
    pub fn wait(&self, time: Duration) -> bool {
        self.thread == thread::current().id() || self.progress.wait(Stage::HasEnded, time)
    }
}

/// Maintains a pool once. Returns whether it is still open.
fn maintain<M: Manager>(pool: &Weak<Shared<M>>) -> bool {
    let Some(pool) = pool.upgrade() else {
        return false;
    };
    let is_open = match unless_it_panics(|| pool.maintain()) {
        Some(Ok(_)) => true,
        Some(Err(Error::Closed)) => false,
        Some(Err(error)) => {
            pool.report(Failure::Maintenance(error));
            true
        }
        None => {
            pool.report(Failure::MaintenancePanicked);
            true
        }
    };
    // The users may be gone, and then a panic of the manager is not for this thread.
    drop_quietly(pool);
    is_open
}
