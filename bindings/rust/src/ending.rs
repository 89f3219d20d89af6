//! The end of a pool, for which a thread waits.

use crate::locked_pool::LockedPool;
use crate::manager::Manager;
use crate::shared::Shared;
use std::time::{Duration, Instant};

impl<M: Manager> Shared<M> {
    /// Closes the pool, waits until no object is left and the maintenance thread has ended, but not after this time, and hands the rest of the journal
    /// to its sink. Returns whether both came in time.
    pub fn close_and_wait(&self, longest: Duration) -> bool {
        let began = Instant::now();
        self.close();
        let is_empty = self.wait_until_empty(began, longest);
        // It is not locked meanwhile.
        let maintainer = self.maintainer().clone();
        let left = longest.saturating_sub(began.elapsed());
        let has_ended = maintainer.map_or(true, |maintainer| maintainer.wait(left));
        self.write_rest();
        is_empty && has_ended
    }

    /// Waits until no object is present, but no longer than this after a beginning. Returns whether none is.
    fn wait_until_empty(&self, began: Instant, longest: Duration) -> bool {
        let mut state = self.lock();
        state.is_end_awaited = true;
        loop {
            let counts = state.core.counts();
            if counts.idle + counts.lent + counts.reserved == 0 {
                return true;
            }
            let left = longest.saturating_sub(began.elapsed());
            if left.is_zero() {
                return false;
            }
            state = self.state.wait(state, &self.ended, Some(left));
        }
    }

    /// Tells threads that wait for the end of all objects that one may have ended.
    pub fn tell_ended(&self, state: &LockedPool<M::Object>) {
        if state.is_end_awaited {
            self.ended.ring();
        }
    }
}
