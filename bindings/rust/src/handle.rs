//! The handles by which users have a pool.

use crate::manager::Manager;
use crate::shared::Shared;
use std::ops::Deref;
use std::sync::{Arc, Weak};

/// A user's handle: that of a [`Pool`](crate::Pool), a lent object, or the borrow of a task. When the last one is gone, the pool is closed.
///
/// The threads of a pool's own have none, so that the last user ends the pool also while one of them has it.
pub(crate) struct Handle<M: Manager>(Arc<Users<M>>);

/// The users of a pool.
struct Users<M: Manager> {
    pool: Arc<Shared<M>>,
    /// Whether threads of its own may have the pool, too. Otherwise it ends by its own drop.
    has_threads: bool,
}

impl<M: Manager> Drop for Users<M> {
    fn drop(&mut self) {
        if self.has_threads && !self.pool.is_of_parent() {
            self.pool.end();
        }
    }
}

impl<M: Manager> Handle<M> {
    /// The first handle of a pool.
    pub fn new(pool: Arc<Shared<M>>, has_threads: bool) -> Handle<M> {
        Handle(Arc::new(Users { pool, has_threads }))
    }

    pub fn downgrade(&self) -> WeakHandle<M> {
        WeakHandle(Arc::downgrade(&self.0))
    }
}

impl<M: Manager> Clone for Handle<M> {
    #[inline]
    fn clone(&self) -> Handle<M> {
        Handle(Arc::clone(&self.0))
    }
}

impl<M: Manager> Deref for Handle<M> {
    type Target = Shared<M>;

    #[inline]
    fn deref(&self) -> &Shared<M> {
        &self.0.pool
    }
}

/// A handle that does not keep the pool open.
pub(crate) struct WeakHandle<M: Manager>(Weak<Users<M>>);

impl<M: Manager> WeakHandle<M> {
    /// Returns a handle, or none if the last one is gone.
    pub fn upgrade(&self) -> Option<Handle<M>> {
        self.0.upgrade().map(Handle)
    }
}

impl<M: Manager> Clone for WeakHandle<M> {
    fn clone(&self) -> WeakHandle<M> {
        WeakHandle(Weak::clone(&self.0))
    }
}
