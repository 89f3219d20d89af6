//! The guard of a lent object, which returns it when it is dropped.

use crate::borrow_return::{Returned, Touched};
use crate::error::Error;
use crate::handle::Handle;
use crate::manager::Manager;
use crate::panics::unless_it_panics;
use crate::shared::Item;
use crate::values::Loan;
use std::fmt;
use std::ops::{Deref, DerefMut};
use std::thread;

/// A lent object. It is used through this guard, which returns it when it is dropped, in any thread.
///
/// A guard that is dropped by a panic of its thread invalidates its object, whose state is unknown. One that a thread got while it panicked
/// already, in a destructor, returns it.
///
/// It keeps the pool open. Its own functions are called as `Pooled::id(&guard)`, so that they hide no method of the object.
#[must_use = "an object that is not kept goes back at once"]
pub struct Pooled<M: Manager> {
    pool: Handle<M>,
    loan: Option<Loan<Item<M>>>,
    /// Whether the thread that got it was panicking.
    was_panicking: bool,
}

const LENT: &str = "a guard has its object until it is dropped";

impl<M: Manager> Pooled<M> {
    #[inline]
    pub(crate) fn new(pool: Handle<M>, loan: Loan<Item<M>>, caller: u32) -> Pooled<M> {
        if let Some(leaks) = &pool.policy.leaks {
            leaks.begin(loan.id, caller);
        }
        Pooled {
            pool,
            loan: Some(loan),
            was_panicking: thread::panicking(),
        }
    }

    /// Ends the loan. Returns it, unless it has ended.
    #[inline]
    fn end(&mut self) -> Option<Loan<Item<M>>> {
        let loan = self.loan.take()?;
        if let Some(leaks) = &self.pool.policy.leaks {
            leaks.end(loan.id);
        }
        Some(loan)
    }

    /// Returns the id of the object in the journal.
    pub fn id(this: &Pooled<M>) -> u64 {
        this.loan.as_ref().expect(LENT).id
    }

    /// Returns the object to the pool, as a drop does, and says what became of it.
    pub fn give_back(mut this: Pooled<M>) -> Returned {
        let loan = this.end().expect(LENT);
        this.pool.give_back(loan)
    }

    /// Returns the object as one that cannot be used any more: it is destroyed.
    pub fn invalidate(mut this: Pooled<M>) -> Returned {
        let loan = this.end().expect(LENT);
        this.pool.invalidate(loan)
    }

    /// Takes the object out of the pool: its place is free, and the object is the caller's. The manager does not destroy it.
    #[must_use = "the object is the caller's; `invalidate` has the manager destroy it"]
    pub fn detach(mut this: Pooled<M>) -> M::Object {
        let Loan { id, token, object } = this.end().expect(LENT);
        this.pool.detach(id, token, object.lent);
        object.object
    }

    /// Notes that the object is used, so that it does not count as abandoned.
    ///
    /// # Errors
    ///
    /// [`Error::JournalFull`] and [`Error::OutOfMemory`]: it is not noted, and the object is still lent.
    pub fn touch(this: &Pooled<M>) -> Result<Touched, Error<M::Error>> {
        this.pool.touch(Pooled::id(this))
    }
}

impl<M: Manager> Deref for Pooled<M> {
    type Target = M::Object;

    fn deref(&self) -> &M::Object {
        &self.loan.as_ref().expect(LENT).object.object
    }
}

impl<M: Manager> DerefMut for Pooled<M> {
    fn deref_mut(&mut self) -> &mut M::Object {
        &mut self.loan.as_mut().expect(LENT).object.object
    }
}

impl<M: Manager> Drop for Pooled<M> {
    #[inline(never)]
    fn drop(&mut self) {
        let Some(loan) = self.end() else {
            return;
        };
        if !thread::panicking() {
            self.pool.give_back(loan);
            return;
        }
        // A panic of the manager ends here, since a second one would end the process.
        unless_it_panics(|| match self.was_panicking {
            true => self.pool.give_back(loan),
            false => self.pool.invalidate(loan),
        });
    }
}

impl<M: Manager> fmt::Debug for Pooled<M>
where
    M::Object: fmt::Debug,
{
    fn fmt(&self, f: &mut fmt::Formatter<'_>) -> fmt::Result {
        f.debug_struct("Pooled")
            .field("id", &Pooled::id(self))
            .field("object", &**self)
            .finish()
    }
}
