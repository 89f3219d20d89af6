//! Borrows by threads, returns, invalidations, detachments and uses.

use crate::call::{End, Kind};
use crate::course::{Course, Value};
use crate::error::Error;
use crate::handle::Handle;
use crate::in_progress::InProgress;
use crate::manager::Manager;
use crate::pooled::Pooled;
use crate::proved_core::{Begun, Space};
use crate::shared::{Item, Shared, WaitLimit};
use crate::values::Loan;
use std::convert;

/// What became of an object that was returned or invalidated.
#[derive(Clone, Copy, Debug, PartialEq, Eq, Hash)]
#[non_exhaustive]
pub enum Returned {
    /// It is idle.
    Parked,
    /// It was destroyed, and its place is free.
    Destroyed,
    /// It had been reclaimed before, and was destroyed.
    Gone,
}

/// What became of the note of a use.
#[derive(Clone, Copy, Debug, PartialEq, Eq, Hash)]
#[non_exhaustive]
pub enum Touched {
    /// It is noted.
    Noted,
    /// The object had been reclaimed before. It belongs to its holder alone.
    Gone,
}

impl<M: Manager> Handle<M> {
    /// Lends an object to a thread: an idle one, or a new one if a place is free.
    #[inline]
    pub fn borrow(&self, limit: WaitLimit) -> Result<Pooled<M>, Error<M::Error>> {
        let course = Course::new(Kind::Borrow, self.caller(), self.now(), limit);
        self.lend(course, convert::identity, |call| {
            call.drive()?;
            self.lent_by(call)
        })
    }

    /// Returns what a borrow came to that is over.
    #[inline(always)]
    pub fn lent_by(&self, call: &mut InProgress<'_, M>) -> Result<Pooled<M>, Error<M::Error>> {
        let loan = call.take_lent()?;
        Ok(Pooled::new(self.clone(), loan, call.course.caller))
    }

    /// Begins a borrow of a thread or a task, after the wakes are passed on of tasks that have not been polled for long. It is over at once if an
    /// idle object is lent, the manager has nothing to do with it, and nobody is to be woken. Otherwise the caller goes on with it.
    #[inline(always)]
    pub fn lend<R>(
        &self,
        mut course: Course<M>,
        lent: impl FnOnce(Result<Pooled<M>, Error<M::Error>>) -> R,
        go_on: impl FnOnce(&mut InProgress<'_, M>) -> R,
    ) -> R {
        let (pool, mut space) = (&**self, Space::uninit());
        let mut state = pool.lock_after_wakes();
        let call = match state.begin(course.start(), course.at, &mut space) {
            Begun::AtOnce(object) => {
                let loan = course.lend(&mut state, object);
                state.care_for_journal();
                drop(state);
                return lent(Ok(Pooled::new(self.clone(), loan, course.caller)));
            }
            Begun::On(call) => call,
        };
        if call.wakes() || !call.asks_for_work() {
            return InProgress { pool, call, course }.settle_and(state, go_on);
        }
        course.take_value(&mut state, call.token());
        state.care_for_journal();
        drop(state);
        let mut call = InProgress { pool, call, course };
        go_on(&mut call)
    }
}

impl<M: Manager> Shared<M> {
    /// Takes an object back. One that is too old is not tested or passivated, but ends.
    #[inline(always)]
    pub fn give_back(&self, loan: Loan<Item<M>>) -> Returned {
        let at = self.now();
        match self.is_too_old(&loan.object, at.millis) {
            true => self.end_loan(Course::of_loan(Kind::Invalidate, self.caller(), at, loan)),
            false => self.end_loan(Course::of_loan(Kind::Return, self.caller(), at, loan)),
        }
    }

    /// Takes an object back that cannot be used any more.
    pub fn invalidate(&self, loan: Loan<Item<M>>) -> Returned {
        let (caller, at) = (self.caller(), self.now());
        self.end_loan(Course::of_loan(Kind::Invalidate, caller, at, loan))
    }

    /// Ends a loan. It is over at once if the object is idle then without work of the manager, and nobody is to be woken.
    #[inline(always)]
    fn end_loan(&self, mut course: Course<M>) -> Returned {
        let mut space = Space::uninit();
        let mut state = self.lock();
        let call = match state.begin(course.start(), course.at, &mut space) {
            Begun::AtOnce(_) => {
                course.park(&mut state);
                self.leave_after_end(state);
                return Returned::Parked;
            }
            Begun::On(call) => call,
        };
        let pool = self;
        if call.wakes() || !call.asks_for_work() {
            return InProgress { pool, call, course }.settle_and(state, InProgress::end_loan);
        }
        state.care_for_journal();
        drop(state);
        let mut call = InProgress { pool, call, course };
        call.end_loan()
    }

    /// Destroys an object that was reclaimed, and that the core did not take back.
    #[cold]
    fn let_go(&self, loan: Loan<Item<M>>) {
        self.lock().values.free(loan.token);
        self.destroy(loan.object.object);
    }

    /// Frees the place of an object that its holder keeps, to whom it was lent at a time in nanoseconds. One that was reclaimed has none.
    pub fn detach(&self, id: u64, token: u64, lent: u64) {
        let course = Course {
            id,
            token,
            lent,
            value: Value::Gone,
            ..Course::new(Kind::Detach, self.caller(), self.now(), WaitLimit::AsSet)
        };
        // It fails for room or memory only if the object is not lent any more.
        let _ = InProgress::begin(self, course, &mut Space::uninit()).drive();
    }

    /// Notes that an object is used.
    pub fn touch(&self, id: u64) -> Result<Touched, Error<M::Error>> {
        let course = Course {
            id,
            ..Course::new(Kind::Touch, self.caller(), self.now(), WaitLimit::AsSet)
        };
        let mut space = Space::uninit();
        let mut call = InProgress::begin(self, course, &mut space);
        match call.finish()? {
            End::Noted => Ok(Touched::Noted),
            // One that is not lent was reclaimed, before a change to settings that reclaim none.
            End::Gone | End::NotLent => Ok(Touched::Gone),
            end => Err(call.error(end)),
        }
    }
}

impl<M: Manager> InProgress<'_, M> {
    /// Goes on with the end of a loan.
    #[inline(always)]
    fn end_loan(&mut self) -> Returned {
        match self.finish() {
            Ok(End::Parked) => Returned::Parked,
            Ok(End::Destroyed) => Returned::Destroyed,
            // It fails for room or memory only if the object is not lent any more.
            Ok(_) | Err(_) => {
                let left = self.course.take_loan(self.call);
                left.into_iter().for_each(|loan| self.pool.let_go(loan));
                Returned::Gone
            }
        }
    }
}
