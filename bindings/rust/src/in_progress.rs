//! A call in progress.

use crate::call::{Action, End, Kind, Report};
use crate::clock::Moment;
use crate::course::Course;
use crate::error::Error;
use crate::manager::Manager;
use crate::panics::{caught, Panic};
use crate::proved_core::{Begun, Call, Space};
use crate::shared::{Item, Shared, WaitLimit};
use crate::values::Loan;
use std::{mem, thread};

/// A call of a pool, from its beginning to its end.
///
/// Dropped in between, also by a panic of the manager, it is given up: it takes the steps that are still due, and its object is destroyed before its
/// place is free.
pub(crate) struct InProgress<'a, M: Manager> {
    pub pool: &'a Shared<M>,
    pub call: &'a mut Call,
    pub course: Course<M>,
}

/// A call that somebody else goes on with. It is given up only by that.
pub(crate) struct Suspended<M: Manager> {
    pub call: Call,
    pub course: Course<M>,
}

impl<'a, M: Manager> InProgress<'a, M> {
    /// Begins a call that neither borrows nor returns, and takes its first steps.
    pub fn begin(
        pool: &'a Shared<M>,
        course: Course<M>,
        space: &'a mut Space,
    ) -> InProgress<'a, M> {
        let mut state = pool.lock();
        let Begun::On(call) = state.begin(course.start(), course.at, space) else {
            course.unexpected("its end at once");
        };
        let mut begun = InProgress { pool, call, course };
        begun.settle(state);
        begun
    }

    /// Goes on with a call that was suspended.
    pub fn resume(
        pool: &'a Shared<M>,
        suspended: Suspended<M>,
        space: &'a mut Space,
    ) -> InProgress<'a, M> {
        let (call, course) = (space.write(suspended.call), suspended.course);
        InProgress { pool, call, course }
    }

    /// Goes on with a call in place of this one, which was suspended.
    pub fn take_up_again(&mut self, suspended: Suspended<M>) {
        (*self.call, self.course) = (suspended.call, suspended.course);
    }

    /// Returns the call, with which somebody else goes on.
    pub fn suspend(&mut self) -> Suspended<M> {
        let call = mem::replace(self.call, Call::cancelled());
        let ended = Course::new(Kind::Close, 0, Moment::of_millis(0), WaitLimit::None);
        let course = mem::replace(&mut self.course, ended);
        Suspended { call, course }
    }

    #[inline(always)]
    pub fn action(&self) -> Action {
        self.call.action()
    }

    /// Returns how many objects the call examined, made, took or destroyed so far.
    pub fn count(&self) -> u64 {
        self.call.count()
    }

    /// Goes on to the end of the call, on this thread, which sleeps while the call waits.
    ///
    /// # Errors
    ///
    /// The manager failed to make a new object, or to make it ready.
    #[inline(always)]
    pub fn drive(&mut self) -> Result<(), Error<M::Error>> {
        while !self.call.is_over() {
            self.act()?;
        }
        Ok(())
    }

    /// Does the same. Returns how the call ended.
    ///
    /// # Errors
    ///
    /// Those of [`drive`](InProgress::drive).
    #[inline(always)]
    pub fn finish(&mut self) -> Result<End, Error<M::Error>> {
        self.drive()?;
        Ok(self.call.end())
    }

    /// Ends a call that waits, and whose time is over. Returns its error.
    pub fn time_out(&mut self) -> Error<M::Error> {
        let for_sink = self.action() == Action::MakeRoom;
        self.advance(Report::GivenUp);
        self.pool.timed_out(self.course.began, for_sink)
    }

    /// Returns whether the next action is one that an awaited manager does in a future.
    pub fn is_awaited(&self) -> bool {
        let action = self.action();
        M::AWAITS && matches!(action, Action::Make | Action::Activate | Action::Validate)
    }

    /// Returns the object that a borrow got, if it ended so.
    #[inline(always)]
    pub fn take_lent(&mut self) -> Result<Loan<Item<M>>, Error<M::Error>> {
        if !self.call.has_lent() {
            return Err(self.error(self.call.end()));
        }
        let loan = self.course.take_loan(self.call);
        Ok(loan.expect("a borrow has its object"))
    }

    /// Returns why the call ended without doing what it was for.
    #[cold]
    pub fn error(&self, end: End) -> Error<M::Error> {
        let (pool, course) = (self.pool, &self.course);
        let error = match end {
            End::Cancelled | End::MakeFailed if course.lacks_memory() => Error::OutOfMemory,
            End::OutOfMemory => Error::OutOfMemory,
            End::JournalFull => pool.no_room(course.no_room(), course.began),
            End::Closed => Error::Closed,
            End::Exhausted => Error::Exhausted,
            End::Cancelled if matches!(course.limit, WaitLimit::None) => Error::Exhausted,
            End::Cancelled | End::TimedOut => pool.timed_out(course.began, false),
            end => course.unexpected(end),
        };
        match error {
            Error::JournalFull | Error::SinkBusy | Error::OutOfMemory
                if pool.refuses(course.kind) =>
            {
                Error::Closed
            }
            error => error,
        }
    }

    /// Gives the call up, and continues a panic of that unless this thread panics already.
    #[cold]
    fn end_now(&mut self) {
        match self.give_up() {
            Some(panic) if !thread::panicking() => panic.resume(),
            Some(panic) => panic.ignore(),
            None => {}
        }
    }

    /// Gives the call up: what it holds is destroyed. If the destruction panics, that is returned.
    fn give_up(&mut self) -> Option<Panic> {
        self.course.limit = WaitLimit::None;
        let (mut report, mut panicked) = (Report::GivenUp, None);
        loop {
            self.advance(report);
            report = match self.action() {
                Action::Done => return panicked,
                Action::GoOn => Report::GoOn,
                Action::Destroy => {
                    panicked = caught(|| self.destroy()).err();
                    Report::Succeeded
                }
                action => self.course.unexpected(action),
            };
        }
    }
}

impl<M: Manager> Drop for InProgress<'_, M> {
    #[inline(always)]
    fn drop(&mut self) {
        if !self.call.is_over() {
            self.end_now();
        }
    }
}
