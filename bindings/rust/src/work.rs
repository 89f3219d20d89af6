//! The work of the manager on the object of a call.

use crate::call::{Action, End, Kind, Report};
use crate::clock::Aged;
use crate::course::Value;
use crate::error::Error;
use crate::failure::Failure;
use crate::in_progress::InProgress;
use crate::manager::Manager;
use std::mem;

/// Why the manager's work on an object failed.
pub(crate) enum Fault<E> {
    Make(E),
    Activate(E),
    Passivate(E),
    /// It did not pass its test, for a reason if that is known.
    Test(Option<E>),
    TooOld,
}

impl<E> Fault<E> {
    /// Returns the error of a call whose new object failed, if it ended so.
    fn into_error(self, end: End) -> Result<Error<E>, Fault<E>> {
        match (end, self) {
            (End::MakeFailed, Fault::Make(error)) => Ok(Error::Make(error)),
            (End::ActivateFailed, Fault::Activate(error)) => Ok(Error::Activate(error)),
            (End::PassivateFailed, Fault::Passivate(error)) => Ok(Error::Passivate(error)),
            (End::CreateTestFailed, Fault::Test(reason)) => Ok(Error::CreateTest(reason)),
            (End::BorrowTestFailed, Fault::Test(reason)) => Ok(Error::BorrowTest(reason)),
            (_, fault) => Err(fault),
        }
    }

    /// Returns the failure that no call returns, of an object that was idle or lent before.
    fn into_failure(self, id: u64) -> Option<Failure<E>> {
        match self {
            Fault::Activate(error) => Some(Failure::Activate { id, error }),
            Fault::Passivate(error) => Some(Failure::Passivate { id, error }),
            Fault::Test(reason) => Some(Failure::Test { id, reason }),
            Fault::Make(_) | Fault::TooOld => None,
        }
    }
}

/// What came of a test.
fn passed<E>(validated: Result<bool, E>) -> Result<Report, Fault<E>> {
    match validated {
        Ok(true) => Ok(Report::Succeeded),
        Ok(false) => Err(Fault::Test(None)),
        Err(reason) => Err(Fault::Test(Some(reason))),
    }
}

/// What came of the work of a manager on an object.
pub(crate) type Worked<M> = Result<Report, Fault<<M as Manager>::Error>>;

impl<M: Manager> InProgress<'_, M> {
    /// Returns the object that is worked on.
    #[inline]
    fn object(&mut self) -> &mut M::Object {
        match &mut self.course.value {
            Value::Here(value) => &mut value.object,
            Value::None | Value::Gone => {
                unreachable!("an object is made before anything is done with it")
            }
        }
    }

    /// Owns the object that was made, and notes the time if its age matters.
    fn own(&mut self, object: M::Object) -> Report {
        let made = match self.pool.policy.max_lifetime {
            Some(_) => self.pool.now().millis,
            None => 0,
        };
        let lent = 0;
        self.course.value = Value::Here(Aged { object, made, lent });
        Report::Made
    }

    /// Destroys the object, unless it is gone.
    pub fn destroy(&mut self) {
        if let Value::Here(value) = mem::replace(&mut self.course.value, Value::Gone) {
            self.pool.destroy(value.object);
        }
    }

    /// Returns whether an eviction run finds its object too old. It looks once, since its clock may be set back: one that is too old is not activated.
    fn is_too_old(&mut self) -> bool {
        let (pool, course) = (self.pool, &mut self.course);
        match &course.value {
            Value::Here(value) if pool.policy.max_lifetime.is_some() => *course
                .is_too_old
                .get_or_insert_with(|| pool.is_too_old(value, pool.now().millis)),
            _ => false,
        }
    }

    /// Does what an eviction run asks for, which may look at ages and do nothing else with its object.
    #[cold]
    fn examine(&mut self) -> Worked<M> {
        let sees_age_only = !self.course.tests_idle;
        match self.action() {
            Action::Activate if sees_age_only || self.is_too_old() => Ok(Report::Succeeded),
            Action::Validate if self.is_too_old() => Err(Fault::TooOld),
            Action::Validate | Action::Passivate if sees_age_only => Ok(Report::Succeeded),
            _ => self.work(),
        }
    }

    /// Does what the call asks of the manager.
    #[inline(always)]
    fn work(&mut self) -> Worked<M> {
        let (manager, done) = (&self.pool.manager, |()| Report::Succeeded);
        match self.action() {
            Action::Activate => {
                let activated = manager.activate(self.object());
                activated.map(done).map_err(Fault::Activate)
            }
            Action::Validate => passed(manager.try_validate(self.object())),
            Action::Passivate => {
                let passivated = manager.passivate(self.object());
                passivated.map(done).map_err(Fault::Passivate)
            }
            action => self.course.unexpected(action),
        }
    }

    fn make_or_destroy(&mut self) -> Worked<M> {
        match self.action() {
            Action::Make => {
                let made = self.pool.manager.make(self.call.number());
                Ok(self.own(made.map_err(Fault::Make)?))
            }
            Action::Destroy => {
                self.destroy();
                Ok(Report::Succeeded)
            }
            action => self.course.unexpected(action),
        }
    }

    /// Does the same for a borrow whose manager is awaited.
    pub async fn work_async(&mut self) -> Worked<M> {
        let (manager, id) = (&self.pool.manager, self.call.number());
        match self.action() {
            Action::Make => {
                let made = manager.make_async(id).await;
                Ok(self.own(made.map_err(Fault::Make)?))
            }
            Action::Activate => {
                let activated = manager.activate_async(self.object()).await;
                activated
                    .map(|()| Report::Succeeded)
                    .map_err(Fault::Activate)
            }
            Action::Validate => passed(manager.try_validate_async(self.object()).await),
            action => self.course.unexpected(action),
        }
    }

    /// Goes on after work of the manager.
    #[inline(always)]
    pub fn go_on(&mut self, worked: Worked<M>) -> Result<(), Error<M::Error>> {
        match worked {
            Ok(report) => {
                self.advance(report);
                Ok(())
            }
            Err(fault) => self.go_on_after(fault),
        }
    }

    /// Goes on after work of the manager that failed: the object is destroyed. Then the failure is returned if the object was new, and reported
    /// otherwise.
    #[cold]
    fn go_on_after(&mut self, fault: Fault<M::Error>) -> Result<(), Error<M::Error>> {
        let id = self.call.number();
        self.advance(Report::Failed);
        if let Action::Destroy = self.action() {
            self.destroy();
            self.advance(Report::Succeeded);
        }
        let fault = match self.action() {
            Action::Done => match fault.into_error(self.call.end()) {
                Ok(error) => return Err(error),
                Err(fault) => fault,
            },
            _ => fault,
        };
        if let Some(failure) = fault.into_failure(id) {
            self.pool.report(failure);
        }
        Ok(())
    }

    /// Does the next action of a call, and goes on. A thread sleeps, if it is to do so.
    #[inline(always)]
    pub fn act(&mut self) -> Result<(), Error<M::Error>> {
        if !self.call.asks_for_work() {
            return self.act_otherwise();
        }
        let worked = match self.course.kind {
            Kind::Evict => self.examine(),
            _ => self.work(),
        };
        self.go_on(worked)
    }

    #[cold]
    fn act_otherwise(&mut self) -> Result<(), Error<M::Error>> {
        let report = match self.action() {
            Action::Sleep => {
                self.sleep();
                return Ok(());
            }
            Action::GoOn => Report::GoOn,
            Action::MakeRoom => self.make_room(),
            _ => {
                let worked = self.make_or_destroy();
                return self.go_on(worked);
            }
        };
        self.advance(report);
        Ok(())
    }
}
