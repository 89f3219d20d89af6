//! What a call does under the pool's lock, after each answer of the core.

use crate::call::{Action, End, Kind, Report};
use crate::course::Value;
use crate::in_progress::InProgress;
use crate::locked_pool::LockedPool;
use crate::manager::Manager;
use crate::panics::drop_quietly;
use crate::proved_core::{Begun, Call, Space};
use crate::shared::Held;
use crate::sleepers::{Alarm, Wakes};
use crate::sys::Event;
use std::mem;

impl<M: Manager> InProgress<'_, M> {
    /// Begins the call again.
    #[cold]
    fn begin_again(&mut self, state: &mut LockedPool<M::Object>) {
        let mut space = Space::uninit();
        *self.call = match state.begin(self.course.start(), self.course.at, &mut space) {
            Begun::AtOnce(ended) => Call::over(ended),
            Begun::On(call) => *call,
        };
    }

    /// Tells the core what became of the last action. Returns whether the call is over by that, and wakes nobody.
    #[inline(always)]
    fn tell(&mut self, state: &mut LockedPool<M::Object>, report: Report) -> bool {
        let event = Event {
            at: state.tell(self.course.at),
            object: self.course.token,
            caller: self.course.caller,
            report,
        };
        state.core.advance(&event, self.call)
    }

    /// Does the same for a call that has waited. Returns its alarm, if it slept, or waited for room as a task.
    fn tell_after_wait(
        &mut self,
        state: &mut LockedPool<M::Object>,
        report: Report,
    ) -> Option<Alarm> {
        let alarm = match self.call.action() {
            Action::Sleep => self.leave_sleepers(state),
            _ => self.leave_room_wait(state),
        };
        match (mem::take(&mut self.course.wait().is_given_up), report) {
            (true, Report::GivenUp) => *self.call = Call::cancelled(),
            (true, _) => self.begin_again(state),
            (false, _) => {
                self.tell(state, report);
            }
        }
        alarm
    }

    /// Goes on after a report.
    #[inline(always)]
    pub fn advance(&mut self, report: Report) {
        self.course.at = self.pool.now();
        self.advance_in(self.pool.lock(), report);
    }

    /// Does the same, with the lock held.
    #[inline(always)]
    pub fn advance_in(&mut self, mut state: Held<'_, M>, report: Report) {
        if self.course.wait.is_some() {
            return self.advance_after_wait(state, report);
        }
        match self.tell(&mut state, report) {
            true => self.settle_end(state),
            false => self.settle(state),
        }
    }

    /// Notes under the lock that the call has lent its object, or that the returned one is idle, and frees the lock.
    #[inline(always)]
    fn settle_end(&mut self, mut state: Held<'_, M>) {
        if self.call.has_lent() {
            self.course.end(&mut state, self.call, End::Lent);
            state.care_for_journal();
        } else {
            self.course.park(&mut state);
            self.pool.leave_after_end(state);
        }
    }

    #[cold]
    fn advance_after_wait(&mut self, mut state: Held<'_, M>, report: Report) {
        let alarm = self.tell_after_wait(&mut state, report);
        self.settle_fully(state);
        alarm.into_iter().for_each(drop_quietly);
    }

    /// Settles a call that has begun, and goes on with it.
    #[cold]
    #[inline(never)]
    pub fn settle_and<R>(mut self, state: Held<'_, M>, go_on: impl FnOnce(&mut Self) -> R) -> R {
        self.settle_fully(state);
        go_on(&mut self)
    }

    /// Does under the lock what the call does next, as far as that can be done there, and frees the lock. Only a call that is over, and lends nothing,
    /// writes a segment then: another one has what others wait for, or waits before them.
    #[inline(always)]
    pub fn settle(&mut self, mut state: Held<'_, M>) {
        if self.call.wakes() || !self.call.asks_for_work() {
            return self.settle_fully(state);
        }
        self.course.take_value(&mut state, self.call.token());
        state.care_for_journal();
    }

    /// Does the same for all actions and ends, and wakes others.
    #[cold]
    #[inline(never)]
    pub fn settle_fully(&mut self, mut state: Held<'_, M>) {
        let mut wakes = Wakes::default();
        loop {
            wakes.push(self.call.wake());
            if self.take_up(&mut state) {
                break;
            }
        }
        state.care_for_journal();
        self.pool.tell_ended(&state);
        let is_over = self.call.is_over() && self.call.end() != End::Lent;
        match is_over && self.course.kind != Kind::Touch {
            true => self.pool.leave(state, wakes),
            false => self.pool.leave_with_loan(state, wakes),
        }
    }

    /// Does the same once. Returns false if the call has gone on by that.
    fn take_up(&mut self, state: &mut LockedPool<M::Object>) -> bool {
        match self.call.action() {
            Action::Make => return self.claim_place(state),
            Action::Activate | Action::Validate | Action::Passivate | Action::Destroy => {
                self.course.take_value(state, self.call.token());
            }
            Action::Sleep => {
                if !self.fall_asleep(state) {
                    self.tell_after_wait(state, Report::GivenUp);
                    return false;
                }
            }
            Action::Done => match self.call.end() {
                End::OutOfMemory if self.may_begin_again() && state.free_memory() => {
                    self.course.wait().is_begun_again = true;
                    self.begin_again(state);
                    return false;
                }
                end => self.course.end(state, self.call, end),
            },
            action @ (Action::MakeRoom | Action::GoOn) => {
                if action == Action::MakeRoom {
                    self.course.wait().first_stored = state.first_stored();
                }
                // The value that it has then is that of an idle object, or not the pool's.
                if !self.course.kind.ends_loan() {
                    self.course.release(state);
                }
            }
        }
        true
    }

    /// Returns whether a call that ended for lack of memory may be begun once more.
    fn may_begin_again(&self) -> bool {
        let wait = self.course.wait.as_ref();
        !wait.is_some_and(|wait| wait.is_begun_again) && self.call.count() == 0
    }

    /// Takes a place for an object that is to be made. Returns false if there is no memory, and the call was given up.
    fn claim_place(&mut self, state: &mut LockedPool<M::Object>) -> bool {
        self.course.release(state);
        match state.values.claim() {
            Ok(token) => {
                self.course.token = token;
                self.course.value = Value::Gone;
                true
            }
            Err(_) => {
                self.course.wait().lacks_memory = true;
                self.tell(state, Report::GivenUp);
                false
            }
        }
    }
}
