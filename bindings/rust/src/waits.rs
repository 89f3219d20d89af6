//! The waits of a call: for an object, and for room in the journal.

use crate::call::{Action, Kind, Report};
use crate::in_progress::InProgress;
use crate::locked_pool::LockedPool;
use crate::manager::Manager;
use crate::panics::drop_quietly;
use crate::pauses::Pauses;
use crate::room::{NoRoom, Room};
use crate::shared::{Held, WaitLimit};
use crate::sleepers::Alarm;
use crate::woken::LONGEST_WAKE;
use std::mem;
use std::task::Waker;
use std::thread;
use std::time::{Duration, Instant};

impl<M: Manager> InProgress<'_, M> {
    /// Returns how long the call waits on at most by the system's clock, if that bounds it; nothing if it is to wait no longer.
    fn time_left(&mut self, state: &LockedPool<M::Object>) -> Option<Option<Duration>> {
        let now = Instant::now();
        let since = *self.course.wait().since.get_or_insert(now);
        let end = match self.course.limit {
            WaitLimit::None => return None,
            WaitLimit::Until(end) => end,
            WaitLimit::AsSet => self.pool.end_of_wait(state, since),
        };
        left_until(now, end)
    }

    /// Returns how long the call waits on at most by the pool's clock, if that bounds it; nothing if its time is over. Of a clock at its end that time
    /// never comes.
    fn time_left_by_clock(&self, state: &LockedPool<M::Object>) -> Option<Option<Duration>> {
        match self.call.until() {
            None | Some(u64::MAX) => Some(None),
            Some(until) => {
                let left = until.saturating_sub(self.time(state));
                (left > 0).then(|| Some(Duration::from_millis(left)))
            }
        }
    }

    /// Returns the time, in milliseconds, as the core is told it.
    fn time(&self, state: &LockedPool<M::Object>) -> u64 {
        self.course.at.millis.max(state.last_time())
    }

    /// Sleeps from now on, or sleeps on; a task without a waker. Returns false if its time is over, or there is no memory.
    pub fn fall_asleep(&mut self, state: &mut LockedPool<M::Object>) -> bool {
        let left = self.time_left(state);
        let (Some(left), Some(left_by_clock)) = (left, self.time_left_by_clock(state)) else {
            return false;
        };
        // It looks whether a task that was woken before it has been polled.
        let look = state.sleepers.has_tasks().then_some(LONGEST_WAKE);
        let (ticket, is_task) = (self.call.ticket(), self.course.is_of_task);
        let alarm = match is_task {
            true => Alarm::Task(None, self.call.copy()),
            false => Alarm::Thread(thread::current()),
        };
        let sleeps = state.sleepers.sleep(ticket, alarm).is_ok();
        let threads = if sleeps && !is_task {
            state.threads_before(ticket)
        } else {
            0
        };
        let wait = self.course.wait();
        wait.lacks_memory |= !sleeps;
        wait.sleeps_as_task = sleeps && is_task;
        wait.longest = [left, left_by_clock, look].into_iter().flatten().min();
        wait.threads = threads;
        sleeps
    }

    /// It sleeps no longer. Returns its alarm, if it was not woken.
    pub fn leave_sleepers(&mut self, state: &mut LockedPool<M::Object>) -> Option<Alarm> {
        let (was_there, alarm) = state.sleepers.go_on(self.call.ticket());
        let wait = self.course.wait();
        wait.is_given_up = mem::take(&mut wait.sleeps_as_task) && !was_there;
        alarm
    }

    /// Returns whether its wait is over by the settings.
    fn is_over(&self, state: &LockedPool<M::Object>) -> bool {
        let now = self.time(state);
        self.call.until().is_some_and(|until| now >= until)
    }

    /// Sleeps until this thread is woken or the wait is over, and goes on.
    #[cold]
    pub fn sleep(&mut self) {
        let (ticket, wait) = (self.call.ticket(), self.course.wait());
        let longest = wait.longest;
        let pauses = Pauses::begin_beside(wait.threads, longest);
        let mut state = self.pool.sleep_until_woken(ticket, pauses, longest);
        self.course.at = self.pool.now_under_lock(&state);
        if !state.sleepers.has(ticket) || self.is_over(&state) {
            self.advance_in(state, Report::Woken);
        } else if !self.fall_asleep(&mut state) {
            self.advance_in(state, Report::GivenUp);
        }
    }

    /// Goes on with a call of a task that sleeps or waits for room, if it was woken or its wait is over. Otherwise the pool has its waker then.
    pub fn look(&mut self, waker: &mut Option<Waker>) {
        match self.action() {
            Action::Sleep => self.look_for_wake(waker),
            _ => {
                let report = self.make_room_for_task(waker);
                report.into_iter().for_each(|report| self.advance(report));
            }
        }
    }

    /// A task that sleeps is polled, or has fallen asleep in this poll: it goes on if it was woken or its wait is over, and sleeps on with this waker
    /// otherwise.
    fn look_for_wake(&mut self, waker: &mut Option<Waker>) {
        self.course.at = self.pool.now();
        let mut state = self.pool.lock_after_wakes();
        let ticket = self.call.ticket();
        let is_new = state.sleepers.lacks_waker(ticket);
        if !is_new && (!state.sleepers.has(ticket) || self.is_over(&state)) {
            return self.advance_in(state, Report::Woken);
        }
        if !is_new && self.time_left(&state).is_none() {
            return self.advance_in(state, Report::GivenUp);
        }
        let alarm = Alarm::Task(waker.take(), self.call.copy());
        let before = state.sleepers.sleep(ticket, alarm);
        drop(state);
        drop_quietly(before);
    }

    /// Makes room in a full journal, and waits for another thread that writes a segment. Returns the report.
    #[cold]
    pub fn make_room(&mut self) -> Report {
        let state = self.pool.lock();
        let end = self.end_of_wait(&state, Instant::now());
        let (waits, first) = (self.waits_for_room(&state), self.course.wait().first_stored);
        let made = self.pool.make_room(state, self.course.kind, first, end);
        self.note_room(made, waits)
    }

    /// Returns whether the call waits for room at all.
    fn waits_for_room(&self, state: &LockedPool<M::Object>) -> bool {
        !matches!(self.course.limit, WaitLimit::None) && self.may_wait(state)
    }

    /// Notes why there is no room, if there is none, for a call that waits for it or may not. Returns the report.
    fn note_room(&mut self, made: Result<(), NoRoom>, waits: bool) -> Report {
        self.course.wait().no_room = match made {
            Ok(()) => return Report::RoomMade,
            Err(NoRoom::Late) if !waits => NoRoom::Busy,
            Err(no_room) => no_room,
        };
        Report::NoRoom
    }

    /// Returns whether it may wait for another thread that writes a segment: a borrow may not if the settings say that none waits for an object.
    fn may_wait(&self, state: &LockedPool<M::Object>) -> bool {
        self.course.kind != Kind::Borrow || state.setup.settings.block_when_exhausted
    }

    /// Returns until when the call waits for another thread that writes a segment: as long as for an object.
    fn end_of_wait(&mut self, state: &LockedPool<M::Object>, now: Instant) -> Option<Instant> {
        let since = *self.course.wait().since.get_or_insert(now);
        let end = match self.course.limit {
            WaitLimit::None => Some(now),
            _ if !self.may_wait(state) => Some(now),
            WaitLimit::Until(end) => end,
            WaitLimit::AsSet => state.end_of_wait(since),
        };
        match self.time_left_by_clock(state) {
            None => Some(now),
            Some(left) => {
                let by_clock = left.and_then(|left| now.checked_add(left));
                end.into_iter().chain(by_clock).min()
            }
        }
    }

    /// Makes room for a task, which does not wait on its thread. If another thread writes a segment, the task waits with this waker, and there is no
    /// report.
    fn make_room_for_task(&mut self, waker: &mut Option<Waker>) -> Option<Report> {
        self.course.at = self.pool.now();
        let mut state = self.pool.lock();
        let (first, now) = (self.course.wait().first_stored, Instant::now());
        match self.pool.look_for_room(&mut state, self.course.kind, first) {
            Room::Made => Some(Report::RoomMade),
            Room::Lacks => {
                let made = self.pool.write_for_room(state, first);
                Some(self.note_room(made, true))
            }
            Room::Awaited if left_until(now, self.end_of_wait(&state, now)).is_some() => {
                self.await_room(state, waker)
            }
            Room::Awaited => {
                let no_room = state.journal.no_room_after_wait();
                Some(self.note_room(Err(no_room), self.waits_for_room(&state)))
            }
            Room::Refused => Some(self.note_room(Err(NoRoom::Full), true)),
        }
    }

    /// Waits until the journal is cut, or the thread that writes is done. Returns a report if there is no memory for that.
    fn await_room(&mut self, mut state: Held<'_, M>, waker: &mut Option<Waker>) -> Option<Report> {
        let before = self.leave_room_wait(&mut state);
        if self.course.wait().is_given_up {
            return Some(Report::RoomMade); // by which it begins again
        }
        let call = self.call.copy();
        let kept = waker
            .take()
            .map(|waker| state.journal.room_wakers.keep(waker, call));
        drop(state);
        drop_quietly(before);
        match kept? {
            Ok(number) => {
                self.course.wait().room_wait = Some(number);
                None
            }
            Err(refused) => {
                *waker = Some(refused);
                self.course.wait().lacks_memory = true;
                Some(Report::GivenUp)
            }
        }
    }

    /// A task waits for room no longer. Returns its alarm, if it was not called.
    pub fn leave_room_wait(&mut self, state: &mut LockedPool<M::Object>) -> Option<Alarm> {
        let number = self.course.wait().room_wait.take()?;
        let (was_there, waker) = state.journal.room_wakers.go_on(number);
        self.course.wait().is_given_up |= !was_there;
        Some(Alarm::Task(Some(waker?), self.call.copy()))
    }
}

/// Returns the time until an instant, if there is one; nothing if it is here.
fn left_until(now: Instant, end: Option<Instant>) -> Option<Option<Duration>> {
    let left = end.map(|end| end.saturating_duration_since(now));
    (left != Some(Duration::ZERO)).then_some(left)
}
