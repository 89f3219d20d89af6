//! What is noted of a call, and the value of the object that it works on.

use crate::call::{End, Kind};
use crate::clock::Moment;
use crate::locked_pool::LockedPool;
use crate::manager::Manager;
use crate::proved_core::{AtOnce, Call};
use crate::room::NoRoom;
use crate::shared::{Item, WaitLimit};
use crate::sys::Start;
use crate::values::Loan;
use std::fmt::Debug;
use std::mem;
use std::time::{Duration, Instant};

/// The value of the object that a call works on.
pub(crate) enum Value<T> {
    /// The call has no object.
    None,
    Here(T),
    /// The object is to be made, or is gone.
    Gone,
}

/// What is noted of a call besides what the library has of it.
pub(crate) struct Course<M: Manager> {
    pub kind: Kind,
    pub caller: u32,
    pub limit: WaitLimit,
    /// When it began, in nanoseconds, and when the clock was read last.
    pub began: u64,
    pub at: Moment,
    /// The id of the loan that it is for, and when that began, in nanoseconds.
    pub id: u64,
    pub lent: u64,
    /// The object that it works on: its token, and its value.
    pub token: u64,
    pub value: Value<Item<M>>,
    /// Whether it is an eviction run that looks at ages, and tests nothing else.
    pub sees_ages_only: bool,
    /// Whether an eviction run validates its object, by the settings at which it was taken.
    pub tests_idle: bool,
    /// Whether an eviction run found its object too old, once it has looked.
    pub is_too_old: Option<bool>,
    /// Whether a task makes it: that does not wait on its thread.
    pub is_of_task: bool,
    pub wait: Option<Wait>,
}

/// What a call notes once it waits, or found no memory.
#[derive(Default)]
pub(crate) struct Wait {
    /// Whether it found no memory for its object or for its sleep.
    pub lacks_memory: bool,
    /// Whether it was begun again, after entries were dropped for the sake of memory.
    pub is_begun_again: bool,
    /// The position of the first stored entry when it last found no room in the journal.
    pub first_stored: u64,
    /// Why it found no room in the journal.
    pub no_room: NoRoom,
    /// For a task that waits for room in the journal: the number under which its waker is kept.
    pub room_wait: Option<u64>,
    /// Whether it sleeps as a task.
    pub sleeps_as_task: bool,
    /// Whether it was given up while it waited as a task: its waker panicked, or it was not polled for long.
    pub is_given_up: bool,
    /// When it first waited, by the system's clock.
    pub since: Option<Instant>,
    /// For a thread that is to sleep: how long at most, and for how many threads it waits at most.
    pub longest: Option<Duration>,
    pub threads: usize,
}

impl<M: Manager> Course<M> {
    /// That of a call that begins at a time, and has no object.
    #[inline(always)]
    pub fn new(kind: Kind, caller: u32, at: Moment, limit: WaitLimit) -> Course<M> {
        Course {
            kind,
            caller,
            limit,
            began: at.nanos,
            at,
            id: 0,
            lent: 0,
            token: 0,
            value: Value::None,
            sees_ages_only: false,
            tests_idle: false,
            is_too_old: None,
            is_of_task: false,
            wait: None,
        }
    }

    /// That of a call for a lent object, whose value it has.
    #[inline(always)]
    pub fn of_loan(kind: Kind, caller: u32, at: Moment, loan: Loan<Item<M>>) -> Course<M> {
        Course {
            id: loan.id,
            lent: loan.object.lent,
            token: loan.token,
            value: Value::Here(loan.object),
            ..Course::new(kind, caller, at, WaitLimit::AsSet)
        }
    }

    /// Returns how the call begins.
    #[inline(always)]
    pub fn start(&self) -> Start {
        Start {
            at: 0,
            id: match self.limit {
                // By this time a wait may be longer than the settings say.
                WaitLimit::Until(_) => u64::MAX,
                WaitLimit::None | WaitLimit::AsSet => self.id,
            },
            object: self.token,
            caller: self.caller,
            kind: self.kind,
        }
    }

    /// Returns what it notes from now on.
    pub fn wait(&mut self) -> &mut Wait {
        self.wait.get_or_insert_with(Wait::default)
    }

    /// Returns whether it found no memory for its object or for its sleep.
    pub fn lacks_memory(&self) -> bool {
        self.wait.as_ref().is_some_and(|wait| wait.lacks_memory)
    }

    /// Returns why it found no room in the journal.
    pub fn no_room(&self) -> NoRoom {
        self.wait
            .as_ref()
            .map(|wait| wait.no_room)
            .unwrap_or_default()
    }

    /// Has the value of an object, by its token.
    #[inline(always)]
    pub fn take_value(&mut self, state: &mut LockedPool<M::Object>, token: u64) {
        if matches!(self.value, Value::None) || self.token != token {
            self.release(state);
            self.token = token;
            self.value = Value::Here(state.values.take(token));
            if self.kind == Kind::Evict {
                self.tests_idle = state.setup.tests_idle && !self.sees_ages_only;
                self.is_too_old = None;
            }
        }
    }

    /// Leaves its object: the pool has the value, or its place is free.
    #[inline(always)]
    pub fn release(&mut self, state: &mut LockedPool<M::Object>) {
        match mem::replace(&mut self.value, Value::None) {
            Value::None => {}
            Value::Here(value) => state.values.put(self.token, value),
            Value::Gone => state.values.free(self.token),
        }
    }

    /// Takes an object that is lent as the call begins.
    #[inline(always)]
    pub fn lend(&self, state: &mut LockedPool<M::Object>, lent: AtOnce) -> Loan<Item<M>> {
        state.measures.waits.count(self.began, self.at.nanos);
        let object = state.values.take(lent.token).lent_at(self.at);
        Loan {
            id: lent.id,
            token: lent.token,
            object,
        }
    }

    /// Leaves the returned object, which is idle.
    #[inline(always)]
    pub fn park(&mut self, state: &mut LockedPool<M::Object>) {
        state.measures.loans.count(self.lent, self.began);
        self.release(state);
    }

    /// Returns the object that it has: one that the call lends, or one whose loan it could not end.
    #[inline(always)]
    pub fn take_loan(&mut self, call: &Call) -> Option<Loan<Item<M>>> {
        match mem::replace(&mut self.value, Value::None) {
            Value::Here(object) => Some(Loan {
                id: call.number(),
                token: self.token,
                object: object.lent_at(self.at),
            }),
            Value::None | Value::Gone => None,
        }
    }

    /// Notes the end of the call. A loan that could not be ended leaves its value here.
    #[inline(always)]
    pub fn end(&mut self, state: &mut LockedPool<M::Object>, call: &Call, end: End) {
        let measures = &mut state.measures;
        match (self.kind, end) {
            (_, End::Lent) => {
                measures.waits.count(self.began, self.at.nanos);
                // It has the value already if the manager worked on it.
                if let Value::None = self.value {
                    self.take_value(state, call.token());
                }
                return;
            }
            (Kind::Borrow, End::TimedOut | End::Cancelled) => {
                let has_waited = !matches!(self.limit, WaitLimit::None) && !self.lacks_memory();
                measures.timeouts += u64::from(has_waited);
            }
            (Kind::Borrow, End::JournalFull) => {
                measures.timeouts += u64::from(self.no_room() == NoRoom::Late);
            }
            (Kind::Return, End::Parked | End::Destroyed)
            | (Kind::Invalidate | Kind::Detach, End::Destroyed) => {
                measures.loans.count(self.lent, self.began);
            }
            _ => {}
        }
        let is_left = self.kind.ends_loan() && matches!(self.value, Value::Here(_));
        if !is_left || end == End::Parked {
            self.release(state);
        }
    }

    /// Ends the program if the core asks for what it asks of no such call, or ends one as no such call ends.
    #[cold]
    pub fn unexpected(&self, action: impl Debug) -> ! {
        unreachable!("a call of kind {:?} comes to {action:?}", self.kind)
    }
}
