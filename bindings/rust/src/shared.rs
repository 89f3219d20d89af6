//! What all handles of a pool share: its lock, its clock, and how those are woken that sleep.

use crate::call::Kind;
use crate::clock::{Aged, Clock, Moment};
use crate::failure::Failure;
use crate::leaks::LeakWatch;
use crate::locked::{Bell, Guard, Locked};
use crate::locked_pool::LockedPool;
use crate::maintenance::Maintainer;
use crate::manager::Manager;
use crate::metrics::Snapshot;
use crate::outlet::Outlet;
use crate::panics::unless_it_panics;
use crate::pauses::{count_processors, Pauses};
use crate::reports::Reports;
use crate::settings::{Settings, Setup};
use crate::sleepers::{OldestSleeper, Wakes};
use crate::storing::Orders;
use std::sync::{Arc, Mutex, MutexGuard, PoisonError};
use std::time::{Duration, Instant};
use std::{mem, process, thread};

/// For how long a borrow waits.
#[derive(Clone, Copy)]
pub(crate) enum WaitLimit {
    None,
    /// Until this instant, or without a limit, whatever the settings allow.
    Until(Option<Instant>),
    AsSet,
}

/// What the pool does of its own about its objects.
pub(crate) struct Policy<M: Manager> {
    /// How old an object may get, in milliseconds.
    pub max_lifetime: Option<u64>,
    /// The limit of the journal, if it is not that of the settings.
    pub journal_limit: Option<u64>,
    /// For how long, in milliseconds, a waiter is overtaken without a limit.
    pub overtake_millis: u64,
    /// How often it is after that.
    pub max_overtakes: u32,
    pub reports: Reports<M>,
    /// The name of the pool in messages.
    pub name: Option<Arc<str>>,
    pub leaks: Option<LeakWatch>,
}

impl<M: Manager> Policy<M> {
    /// Returns what a pool makes of settings: its journal may have a limit of its own, and the core tests idle objects that have a lifetime, one of them
    /// in each run at least.
    pub fn setup(&self, mut settings: Settings) -> Setup {
        let mut tests_idle = settings.test_while_idle;
        if self.max_lifetime.is_some() {
            settings.test_while_idle = true;
            if settings.num_tests_per_eviction_run == 0 {
                settings.num_tests_per_eviction_run = 1;
                tests_idle = false;
            }
        }
        if let Some(entries) = self.journal_limit {
            settings.journal_limit = i64::try_from(entries).unwrap_or(i64::MAX);
        }
        Setup {
            text: settings.to_string().into(),
            settings,
            tests_idle,
        }
    }
}

/// A pool. The manager is called without the lock.
pub(crate) struct Shared<M: Manager> {
    pub state: Locked<LockedPool<M::Object>>,
    oldest_asleep: Arc<OldestSleeper>,
    clock: Clock,
    /// The journal was cut, or the thread that cut it is done.
    pub written: Bell,
    /// An object or a call has ended, if a thread waits for the end of all.
    pub ended: Bell,
    /// Held by a thread that drains the journal. It may take the lock of the state.
    pub draining: Mutex<()>,
    /// Where segments go.
    pub outlet: Option<Outlet>,
    pub manager: Arc<M>,
    pub policy: Policy<M>,
    maintainer: Mutex<Option<Maintainer>>,
    /// The thread that stores the journal.
    storer: Mutex<Option<Arc<Orders>>>,
    /// The process that opened the pool.
    process: u32,
}

/// An object of a manager, with its age.
pub(crate) type Item<M> = Aged<<M as Manager>::Object>;

/// The lock of a pool, held.
pub(crate) type Held<'a, M> = Guard<'a, LockedPool<<M as Manager>::Object>>;

impl<M: Manager> Shared<M> {
    pub fn new(
        state: LockedPool<M::Object>,
        clock: Clock,
        outlet: Option<Outlet>,
        manager: M,
        policy: Policy<M>,
    ) -> Shared<M> {
        // Here, since a call that waits can do without its allocations.
        count_processors();
        Shared {
            oldest_asleep: state.sleepers.oldest(),
            state: Locked::new(state),
            clock,
            written: Bell::new(),
            ended: Bell::new(),
            draining: Mutex::new(()),
            outlet,
            manager: Arc::new(manager),
            policy,
            maintainer: Mutex::new(None),
            storer: Mutex::new(None),
            process: process::id(),
        }
    }

    pub fn maintainer(&self) -> MutexGuard<'_, Option<Maintainer>> {
        let maintainer = self.maintainer.lock();
        maintainer.unwrap_or_else(PoisonError::into_inner)
    }

    pub fn storer(&self) -> MutexGuard<'_, Option<Arc<Orders>>> {
        self.storer.lock().unwrap_or_else(PoisonError::into_inner)
    }

    /// Returns the settings that the pool has now.
    pub fn settings(&self) -> Settings {
        self.lock().setup.settings.clone()
    }

    /// Returns what a text of metrics says of the pool, under this name.
    pub fn snapshot(&self, name: &str) -> Snapshot {
        let name = name.to_owned();
        let mut state = self.lock();
        Snapshot {
            name,
            counts: state.core.counts(),
            waiting: state.core.waiting(),
            measures: state.measures.clone(),
        }
    }

    /// Returns whether this is a forked child, which has a copy of its parent's pool.
    pub fn is_of_parent(&self) -> bool {
        process::id() != self.process
    }

    /// Leaks what code of others would be called for at its drop, without a lock, which a thread of the parent may have held.
    pub fn leak(&mut self) {
        let state = self.state.get_mut();
        mem::forget(state.values.take_all());
        mem::forget(state.sleepers.take_all());
        mem::forget(state.journal.room_wakers.take_all());
        mem::forget(self.outlet.take());
        mem::forget(Arc::clone(&self.manager));
        mem::forget(mem::replace(&mut self.clock, Clock::Since(0)));
        self.policy.reports.leak();
        mem::forget(self.policy.leaks.take());
        let maintainer = self.maintainer.get_mut();
        mem::forget(maintainer.unwrap_or_else(PoisonError::into_inner).take());
    }

    /// Reports a failure that no call returns.
    pub fn report(&self, failure: Failure<M::Error>) {
        self.policy.reports.report(failure);
    }

    /// Returns whether an object has reached the age at which it is destroyed.
    #[inline]
    pub fn is_too_old(&self, object: &Item<M>, time: u64) -> bool {
        let most = self.policy.max_lifetime;
        most.is_some_and(|most| time.saturating_sub(object.made) >= most)
    }

    /// Returns the time. If the clock panics, it is that of the last entry.
    #[inline]
    pub fn now(&self) -> Moment {
        let read = self.clock.read();
        read.unwrap_or_else(|| self.time_of_last_entry())
    }

    #[cold]
    fn time_of_last_entry(&self) -> Moment {
        Moment::of_millis(self.lock().last_time())
    }

    /// Returns until when a call that began to wait at an instant does so by the settings, if the pool's clock is the user's: such a clock may be set
    /// back, or stand still.
    pub fn end_of_wait(&self, state: &LockedPool<M::Object>, since: Instant) -> Option<Instant> {
        match self.clock {
            Clock::Since(_) => None,
            Clock::Given(_) => state.end_of_wait(since),
        }
    }

    /// Returns the time to a thread that holds the lock.
    pub fn now_under_lock(&self, state: &LockedPool<M::Object>) -> Moment {
        let read = self.clock.read();
        read.unwrap_or_else(|| Moment::of_millis(state.last_time()))
    }

    /// Destroys an object. If this thread panics already, a panic of the manager ends here, since a second one would end the process.
    pub fn destroy(&self, object: M::Object) {
        if thread::panicking() {
            unless_it_panics(|| self.manager.destroy(object));
        } else {
            self.manager.destroy(object);
        }
    }

    /// Takes the lock. No code of others runs under it except the clock of a thread that waits, and each call of the core is done as a whole or
    /// not at all. So a panic leaves nothing half done.
    #[inline]
    pub fn lock(&self) -> Held<'_, M> {
        self.state.lock()
    }

    /// Takes the lock if it is free.
    pub fn try_lock(&self) -> Option<Held<'_, M>> {
        self.state.try_lock()
    }

    /// Returns whether a call that lacks room in the journal or memory fails since the pool is closed: a closed pool is closed, whatever else is
    /// wrong.
    #[cold]
    pub fn refuses(&self, kind: Kind) -> bool {
        kind.needs_open_pool() && self.lock().core.is_closed()
    }

    /// Frees the lock, and wakes the calls that may find something: those that the core has told, and then those that it tells. Then it writes a
    /// segment if one is due.
    pub fn leave(&self, state: Held<'_, M>, wakes: Wakes) {
        let is_due = state.journal.wants_writer();
        self.leave_with_loan(state, wakes);
        if is_due {
            self.write_due();
        }
    }

    /// Does the same in a call that lends an object, works on one or waits: it goes on at once, and a later call writes the segment.
    pub fn leave_with_loan(&self, state: Held<'_, M>, wakes: Wakes) {
        if !wakes.is_empty() {
            self.wake(state, wakes);
        }
    }

    /// Frees the lock after the end of a call that wakes nobody. Then it writes a segment if one is due.
    #[inline(always)]
    pub fn leave_after_end(&self, mut state: Held<'_, M>) {
        let is_due = state.care_for_journal();
        drop(state);
        if is_due {
            self.write_due();
        }
    }

    /// Frees the lock after a change of the settings, and wakes the calls that the core tells.
    pub fn leave_after_change(&self, mut state: Held<'_, M>) {
        state.care_for_journal();
        let wakes = Wakes::of(state.core.next_wake());
        self.leave(state, wakes);
    }

    /// Wakes calls, each without the lock. If the waker of a task panics, its call is given up, and another one is woken in its place.
    #[cold]
    fn wake<'a>(&'a self, mut state: Held<'a, M>, mut wakes: Wakes) {
        while let Some(ticket) = wakes.pop() {
            let alarm = state.sleepers.wake(ticket);
            if wakes.is_empty() {
                wakes.push(state.core.next_wake());
            }
            let Some(alarm) = alarm else {
                continue;
            };
            drop(state);
            let rung = alarm.ring();
            if rung.is_ok() && wakes.is_empty() {
                return;
            }
            state = self.lock();
            if let Err(call) = rung {
                // A waker may let its task go on, and panic then.
                wakes.push(match state.sleepers.woken.forget(ticket) {
                    true => state.core.give_up(call),
                    false => state.core.next_wake(),
                });
            }
        }
    }

    /// Takes the lock, after the wakes are passed on of tasks that have not been polled for long.
    #[inline(always)]
    pub fn lock_after_wakes(&self) -> Held<'_, M> {
        let mut state = self.lock();
        if state.has_unheeded() {
            drop(state);
            self.pass_wakes_on();
            state = self.lock();
        }
        state
    }

    /// Passes the wakes on of tasks that have not been polled for long: their calls are given up, and others woken in their place.
    #[cold]
    pub fn pass_wakes_on(&self) {
        let mut state = self.lock();
        while let Some(call) = state.take_unheeded() {
            let wakes = Wakes::of(state.core.give_up(call));
            self.leave_with_loan(state, wakes);
            state = self.lock();
        }
    }

    /// Sleeps until the call with a ticket, which is this thread's, is woken or the time is over. It pauses before, in which a short loan ends:
    /// then nobody has to ask the system to wake it. Such a wake may end its next sleep at once, which begins again then.
    pub fn sleep_until_woken(
        &self,
        ticket: u64,
        mut pauses: Pauses,
        longest: Option<Duration>,
    ) -> Held<'_, M> {
        while !self.oldest_asleep.is_after(ticket) {
            if !pauses.pause() {
                match longest {
                    Some(time) => thread::park_timeout(time.saturating_sub(pauses.passed())),
                    None => thread::park(),
                }
                break;
            }
        }
        self.lock_after_wakes()
    }
}
