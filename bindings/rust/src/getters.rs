//! The settings of an open pool, one by one.

use crate::manager::Manager;
use crate::pool::Pool;
use crate::settings::Abandoned;
use std::time::Duration;

/// Returns a number of objects, or none if it is no limit.
fn limit(number: i64) -> Option<u32> {
    u32::try_from(number).ok()
}

/// Returns a time, or none if it is no limit.
fn time(millis: i64) -> Option<Duration> {
    u64::try_from(millis).ok().map(Duration::from_millis)
}

/// The settings, by the names that [`Builder`](crate::Builder) gives them. [`reconfigure`](Pool::reconfigure) changes all but `overtake_time`,
/// `max_overtakes` and `max_lifetime`. Each call but those three takes the lock.
impl<M: Manager> Pool<M> {
    /// Returns the most objects at one time; `None`: no limit.
    pub fn max_total(&self) -> Option<u32> {
        limit(self.shared().settings().max_total)
    }

    /// Returns the most idle objects; `None`: no limit.
    pub fn max_idle(&self) -> Option<u32> {
        limit(self.shared().settings().max_idle)
    }

    /// Returns how many idle objects [`fill`](Pool::fill) and [`maintain`](Pool::maintain) keep ready.
    pub fn min_idle(&self) -> u32 {
        limit(self.shared().settings().min_idle).unwrap_or(0)
    }

    /// Returns whether the object that was returned last is lent next.
    pub fn lifo(&self) -> bool {
        self.shared().settings().lifo
    }

    /// Returns whether [`get`](Pool::get) waits for an object if all are lent.
    pub fn block_when_exhausted(&self) -> bool {
        self.shared().settings().block_when_exhausted
    }

    /// Returns how long a borrow waits at most; `None`: no limit.
    pub fn max_wait(&self) -> Option<Duration> {
        time(self.shared().settings().max_wait_millis)
    }

    /// Returns how long a borrow waits while any number of later ones may overtake it.
    pub fn overtake_time(&self) -> Duration {
        Duration::from_millis(self.shared().policy.overtake_millis)
    }

    /// Returns how often a borrow is overtaken at most once it has waited for that time.
    pub fn max_overtakes(&self) -> u32 {
        self.shared().policy.max_overtakes
    }

    /// Returns whether a new object is validated.
    pub fn test_on_create(&self) -> bool {
        self.shared().settings().test_on_create
    }

    /// Returns whether an object is validated before it is lent.
    pub fn test_on_borrow(&self) -> bool {
        self.shared().settings().test_on_borrow
    }

    /// Returns whether an object is validated at its return.
    pub fn test_on_return(&self) -> bool {
        self.shared().settings().test_on_return
    }

    /// Returns whether an eviction run validates the objects that it does not evict.
    pub fn test_while_idle(&self) -> bool {
        self.shared().lock().setup.tests_idle
    }

    /// Returns how long an object may be idle; `None` or no time: for ever.
    pub fn min_evictable_idle(&self) -> Option<Duration> {
        time(self.shared().settings().min_evictable_idle_millis)
    }

    /// Returns how long an object may be idle if more than `min_idle` are; `None` or no time: for ever.
    pub fn soft_min_evictable_idle(&self) -> Option<Duration> {
        time(self.shared().settings().soft_min_evictable_idle_millis)
    }

    /// Returns how many objects an eviction run examines; `-n`: one *n*-th of the idle ones, rounded up.
    pub fn tests_per_eviction_run(&self) -> i32 {
        let tests = self.shared().settings().num_tests_per_eviction_run;
        i32::try_from(tests).expect("the core reads a number of 32 bits")
    }

    /// Returns how many entries the journal has at most in memory.
    pub fn journal_limit(&self) -> u64 {
        self.shared().settings().journal_limit.unsigned_abs()
    }

    /// Returns when lent objects count as abandoned; `None`: never.
    pub fn abandoned(&self) -> Option<Abandoned> {
        self.shared().settings().abandoned
    }

    /// Returns the age at which objects are destroyed; `None`: none is destroyed for its age.
    pub fn max_lifetime(&self) -> Option<Duration> {
        self.shared().policy.max_lifetime.map(Duration::from_millis)
    }
}
