//! What a call that timed out tells.

use crate::error::Error;
use crate::manager::Manager;
use crate::room::NoRoom;
use crate::shared::Shared;
use std::fmt::{self, Display, Formatter};
use std::sync::Arc;
use std::time::Duration;

/// A wait that was over before there was an object, and the state of the pool then.
#[derive(Clone, Debug, PartialEq, Eq, Hash)]
#[non_exhaustive]
pub struct Timeout {
    /// The name of the pool, if [`Builder::name`](crate::Builder::name) gave it one.
    pub pool: Option<Arc<str>>,
    /// How long the call could wait, by the settings or by its own limit; none if nothing limits it any more, or a future did.
    pub limit: Option<Duration>,
    /// How long the call took, by the pool's clock.
    pub waited: Duration,
    /// The number of lent objects.
    pub lent: u64,
    /// The number of idle objects.
    pub idle: u64,
    /// How many borrows still wait for an object.
    pub waiting: u64,
    /// The most objects at one time; none: no limit.
    pub max_total: Option<u32>,
    /// Whether it waited in the end for the sink of the journal, which was storing a segment in another thread.
    pub for_sink: bool,
}

/// Writes one line, with the times to the millisecond.
impl Display for Timeout {
    fn fmt(&self, f: &mut Formatter<'_>) -> fmt::Result {
        f.write_str(match self.for_sink {
            true => "timed out waiting for the sink of the journal of the pool",
            false => "timed out waiting for an object of the pool",
        })?;
        if let Some(name) = &self.pool {
            write!(f, " {name:?}")?;
        }
        write!(f, " after {:?}", in_millis(self.waited))?;
        if let Some(limit) = self.limit {
            write!(f, " (limit {limit:?})")?;
        }
        let (lent, idle, waiting) = (self.lent, self.idle, self.waiting);
        write!(f, ": {lent} lent, {idle} idle, {waiting} waiting, ")?;
        match self.max_total {
            Some(most) => write!(f, "max_total {most}"),
            None => f.write_str("no max_total"),
        }
    }
}

fn in_millis(time: Duration) -> Duration {
    Duration::new(time.as_secs(), time.subsec_millis() * 1_000_000)
}

impl<M: Manager> Shared<M> {
    /// Returns the error of a call that began at a time, in nanoseconds, and has waited for as long as it may, perhaps for the sink.
    #[cold]
    pub fn timed_out(&self, began: u64, for_sink: bool) -> Error<M::Error> {
        let passed = self.now().nanos.wrapping_sub(began);
        // A clock may go back.
        let passed = if passed > u64::MAX / 2 { 0 } else { passed };
        let mut state = self.lock();
        let counts = state.core.counts();
        let settings = &state.setup.settings;
        let limit = u64::try_from(settings.max_wait_millis);
        let max_total = u32::try_from(settings.max_total);
        Error::TimedOut(Timeout {
            pool: self.policy.name.clone(),
            limit: limit.ok().map(Duration::from_millis),
            waited: Duration::from_nanos(passed),
            lent: counts.lent,
            idle: counts.idle,
            max_total: max_total.ok(),
            waiting: state.core.waiting(),
            for_sink,
        })
    }

    /// Returns the error of a call that began at a time, for which there is no room in the journal.
    #[cold]
    pub fn no_room(&self, no_room: NoRoom, began: u64) -> Error<M::Error> {
        match no_room {
            NoRoom::Full => Error::JournalFull,
            NoRoom::Busy => Error::SinkBusy,
            NoRoom::Late => self.timed_out(began, true),
        }
    }
}
