//! The state that a pool's lock protects.

use crate::call::Kind;
use crate::clock::{Aged, Moment};
use crate::metrics::Measures;
use crate::proved_core::{Begun, Call, CallCopy, Core, CoreFault, Space};
use crate::settings::Setup;
use crate::sleepers::Sleepers;
use crate::stored_journal::{Mode, StoredJournal};
use crate::sys::Start;
use crate::values::Values;
use crate::woken::LONGEST_WAKE;
use std::time::{Duration, Instant};

/// The core, with the values of its idle objects, and with those that it has told to sleep.
pub(crate) struct LockedPool<T> {
    pub core: Core,
    pub journal: StoredJournal,
    pub values: Values<Aged<T>>,
    pub sleepers: Sleepers,
    pub measures: Measures,
    pub setup: Setup,
    /// Whether a thread waits, or waited, for the end of all objects.
    pub is_end_awaited: bool,
    /// The greatest time that the core was told, in milliseconds.
    last_time: u64,
}

impl<T> LockedPool<T> {
    pub fn new(mut core: Core, mode: Mode, setup: Setup) -> LockedPool<T> {
        LockedPool {
            journal: StoredJournal::new(mode, core.room()),
            core,
            values: Values::new(),
            sleepers: Sleepers::new(),
            measures: Measures::default(),
            setup,
            is_end_awaited: false,
            last_time: 0,
        }
    }

    /// Returns the time that the core is told, in milliseconds. One before that of the last entry counts as that one.
    #[inline]
    pub fn tell(&mut self, at: Moment) -> u64 {
        self.last_time = self.last_time.max(at.millis);
        self.last_time
    }

    /// Begins a call at a time, and takes its first steps. A place is set aside before for an object that may be made. Waits of a borrow begin with
    /// the next millisecond.
    #[inline(always)]
    pub fn begin<'a>(&mut self, start: Start, at: Moment, space: &'a mut Space) -> Begun<'a> {
        let needs_place = start.kind.makes() && self.values.len() == 0;
        if needs_place && self.values.reserve().is_err() {
            return Begun::On(Call::without_memory(space));
        }
        let at = self.tell(match start.kind {
            Kind::Borrow => at.rounded_up(),
            _ => at,
        });
        self.core.begin(&Start { at, ..start }, space)
    }

    /// Returns the greatest time that the core was told, in milliseconds.
    pub fn last_time(&self) -> u64 {
        self.last_time
    }

    /// Returns whether a task was woken long ago, for an object or for room in the journal, and has not been polled since then.
    #[inline(always)]
    pub fn has_unheeded(&self) -> bool {
        let wakers = &self.journal.room_wakers;
        self.sleepers.woken.has_older(LONGEST_WAKE) || wakers.woken.has_older(LONGEST_WAKE)
    }

    /// Returns the call of such a task.
    pub fn take_unheeded(&mut self) -> Option<CallCopy> {
        let for_object = self.sleepers.woken.take_older(LONGEST_WAKE);
        let wakers = &mut self.journal.room_wakers;
        for_object.or_else(|| wakers.woken.take_older(LONGEST_WAKE))
    }

    /// Returns the number of threads that a call that waits, with its ticket, waits for at most: those that have an object, and those that wait
    /// before it or were woken.
    pub fn threads_before(&mut self, ticket: u64) -> usize {
        let counts = self.core.counts();
        let asleep = self.sleepers.len() as u64;
        let woken = self.core.waiting().saturating_sub(asleep);
        let others = counts.lent + counts.reserved + woken;
        usize::try_from(others).unwrap_or(usize::MAX) + self.sleepers.older(ticket)
    }

    /// Asks for a writer of a segment, if one is due. Returns whether a segment is to be written, and no thread does.
    #[inline(always)]
    pub fn care_for_journal(&mut self) -> bool {
        self.journal.mode() == Mode::Segments && self.look_at_journal()
    }

    #[cold]
    fn look_at_journal(&mut self) -> bool {
        let stored = self.core.steps();
        if self.journal.is_long(stored) {
            let room = self.core.room();
            self.journal.look(stored, room);
        }
        self.journal.wants_writer()
    }

    /// Drops the stored entries if they are not kept. Returns whether some were dropped, so that a call may be tried again.
    #[cold]
    pub fn free_memory(&mut self) -> bool {
        self.journal.mode() == Mode::Off && self.core.steps() > 0 && self.core.cut().is_ok()
    }

    /// Cuts the journal: its entries are not stored any more. If it fails, nothing changes.
    pub fn cut(&mut self) -> Result<(), CoreFault> {
        self.core.cut()?;
        self.plan_segment();
        Ok(())
    }

    /// Cuts the journal, and goes on with other settings. Then the calls of `next_wake` are to be woken. If it fails, nothing changes.
    pub fn reconfigure(&mut self, setup: Setup) -> Result<(), CoreFault> {
        self.core.reconfigure(&setup.text)?;
        self.setup = setup;
        self.plan_segment();
        Ok(())
    }

    /// Plans the next segment of a journal that was cut.
    fn plan_segment(&mut self) {
        let (room, counts) = (self.core.room(), self.core.counts());
        self.journal.cut(room, counts);
    }

    /// Returns until when a call that began to wait at an instant does so, by the settings.
    pub fn end_of_wait(&self, since: Instant) -> Option<Instant> {
        let most = u64::try_from(self.setup.settings.max_wait_millis).ok()?;
        since.checked_add(Duration::from_millis(most))
    }

    /// Returns whether the journal has room for any call.
    pub fn has_room(&mut self) -> bool {
        self.core.room() >= self.setup.settings.least_room()
    }

    /// Returns the position of the first stored entry. Positions count from the first entry since the pool was opened.
    pub fn first_stored(&mut self) -> u64 {
        self.core.counts().steps - self.core.steps()
    }

    /// Returns the position after the last stored entry.
    pub fn end_of_stored(&mut self) -> u64 {
        self.core.counts().steps
    }
}
