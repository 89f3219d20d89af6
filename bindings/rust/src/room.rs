//! Calls that find the journal full, and make room in it or wait for the thread that does.

use crate::call::Kind;
use crate::locked_pool::LockedPool;
use crate::manager::Manager;
use crate::shared::{Held, Shared};
use crate::stored_journal::Mode;
use std::time::{Duration, Instant};

/// What there is for a call that found the journal full.
pub(crate) enum Room {
    /// The journal was cut, or has room.
    Made,
    /// Nobody writes a segment, so the call is to do so.
    Lacks,
    /// Another thread writes a segment.
    Awaited,
    /// None: the pool is closed or has no sink, or this thread writes the segment.
    Refused,
}

/// Why there is no room for a call.
#[derive(Clone, Copy, Debug, Default, PartialEq, Eq)]
pub(crate) enum NoRoom {
    /// The journal is full, and nobody stores what it has: it has no sink, or that fails.
    #[default]
    Full,
    /// Another thread stores a segment, and the call may not wait for it.
    Busy,
    /// Another thread stores a segment, and the call has waited for as long as it may.
    Late,
}

impl<M: Manager> Shared<M> {
    /// Makes room in a journal that was full when its first stored entry had this position, or waits until then for the thread that does. If the
    /// journal was cut or has room, the step may be tried again, even if others have used the room up meanwhile.
    #[cold]
    pub fn make_room<'a>(
        &'a self,
        mut state: Held<'a, M>,
        kind: Kind,
        first: u64,
        end: Option<Instant>,
    ) -> Result<(), NoRoom> {
        loop {
            match self.look_for_room(&mut state, kind, first) {
                Room::Made => return Ok(()),
                Room::Refused => return Err(NoRoom::Full),
                Room::Lacks => return self.write_for_room(state, first),
                Room::Awaited => {}
            }
            let left = end.map(|end| end.saturating_duration_since(Instant::now()));
            if left == Some(Duration::ZERO) {
                return Err(state.journal.no_room_after_wait());
            }
            state = self.state.wait(state, &self.written, left);
        }
    }

    /// Returns what there is for a call that found the journal full when its first stored entry had this position.
    pub fn look_for_room(&self, state: &mut LockedPool<M::Object>, kind: Kind, first: u64) -> Room {
        let is_closed = kind.needs_open_pool() && state.core.is_closed();
        let is_made = state.first_stored() != first || state.has_room();
        match state.journal.writer {
            _ if is_closed || self.outlet.is_none() => Room::Refused,
            _ if is_made => Room::Made,
            None => Room::Lacks,
            Some(_) if state.journal.is_written_by_this_thread() => Room::Refused,
            Some(_) => Room::Awaited,
        }
    }

    /// Writes a segment for a call that found the journal full. Fails unless the journal was cut or has room then.
    pub fn write_for_room(&self, state: Held<'_, M>, first: u64) -> Result<(), NoRoom> {
        if let (Some(outlet), Some(turn)) = (&self.outlet, self.take_turn(state)) {
            self.write_and_report(turn, outlet);
        }
        let mut state = self.lock();
        let is_made = state.first_stored() != first || state.has_room();
        is_made.then_some(()).ok_or(NoRoom::Full)
    }

    /// Returns whether little room is left in the journal.
    pub fn is_low(&self) -> bool {
        let mut state = self.lock();
        match state.journal.mode() {
            Mode::Off => false,
            Mode::Memory | Mode::Segments => {
                let settings = &state.setup.settings;
                let low = (settings.journal_limit.unsigned_abs() / 4).max(settings.least_room());
                state.core.room() < low
            }
        }
    }
}
