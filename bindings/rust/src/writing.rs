//! Cuts of the journal, and the segments that are handed to a sink.

use crate::failure::Failure;
use crate::journal::copy_lines;
use crate::manager::Manager;
use crate::outlet::Outlet;
use crate::proved_core::{CallCopy, Core, CoreFault};
use crate::room_waits::wake_all;
use crate::segments::SinkFailure;
use crate::settings::Setup;
use crate::shared::{Held, Shared};
use crate::sleepers::Wakes;
use crate::stored_journal::{CutSegment, Mode};
use std::io::{self, Write};
use std::sync::Arc;
use std::thread;

/// How often a cut copies the entries that came meanwhile, before it holds the lock for the rest.
const ROUNDS: u32 = 4;

/// A copy of a stored journal: its base, and its first entries.
struct JournalCopy {
    text: Vec<u8>,
    base_size: usize,
    entries: u64,
}

impl JournalCopy {
    fn of_base(text: Vec<u8>) -> JournalCopy {
        JournalCopy {
            base_size: text.len(),
            text,
            entries: 0,
        }
    }
}

/// The right to cut the journal, of one thread at a time, and the segment that is unwritten. This goes back to the journal in the end.
pub(crate) struct Turn<'a, M: Manager> {
    pool: &'a Shared<M>,
    pub unwritten: Option<CutSegment>,
}

impl<M: Manager> Drop for Turn<'_, M> {
    fn drop(&mut self) {
        let mut state = self.pool.lock();
        state.journal.writer = None;
        state.journal.unwritten = self.unwritten.take();
        self.pool.wake_for_room(state);
    }
}

impl<M: Manager> Shared<M> {
    /// Wakes those that wait for room in the journal, after it frees the lock.
    pub fn wake_for_room(&self, mut state: Held<'_, M>) {
        let wakers = state.journal.room_wakers.take_all();
        drop(state);
        self.written.ring();
        for (number, call) in wake_all(wakers) {
            self.give_room_wait_up(number, call);
        }
    }

    /// Gives the call of a task up whose waker panicked, unless it has gone on. If it was woken for an object, another one is woken in its place.
    #[cold]
    fn give_room_wait_up(&self, number: u64, call: CallCopy) {
        let mut state = self.lock();
        if state.journal.room_wakers.woken.forget(number) {
            let mut wakes = Wakes::default();
            wakes.push(state.core.give_up(call));
            self.leave_with_loan(state, wakes);
        }
    }

    /// Takes the turn to cut the journal, and waits for the thread that has it. Fails if that is this one.
    pub fn take_turn<'a>(&'a self, mut state: Held<'a, M>) -> Option<Turn<'a, M>> {
        while state.journal.writer.is_some() {
            if state.journal.is_written_by_this_thread() {
                return None;
            }
            state = self.state.wait(state, &self.written, None);
        }
        state.journal.writer = Some(thread::current().id());
        Some(Turn {
            pool: self,
            unwritten: state.journal.unwritten.take(),
        })
    }

    /// Copies and cuts the journal. The segment is kept as unwritten. If there is a change, the pool goes on with those settings. Returns the
    /// position after the last entry of the segment.
    pub fn cut_off(&self, turn: &mut Turn<'_, M>, change: Option<Setup>) -> Result<u64, CoreFault> {
        let mut copy = self.copy_of_base()?;
        for _ in 0..ROUNDS {
            copy.entries = self.copy_stored(copy.entries, &mut copy.text)?;
        }
        self.cut_in(turn, self.lock(), copy, change)
    }

    /// Writes and cuts the journal. The segment is kept as unwritten. Returns how many of its bytes are written: if that fails, nothing is
    /// cut. A pool that drops entries may drop some between two critical sections, so it copies and cuts in one, and nothing is written yet.
    fn write_and_cut(&self, turn: &mut Turn<'_, M>, out: &mut dyn Write) -> io::Result<usize> {
        let state = self.lock();
        if state.journal.mode() == Mode::Off {
            self.cut_at_once(turn, state)?;
            return Ok(0);
        }
        drop(state);
        let mut copy = self.copy_of_base()?;
        let mut written = 0;
        for _ in 0..ROUNDS {
            copy.entries = self.copy_stored(copy.entries, &mut copy.text)?;
            out.write_all(&copy.text[written..])?;
            written = copy.text.len();
        }
        out.flush()?;
        self.cut_in(turn, self.lock(), copy, None)?;
        Ok(written)
    }

    /// Copies the lines of the base, while no other thread may cut the journal.
    fn copy_of_base(&self) -> Result<JournalCopy, CoreFault> {
        let first = self.lock().first_stored();
        let mut text = Vec::new();
        let is_whole = self.copy_base(first, &mut text)?;
        debug_assert!(is_whole, "no other thread cuts the journal");
        Ok(JournalCopy::of_base(text))
    }

    /// Copies and cuts the journal in one critical section.
    fn cut_at_once(
        &self,
        turn: &mut Turn<'_, M>,
        mut state: Held<'_, M>,
    ) -> Result<u64, CoreFault> {
        let mut text = Vec::new();
        copy_lines(&mut state.core, Core::base_line, 0, u64::MAX, &mut text)?;
        self.cut_in(turn, state, JournalCopy::of_base(text), None)
    }

    /// Copies the entries that are not copied yet, and cuts the journal. A change of the settings leaves no segment without entries.
    fn cut_in(
        &self,
        turn: &mut Turn<'_, M>,
        mut state: Held<'_, M>,
        copy: JournalCopy,
        change: Option<Setup>,
    ) -> Result<u64, CoreFault> {
        let (position, entries) = (state.first_stored(), state.core.steps());
        let (mut text, counts) = (copy.text, state.core.counts());
        copy_lines(
            &mut state.core,
            Core::line,
            copy.entries,
            entries,
            &mut text,
        )?;
        let limit = state.setup.settings.journal_limit.unsigned_abs();
        let segment = CutSegment {
            position,
            entries,
            text,
            base_size: copy.base_size,
            settings: Arc::clone(&state.setup.text),
            most_before: state.journal.most_before(limit, entries, counts),
        };
        match change {
            Some(setup) => {
                state.reconfigure(setup)?;
                turn.unwritten = (entries > 0).then_some(segment);
                self.leave_after_change(state);
                self.wake_for_room(self.lock());
            }
            None => {
                state.cut()?;
                turn.unwritten = Some(segment);
                self.wake_for_room(state);
            }
        }
        Ok(position + entries)
    }

    /// Writes a segment, and cuts the journal after it. Returns the number of its entries.
    ///
    /// Entries are copied and cut under the lock, and written without it. All but the last are written before the cut. If the rest fails,
    /// the next cut writes the same segment.
    pub fn cut(&self, out: &mut dyn Write) -> io::Result<u64> {
        let state = self.lock();
        if self.outlet.is_some() {
            let message = "the segments of this pool are handed to its sink";
            return Err(io::Error::new(io::ErrorKind::Unsupported, message));
        }
        let mut turn = self
            .take_turn(state)
            .ok_or_else(|| io::Error::other("a journal is cut while it is cut"))?;
        let written = match turn.unwritten {
            Some(_) => 0,
            None => self.write_and_cut(&mut turn, out)?,
        };
        if let Some(segment) = &turn.unwritten {
            out.write_all(&segment.text[written..])?;
            out.flush()?;
        }
        Ok(turn.unwritten.take().map_or(0, |segment| segment.entries))
    }

    /// Hands the entries that are in memory to the sink. Returns their number, or 0 without a sink.
    pub fn flush_journal(&self) -> io::Result<u64> {
        let state = self.lock();
        let Some(outlet) = &self.outlet else {
            return Ok(0);
        };
        let mut turn = self
            .take_turn(state)
            .ok_or_else(|| io::Error::other("a journal is written while it is written"))?;
        self.write_out(&mut turn, outlet)
    }

    /// Hands the rest of the journal to the sink.
    pub fn write_rest(&self) {
        let state = self.lock();
        if let Some(outlet) = &self.outlet {
            if let Some(turn) = self.take_turn(state) {
                self.write_and_report(turn, outlet);
            }
        }
    }

    /// Writes a segment if one is due and no other thread writes.
    #[cold]
    pub fn write_due(&self) {
        let Some(outlet) = &self.outlet else {
            return;
        };
        let state = self.lock();
        if !state.journal.wants_writer() {
            return;
        }
        if let Some(turn) = self.take_turn(state) {
            self.write_and_report(turn, outlet);
        }
    }

    /// Writes a segment, and reports that this failed once others may cut the journal.
    pub fn write_and_report(&self, mut turn: Turn<'_, M>, outlet: &Outlet) {
        let written = self.write_out(&mut turn, outlet);
        drop(turn);
        if let Err(error) = written {
            self.report(Failure::Sink(error));
        }
    }

    /// Hands to the sink what is unwritten, and then the stored entries. Returns their number.
    fn write_out(&self, turn: &mut Turn<'_, M>, outlet: &Outlet) -> io::Result<u64> {
        let written = self.try_to_write_out(turn, outlet);
        self.plan_next_try(&written);
        written
    }

    /// Plans the next try if this one failed.
    pub fn plan_next_try(&self, written: &io::Result<u64>) {
        if written.is_err() {
            let mut state = self.lock();
            let (stored, room) = (state.core.steps(), state.core.room());
            state.journal.try_later(stored, room);
        }
    }

    fn try_to_write_out(&self, turn: &mut Turn<'_, M>, outlet: &Outlet) -> io::Result<u64> {
        let mut written = self.hand_over(turn, outlet)?;
        if self.lock().core.steps() > 0 {
            self.cut_off(turn, None)?;
            written += self.hand_over(turn, outlet)?;
        }
        Ok(written)
    }

    /// Hands the unwritten segment to the sink, if there is one. If that fails, it stays unwritten or is dropped. Returns the number of its
    /// entries.
    pub fn hand_over(&self, turn: &mut Turn<'_, M>, outlet: &Outlet) -> io::Result<u64> {
        let Some(segment) = &turn.unwritten else {
            return Ok(0);
        };
        let entries = segment.entries;
        let stored = outlet.store(segment);
        self.lock().journal.has_failed = stored.is_err();
        if stored.is_ok() || outlet.on_failure == SinkFailure::Drop {
            turn.unwritten = None;
        }
        stored.map(|()| entries)
    }
}
