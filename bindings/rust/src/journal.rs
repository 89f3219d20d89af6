//! What becomes of a journal, and its text.

use crate::manager::Manager;
use crate::proved_core::{Core, CoreFault};
use crate::segments::Segments;
use crate::shared::Shared;
use std::io::{self, Write};
use std::sync::{MutexGuard, PoisonError};
use std::thread;

/// What becomes of the entries of a pool's journal, for [`Builder::journal`](crate::Builder::journal).
///
/// A borrow and a return are four entries.
#[derive(Debug, Default)]
#[non_exhaustive]
pub enum Journal {
    /// The entries are dropped, a thousand or more at a time, and sooner if the journal cannot get more memory. The pool never stops lending
    /// for its journal, and its memory stays flat. The setting `journalLimit` has no effect: the pool sets it to 2^32, its greatest value. This
    /// is the default.
    #[default]
    Off,
    /// The entries are kept in memory, at most this many, up to 2^32; with `None`, as many as the setting `journalLimit` says. The least
    /// number is 6 for each of the `maxTotal` objects, or 7 with [`Abandoned::on_borrow`](crate::Abandoned::on_borrow), and one more. A pool whose
    /// journal has too little [room](crate::Pool::room) lends nothing more ([`Error::JournalFull`](crate::Error::JournalFull)), until it is
    /// [cut](crate::Pool::cut).
    Memory(Option<u64>),
    /// The entries are handed to a sink as segments: once a second by a thread of the journal's own ([`Segments::store_every`]), also if no object comes
    /// back; when about half of the room in memory is used up; by [`Pool::flush_journal`](crate::Pool::flush_journal),
    /// [`Pool::reconfigure`](crate::Pool::reconfigure) and [`Pool::close`](crate::Pool::close); when the last [`Pool`](crate::Pool) is gone, though
    /// objects are lent, and again when they are gone; and at the end of the program, if that has such a thread.
    ///
    /// **The end of the program** is a return from `main` or [`std::process::exit`]: it waits for the sinks of all pools, for 5 seconds at most. A
    /// process that is aborted, killed by a signal, or ended by `_exit` loses what came since the last store.
    ///
    /// The call that uses up the half stores the segment before it returns, without the lock, once its object is idle or its place is free. One that
    /// lends an object leaves this to the next call, and so does one that waits. Other calls continue meanwhile. If they use up the rest, those that
    /// need room wait for the segment ([`Error::SinkBusy`](crate::Error::SinkBusy) if they may not), or the first of them stores it if nobody does,
    /// also in a poll of [`Pool::get_async`](crate::Pool::get_async).
    Segments(Segments),
}

/// How many lines are copied at once, under the lock.
const AT_ONCE: u64 = 256;

/// How often a copy begins again because the journal was cut meanwhile, before it holds the lock.
const ROUNDS: u32 = 4;

/// Appends a line at a position. Returns whether there is one.
type Line = fn(&mut Core, u64, &mut Vec<u8>) -> Result<bool, CoreFault>;

/// Appends the lines from a position up to another, if there are as many. Returns the position after the last one.
pub(crate) fn copy_lines(
    core: &mut Core,
    line: Line,
    from: u64,
    to: u64,
    text: &mut Vec<u8>,
) -> Result<u64, CoreFault> {
    for position in from..to {
        if !line(core, position, text)? {
            return Ok(position);
        }
    }
    Ok(to)
}

/// The right to drain the journal, of one thread at a time.
struct Drain<'a, M: Manager> {
    pool: &'a Shared<M>,
    _one_at_a_time: MutexGuard<'a, ()>,
}

impl<M: Manager> Drop for Drain<'_, M> {
    fn drop(&mut self) {
        self.pool.lock().journal.drainer = None;
    }
}

impl<M: Manager> Shared<M> {
    /// Writes the stored entries, after the lines of their base if the journal was cut. Returns their number.
    pub fn write_journal(&self, out: &mut dyn Write) -> io::Result<u64> {
        let (text, entries) = self.copy_journal()?;
        out.write_all(&text)?;
        out.flush()?;
        Ok(entries)
    }

    /// Copies the stored journal. Returns its text and the number of its entries.
    fn copy_journal(&self) -> Result<(Vec<u8>, u64), CoreFault> {
        for _ in 0..ROUNDS {
            if let Some(copied) = self.try_copy_journal()? {
                return Ok(copied);
            }
        }
        let mut state = self.lock();
        let mut text = Vec::new();
        if state.first_stored() > 0 {
            copy_lines(&mut state.core, Core::base_line, 0, u64::MAX, &mut text)?;
        }
        let len = copy_lines(&mut state.core, Core::line, 0, u64::MAX, &mut text)?;
        Ok((text, len))
    }

    /// Copies the stored journal, some hundred lines at a time. Returns none if it was cut meanwhile.
    fn try_copy_journal(&self) -> Result<Option<(Vec<u8>, u64)>, CoreFault> {
        let mut text = Vec::new();
        let mut state = self.lock();
        let (first, len) = (state.first_stored(), state.core.steps());
        drop(state);
        let is_whole = (first == 0 || self.copy_base(first, &mut text)?)
            && self.copy_in_parts(first, Core::line, len, &mut text)?;
        Ok(is_whole.then_some((text, len)))
    }

    /// Copies the lines of the base at a position. Returns whether the journal was not cut meanwhile.
    pub fn copy_base(&self, first: u64, text: &mut Vec<u8>) -> Result<bool, CoreFault> {
        self.copy_in_parts(first, Core::base_line, u64::MAX, text)
    }

    /// Copies the first lines of the journal whose base has a position: `count`, or all if there are fewer, some hundred at a time. Returns
    /// whether the journal was not cut meanwhile.
    fn copy_in_parts(
        &self,
        first: u64,
        line: Line,
        count: u64,
        text: &mut Vec<u8>,
    ) -> Result<bool, CoreFault> {
        let mut copied = 0;
        while copied < count {
            let mut state = self.lock();
            if state.first_stored() != first {
                return Ok(false);
            }
            let to = count.min(copied + AT_ONCE);
            let next = copy_lines(&mut state.core, line, copied, to, text)?;
            if next < to {
                break;
            }
            copied = next;
        }
        Ok(true)
    }

    /// Copies the stored entries up to the last one, some hundred at a time, while no other thread may cut them. Returns how many were
    /// copied.
    pub fn copy_stored(&self, mut copied: u64, text: &mut Vec<u8>) -> Result<u64, CoreFault> {
        let end = self.lock().core.steps();
        while copied < end {
            let mut state = self.lock();
            copied = copy_lines(
                &mut state.core,
                Core::line,
                copied,
                end.min(copied + AT_ONCE),
                text,
            )?;
        }
        Ok(copied)
    }

    /// Writes the entries that no drain has written and no cut has taken. Returns their number.
    pub fn drain_journal(&self, out: &mut dyn Write) -> io::Result<u64> {
        let _drain = self.begin_drain()?;
        let end = self.lock().end_of_stored();
        let (mut text, mut written) = (Vec::new(), 0);
        loop {
            text.clear();
            let (from, to) = self.copy_undrained(end, &mut text)?;
            if from >= to {
                return Ok(written);
            }
            out.write_all(&text)?;
            out.flush()?;
            self.lock().journal.drained = to;
            written += to - from;
        }
    }

    /// Takes the right to drain the journal, and waits for the thread that has it. Fails if it is this one.
    fn begin_drain(&self) -> io::Result<Drain<'_, M>> {
        let this = Some(thread::current().id());
        if self.lock().journal.drainer == this {
            return Err(io::Error::other("a journal is drained while it is drained"));
        }
        let one_at_a_time = self.draining.lock().unwrap_or_else(PoisonError::into_inner);
        self.lock().journal.drainer = this;
        Ok(Drain {
            pool: self,
            _one_at_a_time: one_at_a_time,
        })
    }

    /// Copies entries that were not drained, some hundred, up to a position. Returns the positions between which they are.
    fn copy_undrained(&self, end: u64, text: &mut Vec<u8>) -> Result<(u64, u64), CoreFault> {
        let mut state = self.lock();
        let first = state.first_stored();
        let from = state.journal.drained.max(first);
        let to = end.min(from + AT_ONCE).max(from);
        copy_lines(&mut state.core, Core::line, from - first, to - first, text)?;
        Ok((from, to))
    }
}
