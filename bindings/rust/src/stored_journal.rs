//! The state of a pool's journal that the pool's lock protects, beside the entries themselves, which the core has.

use crate::counts::Counts;
use crate::room::NoRoom;
use crate::room_waits::RoomWakers;
use std::sync::Arc;
use std::thread::{self, ThreadId};

/// What becomes of entries.
#[derive(Clone, Copy, Debug, PartialEq, Eq)]
pub(crate) enum Mode {
    /// The core drops them.
    Off,
    /// They are kept in memory.
    Memory,
    /// They are handed to a sink.
    Segments,
}

/// A segment that was cut off and is not written yet.
#[derive(Debug)]
pub(crate) struct CutSegment {
    pub position: u64,
    pub entries: u64,
    pub text: Vec<u8>,
    /// The number of bytes of its base.
    pub base_size: usize,
    /// The settings that the pool had then, in TOML.
    pub settings: Arc<str>,
    /// How many entries may be before its own, so that these with those outstanding after them are within the limit.
    pub most_before: u64,
}

/// The greatest number of entries that may be outstanding for an object: while it is made for a borrow.
const MOST_OUTSTANDING: u64 = 5;

/// The numbers of objects at the last cut.
#[derive(Clone, Copy, Debug, Default)]
struct AtCut {
    present: u64,
    created: u64,
}

/// When a segment is to be written, who writes it, and what is not written.
#[derive(Debug)]
pub(crate) struct StoredJournal {
    mode: Mode,
    /// The number of stored entries at which a journal that is handed to a sink is looked at.
    look_at: u64,
    /// Whether a segment is to be written.
    is_due: bool,
    /// The position up to which entries were drained.
    pub drained: u64,
    /// The segment that is cut off and not written, unless a thread is at it.
    pub unwritten: Option<CutSegment>,
    /// The thread that cuts the journal, and writes what it cuts off. Meanwhile no other may cut.
    pub writer: Option<ThreadId>,
    /// The tasks that wait until the journal is cut, or that thread is done.
    pub room_wakers: RoomWakers,
    /// The thread that drains the journal.
    pub drainer: Option<ThreadId>,
    /// Whether the sink failed when it was called last.
    pub has_failed: bool,
    at_cut: AtCut,
}

impl StoredJournal {
    /// An empty journal with room for `room` entries.
    pub fn new(mode: Mode, room: u64) -> StoredJournal {
        let mut journal = StoredJournal {
            mode,
            look_at: 0,
            is_due: false,
            drained: 0,
            unwritten: None,
            writer: None,
            room_wakers: RoomWakers::default(),
            drainer: None,
            has_failed: false,
            at_cut: AtCut::default(),
        };
        journal.plan(0, room);
        journal
    }

    #[inline]
    pub fn mode(&self) -> Mode {
        self.mode
    }

    /// Returns whether this thread is the writer.
    pub fn is_written_by_this_thread(&self) -> bool {
        self.writer == Some(thread::current().id())
    }

    /// Returns whether a journal with this many entries is to be looked at.
    #[inline]
    pub fn is_long(&self, stored: u64) -> bool {
        stored >= self.look_at
    }

    /// Asks for a writer if a segment is due, now that `stored` entries are stored and there is room for `room` more.
    #[cold]
    pub fn look(&mut self, stored: u64, room: u64) {
        if stored < room {
            self.plan(stored, room);
        } else {
            self.is_due = true;
            self.look_at = u64::MAX;
        }
    }

    /// All entries are cut off, and there is room for `room` more.
    pub fn cut(&mut self, room: u64, counts: Counts) {
        self.at_cut = AtCut {
            present: counts.idle + counts.lent + counts.reserved,
            created: counts.created,
        };
        self.plan(0, room);
    }

    /// Returns how many entries may be before those since the last cut, of which there are `entries`, for a check with a limit.
    pub fn most_before(&self, limit: u64, entries: u64, counts: Counts) -> u64 {
        let objects = self.at_cut.present + counts.created - self.at_cut.created;
        // The close of the pool is outstanding, too.
        limit.saturating_sub(entries + MOST_OUTSTANDING * objects + 1)
    }

    /// Plans the next look at the journal: half of the room is used up then, if no more entries become outstanding.
    fn plan(&mut self, stored: u64, room: u64) {
        self.is_due = false;
        self.look_at = stored + room.saturating_sub(stored).div_ceil(2).max(1);
    }

    /// Returns whether a segment is to be written, and no thread does.
    #[inline]
    pub fn wants_writer(&self) -> bool {
        self.is_due && self.writer.is_none()
    }

    /// Returns why there is no room for a call that has waited for the writer, or may not.
    pub fn no_room_after_wait(&self) -> NoRoom {
        match self.has_failed {
            true => NoRoom::Full,
            false => NoRoom::Late,
        }
    }

    /// What failed is tried again after some more entries, of `room` for which there is room.
    pub fn try_later(&mut self, stored: u64, room: u64) {
        self.is_due = false;
        self.look_at = stored + (room / 4).max(1);
    }
}

#[cfg(test)]
mod tests {
    use super::{Mode, StoredJournal};
    use crate::counts::Counts;

    /// Returns at how many entries the journal is looked at.
    fn looked_at(journal: &StoredJournal) -> u64 {
        (0..).find(|&stored| journal.is_long(stored)).unwrap()
    }

    #[test]
    fn a_segment_is_written_when_half_of_the_room_is_used_up() {
        let mut journal = StoredJournal::new(Mode::Segments, 1_000);
        assert_eq!(looked_at(&journal), 500);
        assert!(!journal.wants_writer());
        journal.look(500, 500);
        assert!(journal.wants_writer());
        journal.try_later(500, 500);
        assert!(!journal.wants_writer());
        assert_eq!(looked_at(&journal), 625);
        journal.cut(1_000, Counts::default());
        assert_eq!(looked_at(&journal), 500);
    }

    #[test]
    fn outstanding_entries_bring_a_segment_forward() {
        let mut journal = StoredJournal::new(Mode::Segments, 1_000);
        journal.look(300, 400);
        assert!(!journal.wants_writer());
        assert_eq!(looked_at(&journal), 350);
        journal.look(300, 200);
        assert!(journal.wants_writer());
    }

    #[test]
    fn objects_that_are_there_and_new_ones_have_outstanding_entries() {
        let mut journal = StoredJournal::new(Mode::Segments, 1_000);
        let counts = |idle, lent, created| Counts {
            idle,
            lent,
            created,
            ..Counts::default()
        };
        assert_eq!(
            journal.most_before(1_000, 20, counts(1, 2, 3)),
            1_000 - 20 - 16
        );
        journal.cut(900, counts(1, 2, 3));
        assert_eq!(
            journal.most_before(1_000, 20, counts(0, 0, 5)),
            1_000 - 20 - 26
        );
        assert_eq!(journal.most_before(40, 20, counts(0, 0, 5)), 0);
    }

    #[test]
    fn one_thread_writes_at_a_time() {
        let mut journal = StoredJournal::new(Mode::Segments, 10);
        journal.look(10, 0);
        journal.writer = Some(std::thread::current().id());
        assert!(!journal.wants_writer() && journal.is_written_by_this_thread());
    }
}
