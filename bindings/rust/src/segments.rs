//! The segments of a journal, and the sinks that store them.

use crate::caller_names::CallerName;
use crate::segment_folder::SegmentFolder;
use crate::start::Start;
use std::io;
use std::path::Path;
use std::time::Duration;

/// A part of a pool's journal that is complete: the base that its entries continue, and the entries.
///
/// `pool check SETTINGS SEGMENT..` checks all segments of a pool, in their order, as the one journal that they are, unless its settings changed
/// ([`Pool::reconfigure`](crate::Pool::reconfigure)).
#[derive(Clone, Copy, Debug)]
#[non_exhaustive]
pub struct Segment<'a> {
    /// The position of its first entry: the number of entries before it since the pool was opened.
    pub position: u64,
    /// The number of its entries.
    pub entries: u64,
    /// Its lines: those of its base, and then one for each entry.
    pub text: &'a [u8],
    /// The number of bytes of the lines of its base.
    pub base_size: usize,
    /// The settings that the pool had for its entries, as a file in TOML. They change only between two segments, by
    /// [`Pool::reconfigure`](crate::Pool::reconfigure).
    pub settings: &'a str,
    /// How many entries may come before its own in one file, so that a check of that file finds no more than `journalLimit`, outstanding entries
    /// included.
    pub most_before: u64,
    /// When the pool was opened.
    pub start: Start,
    /// The names of threads that took their first step of this pool since the sink stored a segment last, of those that have names.
    pub callers: &'a [CallerName],
}

impl<'a> Segment<'a> {
    /// Returns a segment as a pool hands it to its sink, for tests of sinks. It is that of a pool that was opened now, has no new callers, and is to have a
    /// file of its own.
    ///
    /// ```
    /// use zuphinka::{Segment, SegmentFolder, SegmentSink};
    ///
    /// # let path = std::env::temp_dir().join(format!("zuphinka-segment-{}", std::process::id()));
    /// let mut folder = SegmentFolder::create(&path)?;
    /// let text = b"pool-journal 2 0 0 open none 0 0 0 0\n0 0 evictnext = nothing\n";
    /// let segment = Segment::new(0, 1, text, "maxTotal = 8\n");
    /// assert_eq!(segment.entry_lines(), b"0 0 evictnext = nothing\n");
    /// folder.store(&segment)?;
    /// # std::fs::remove_dir_all(path)?;
    /// # Ok::<(), std::io::Error>(())
    /// ```
    pub fn new(position: u64, entries: u64, text: &'a [u8], settings: &'a str) -> Segment<'a> {
        let lines = text.split_inclusive(|byte| *byte == b'\n');
        let of_base = lines.take_while(|line| !line.windows(3).any(|part| part == b" = "));
        Segment {
            position,
            entries,
            text,
            base_size: of_base.map(<[u8]>::len).sum(),
            settings,
            most_before: 0,
            start: Start::now(None),
            callers: &[],
        }
    }

    /// Returns the lines of its entries. They continue those of the segment before, so a file may have these lines of both after the base of the
    /// first, if both have the same [`settings`](Segment::settings), and as [`most_before`](Segment::most_before) allows.
    pub fn entry_lines(&self) -> &[u8] {
        &self.text[self.base_size..]
    }
}

/// Stores the segments of a pool's journal.
///
/// ```
/// use zuphinka::{Segment, SegmentSink};
///
/// /// Counts the bytes.
/// struct Counter(u64);
///
/// impl SegmentSink for Counter {
///     fn store(&mut self, segment: &Segment<'_>) -> std::io::Result<()> {
///         self.0 += segment.text.len() as u64;
///         Ok(())
///     }
/// }
/// ```
pub trait SegmentSink: Send {
    /// Stores a segment. Segments come one at a time and in their order, without the pool's lock: from a thread of the journal's own
    /// ([`Segments::store_every`]), from one whose call found the journal's room low, or from one that closes or flushes. That call returns once this
    /// does; others continue, as long as there is room.
    ///
    /// # Errors
    ///
    /// The segment is not stored. If the pool keeps it ([`SinkFailure::Stop`]), the same segment comes again, before any later one; so
    /// a segment may come twice if it was stored in spite of the error. A panic counts as an error.
    fn store(&mut self, segment: &Segment<'_>) -> io::Result<()>;
}

/// What a pool does with a segment that its sink failed to store.
#[derive(Clone, Copy, Debug, Default, PartialEq, Eq, Hash)]
#[non_exhaustive]
pub enum SinkFailure {
    /// It keeps the segment, and tries to store it again before the next one. Until this succeeds no other segment is cut, and once the
    /// journal's room is used up, nothing is lent any more ([`Error::JournalFull`](crate::Error::JournalFull)). Each call that needs room
    /// tries again, and so does the journal's own thread.
    #[default]
    Stop,
    /// It drops the segment, and continues: the journal has a gap.
    Drop,
}

/// A sink, and what becomes of segments that it fails to store.
#[must_use = "they do nothing until a builder has them"]
pub struct Segments {
    pub(crate) sink: Box<dyn SegmentSink>,
    pub(crate) limit: Option<u64>,
    pub(crate) on_failure: SinkFailure,
    pub(crate) store_every: Option<Duration>,
}

impl Segments {
    /// Segments for a sink.
    pub fn new(sink: impl SegmentSink + 'static) -> Segments {
        Segments {
            sink: Box::new(sink),
            limit: None,
            on_failure: SinkFailure::default(),
            store_every: Some(Duration::from_secs(1)),
        }
    }

    /// Segments in files. Each pool that is opened with one has a folder of its own below this one: see [`SegmentFolder`].
    ///
    /// # Errors
    ///
    /// Those of [`SegmentFolder::create`].
    pub fn in_folder(path: impl AsRef<Path>) -> io::Result<Segments> {
        Ok(Segments::new(SegmentFolder::create(path)?))
    }

    /// Sets how many entries may be stored in memory, up to 2^32. The least number is 4 for each of the `maxTotal` objects, and 3 more, or 4
    /// with [`Abandoned::on_borrow`](crate::Abandoned::on_borrow). A segment is cut when about half of them are. Without it the limit is the
    /// setting `journalLimit`.
    pub fn limit(mut self, entries: u64) -> Segments {
        self.limit = Some(entries);
        self
    }

    /// Sets how often a thread of the journal's own stores the entries that came since, at least every millisecond; `None`: there is no such thread,
    /// and entries are stored when half of the limit is used up, and at the ends that [`Journal::Segments`](crate::Journal::Segments) names, but not
    /// at the end of the program. The default is one second, so a program that is killed loses the last second, and may leave a part of a line.
    ///
    /// A sink of yours gets as many segments: it may append their [lines](Segment::entry_lines) to one file, as [`SegmentFolder`] does.
    pub fn store_every(mut self, time: impl Into<Option<Duration>>) -> Segments {
        self.store_every = time.into();
        self
    }

    /// Sets what becomes of a segment that the sink fails to store. The default is [`SinkFailure::Stop`].
    pub fn on_failure(mut self, failure: SinkFailure) -> Segments {
        self.on_failure = failure;
        self
    }
}

impl std::fmt::Debug for Segments {
    fn fmt(&self, f: &mut std::fmt::Formatter<'_>) -> std::fmt::Result {
        f.debug_struct("Segments")
            .field("limit", &self.limit)
            .field("on_failure", &self.on_failure)
            .field("store_every", &self.store_every)
            .finish_non_exhaustive()
    }
}
