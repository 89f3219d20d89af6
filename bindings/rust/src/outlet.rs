//! Where the segments of a pool go.

use crate::caller_names::CallerNames;
use crate::panics::unless_it_panics;
use crate::segments::{Segment, SegmentSink, Segments, SinkFailure};
use crate::start::Start;
use crate::stored_journal::CutSegment;
use std::io;
use std::sync::{Mutex, PoisonError};

/// The sink of a pool.
pub(crate) struct Outlet {
    sink: Mutex<Box<dyn SegmentSink>>,
    pub on_failure: SinkFailure,
    start: Start,
    pub callers: CallerNames,
}

impl Outlet {
    pub fn new(segments: Segments, start: Start) -> Outlet {
        Outlet {
            sink: Mutex::new(segments.sink),
            on_failure: segments.on_failure,
            start,
            callers: CallerNames::new(),
        }
    }

    /// Hands a segment to the sink. One thread does so at a time.
    pub fn store(&self, segment: &CutSegment) -> io::Result<()> {
        let callers = self.callers.take_unstored();
        let segment = Segment {
            position: segment.position,
            entries: segment.entries,
            text: &segment.text,
            base_size: segment.base_size,
            settings: &segment.settings,
            most_before: segment.most_before,
            start: self.start,
            callers: &callers,
        };
        let mut sink = self.sink.lock().unwrap_or_else(PoisonError::into_inner);
        let stored = unless_it_panics(|| sink.store(&segment));
        let stored = stored.unwrap_or_else(|| Err(io::Error::other("the sink panicked")));
        if stored.is_err() {
            self.callers.put_back(callers);
        }
        stored
    }
}
