//! What becomes of the journal of a pool: it is dropped, kept in memory, or handed to a sink.

mod common;
#[path = "common/hooks.rs"]
#[macro_use]
mod hooks;

use common::managers::{kept, pair, Clock, Numbers};
use common::tasks::{poll, poll_with, ready, Bell, LONGEST};
use common::{
    assert_segments_legal, cut_off, entries_of, journal_of, judge_segments, panic_quietly, panics,
    texts_of, when_due, MemorySink, Stored,
};
use std::convert::Infallible;
use std::io::{self, BufWriter, Cursor, Write};
use std::path::Path;
use std::sync::atomic::{AtomicBool, AtomicU64, Ordering};
use std::sync::{mpsc, Arc, Mutex};
use std::task::{Wake, Waker};
use std::time::{Duration, Instant};
use std::{fs, mem, thread};
use zuphinka::{
    Abandoned, Builder, Error, Get, Journal, OpenError, Pool, Pooled, Segment, SegmentSink,
    Segments, SinkFailure, Touched, WeakPool,
};

with_and_without_hooks! {
    a_sink_may_panic_and_call_its_pool
    the_last_handle_hands_over_the_rest
    what_a_writer_still_holds_is_not_written
    a_drain_whose_writer_panics_is_continued
    a_writer_that_drains_what_is_drained_is_refused
    a_receiver_of_failures_may_wait_for_a_borrow
    a_receiver_of_failures_may_borrow
    a_cut_whose_writer_panics_loses_nothing
    a_cut_that_fails_at_its_end_keeps_the_segment
    the_limit_of_a_text_matters_where_entries_are_kept
    a_copy_of_a_journal_that_is_dropped_meanwhile_is_whole
    a_journal_that_is_not_kept_is_never_full
    a_journal_that_is_not_kept_takes_no_more_memory
    a_sink_gets_all_entries
    a_sink_that_fails_once_loses_nothing
    a_sink_that_fails_stops_the_pool_and_loses_nothing
    a_sink_that_fails_leaves_a_gap_if_that_is_set
    others_continue_while_a_segment_is_written
    a_reclaim_waits_for_a_segment_as_long_as_its_borrow_may
    a_borrow_waits_for_a_segment_no_longer_than_is_set
    a_borrow_that_may_not_wait_waits_for_no_segment
    a_close_ends_a_wait_for_a_segment
    a_wait_for_a_segment_is_a_part_of_the_wait_for_an_object
    a_task_waits_for_a_segment_without_its_thread
    a_task_that_waits_for_a_segment_is_woken_once_there_is_room
    a_task_that_waits_for_a_segment_hands_its_wake_on
    a_task_that_hears_of_no_room_hands_its_wake_on
    a_borrow_that_waits_for_a_segment_goes_on_once_there_is_room
    a_loan_does_not_begin_before_a_segment_is_stored
    a_returned_object_is_lent_while_a_segment_is_stored
    a_sink_may_borrow_what_another_borrow_waits_for
    others_continue_while_a_cut_is_written
    a_note_of_a_use_stores_no_segment
    room_that_another_thread_made_is_seen
}

fn a_journal_that_is_not_kept_is_never_full<const HOOKS: bool>() {
    let builder = Pool::builder().journal_limit(12).max_total(2);
    let pool = builder.build(Numbers::<HOOKS>).unwrap();
    let held = pool.get().unwrap();
    for _ in 0..10_000 {
        pair(&pool);
        assert!(!pool.is_low());
    }
    drop(held);
    let counts = pool.counts();
    assert_eq!((counts.steps, counts.created), (40_004, 2));
    let stored = entries_of(&journal_of(&pool)).count();
    assert!(stored < 1_100, "{stored} entries are stored");
    assert_eq!(pool.flush_journal().unwrap(), 0);
    // A part of it can be cut off, and the rest follows.
    let segments = [cut_off(&pool), journal_of(&pool)];
    assert_eq!(entries_of(&segments[0]).count(), stored);
    assert!(segments[1].starts_with("pool-journal 2 40004 2 open "));
}

/// The resident memory of this process, in KiB.
fn resident_memory() -> u64 {
    let status = fs::read_to_string("/proc/self/status").unwrap();
    let line = status.lines().find_map(|line| line.strip_prefix("VmRSS:"));
    let memory = line.unwrap().trim_end_matches("kB").trim();
    memory.parse().unwrap()
}

fn a_journal_that_is_not_kept_takes_no_more_memory<const HOOKS: bool>() {
    let pool = Pool::builder().build(Numbers::<HOOKS>).unwrap();
    (0..10_000).for_each(|_| pair(&pool));
    let before = resident_memory();
    (0..300_000).for_each(|_| pair(&pool));
    // The entries would take 40 MB and more; other tests run meanwhile.
    let more = resident_memory().saturating_sub(before);
    assert!(more < 20_000, "{more} KiB more");
}

/// A pool whose segments are stored in memory, by a sink that fails when it is told to.
fn pool_with_sink<const HOOKS: bool>(
    change: impl FnOnce(Segments) -> Segments,
    fails: impl FnMut() -> bool + Send + 'static,
) -> (Pool<Numbers<HOOKS>>, Stored) {
    let stored = Stored::default();
    let sink = MemorySink {
        stored: Arc::clone(&stored),
        fails,
    };
    let segments = change(when_due(sink).limit(200));
    let builder = Pool::builder()
        .journal(Journal::Segments(segments))
        .max_total(2);
    (builder.build(Numbers::<HOOKS>).unwrap(), stored)
}

fn a_sink_gets_all_entries<const HOOKS: bool>() {
    const PAIRS: u64 = 2_000;
    // Each third call fails, and what it was to store comes again.
    let mut calls = 0;
    let fails = move || {
        calls += 1;
        calls % 3 == 0
    };
    let (pool, stored) = pool_with_sink::<HOOKS>(|segments| segments, fails);
    thread::scope(|scope| {
        for _ in 0..4 {
            scope.spawn(|| (0..PAIRS).for_each(|_| pair(&pool)));
        }
    });
    let refused = pool.cut(&mut Vec::new()).unwrap_err();
    assert_eq!(refused.kind(), io::ErrorKind::Unsupported);
    let rest = entries_of(&journal_of(&pool)).count() as u64;
    let written = pool.flush_journal().or_else(|_| pool.flush_journal());
    assert!(written.unwrap() >= rest);
    assert_eq!(pool.flush_journal().unwrap(), 0);
    let texts = texts_of(&stored);
    assert!(
        texts.len() as u64 > 4 * PAIRS * 4 / 200,
        "{} segments",
        texts.len()
    );
    assert!(texts.iter().all(|text| entries_of(text).count() <= 200));
    assert_segments_legal(&pool, &texts);
}

/// Fails at one call, which is counted from 0.
fn fails_at(call: u64) -> impl FnMut() -> bool + Send {
    let mut calls = 0;
    move || {
        calls += 1;
        calls == call + 1
    }
}

fn a_sink_that_fails_once_loses_nothing<const HOOKS: bool>() {
    for call in 0..6 {
        let (pool, stored) = pool_with_sink::<HOOKS>(|segments| segments, fails_at(call));
        (0..120).for_each(|_| pair(&pool));
        pool.close();
        while pool.flush_journal().is_err() {}
        assert_segments_legal(&pool, &texts_of(&stored));
    }
}

fn a_sink_that_fails_stops_the_pool_and_loses_nothing<const HOOKS: bool>() {
    let is_broken = Arc::new(AtomicBool::new(true));
    let told = Arc::clone(&is_broken);
    let fails = move || told.load(Ordering::SeqCst);
    let (pool, stored) = pool_with_sink::<HOOKS>(|segments| segments, fails);
    let held = pool.get().unwrap();
    let refused = std::iter::repeat_with(|| pool.get().map(drop)).find_map(Result::err);
    assert_eq!(refused, Some(Error::JournalFull));
    assert_eq!(pool.get().unwrap_err(), Error::JournalFull);
    assert!(pool.is_low());
    // One segment is cut off, and more entries are stored.
    let rest = entries_of(&journal_of(&pool)).count() as u64;
    let steps = pool.counts().steps;
    assert!(rest > 150 && rest < steps, "{rest} of {steps} entries");
    assert!(pool.flush_journal().is_err());
    drop(held);

    is_broken.store(false, Ordering::SeqCst);
    (0..100).for_each(|_| pair(&pool));
    assert!(!pool.is_low());
    pool.flush_journal().unwrap();
    assert_segments_legal(&pool, &texts_of(&stored));
}

fn a_sink_that_fails_leaves_a_gap_if_that_is_set<const HOOKS: bool>() {
    let dropping = |segments: Segments| segments.on_failure(SinkFailure::Drop);
    let (pool, stored) = pool_with_sink::<HOOKS>(dropping, fails_at(1));
    (0..200).for_each(|_| pair(&pool));
    pool.flush_journal().unwrap();
    let stored = stored.lock().unwrap();
    let ends = stored
        .iter()
        .map(|(position, text)| position + entries_of(text).count() as u64);
    let ends: Vec<u64> = ends.collect();
    let gaps = stored[1..]
        .iter()
        .zip(&ends)
        .filter(|((position, _), end)| position != *end);
    assert_eq!(gaps.count(), 1);
    assert_eq!(ends.last(), Some(&pool.counts().steps));

    let (pool, stored) = pool_with_sink::<HOOKS>(dropping, || true);
    (0..1_000).for_each(|_| pair(&pool));
    assert!(stored.lock().unwrap().is_empty());
}

/// Tells that it was called, and then waits until it may go on.
struct Slow {
    called: mpsc::Sender<()>,
    may_go_on: mpsc::Receiver<()>,
}

impl Slow {
    /// A slow one, what tells that it was called, and what lets it go on.
    fn new() -> (Slow, mpsc::Receiver<()>, mpsc::Sender<()>) {
        let (called, is_called) = mpsc::channel();
        let (go_on, may_go_on) = mpsc::channel();
        (Slow { called, may_go_on }, is_called, go_on)
    }

    fn wait(&self) {
        let _ = self.called.send(());
        let _ = self.may_go_on.recv();
    }
}

impl SegmentSink for Slow {
    fn store(&mut self, _segment: &Segment<'_>) -> io::Result<()> {
        self.wait();
        Ok(())
    }
}

impl Write for Slow {
    fn write(&mut self, bytes: &[u8]) -> io::Result<usize> {
        self.wait();
        Ok(bytes.len())
    }

    fn flush(&mut self) -> io::Result<()> {
        Ok(())
    }
}

fn others_continue_while_a_segment_is_written<const HOOKS: bool>() {
    let (slow, is_called, go_on) = Slow::new();
    let segments = when_due(slow).limit(200);
    let builder = Pool::builder()
        .journal(Journal::Segments(segments))
        .max_total(2);
    let pool = builder.build(Numbers::<HOOKS>).unwrap();
    thread::scope(|scope| {
        scope.spawn(|| (0..30).for_each(|_| pair(&pool)));
        is_called.recv().unwrap();
        for _ in 0..20 {
            drop(pool.try_get().unwrap());
        }
        // The room is used up then: who doesn't wait is refused, and who waits for long enough is not.
        let refused = std::iter::repeat_with(|| pool.try_get().map(drop)).find_map(Result::err);
        assert_eq!(refused, Some(Error::SinkBusy));
        let short = Duration::from_millis(10);
        assert!(is_late(pool.get_timeout(short).unwrap_err()));
        let waiting = scope.spawn(|| pool.get().map(drop));
        thread::sleep(short);
        drop(go_on);
        assert_eq!(waiting.join().unwrap(), Ok(()));
    });
}

/// Whether a call waited for a slow sink until its time was over.
fn is_late(error: Error<Infallible>) -> bool {
    matches!(error, Error::TimedOut(timeout) if timeout.for_sink)
}

/// The line of the metrics of the pool `n` if this many borrows timed out.
fn late_borrows(number: u64) -> String {
    format!("\nzuphinka_timeouts_total{{pool=\"n\"}} {number}\n")
}

/// The answers of calls that are made while another thread writes a segment of a pool, or an error if they wait for the end of that.
fn while_written<const HOOKS: bool, T: Send>(
    change: impl FnOnce(Builder<Numbers<HOOKS>>) -> Builder<Numbers<HOOKS>>,
    calls: impl FnOnce(&Pool<Numbers<HOOKS>>) -> T,
) -> Result<T, mpsc::RecvTimeoutError> {
    let (slow, is_called, go_on) = Slow::new();
    let segments = when_due(slow).limit(200);
    let builder = change(Pool::builder().journal(Journal::Segments(segments)));
    let pool = builder.build(Numbers::<HOOKS>).unwrap();
    let (answers, are_answered) = mpsc::channel();
    thread::scope(|scope| {
        // Until the pool is closed.
        scope.spawn(|| (0..30).all(|_| pool.get().is_ok()));
        is_called.recv().unwrap();
        // The segment is written in the end, so that a borrow that waits for it ends too.
        let writing = scope.spawn(move || {
            let answers = are_answered.recv_timeout(LONGEST / 4);
            drop(go_on);
            answers
        });
        let _ = answers.send(calls(&pool));
        writing.join().unwrap()
    })
}

fn a_reclaim_waits_for_a_segment_as_long_as_its_borrow_may<const HOOKS: bool>() {
    let abandoned = Abandoned::new().on_borrow(true);
    let change = |builder: Builder<_>| builder.abandoned(abandoned).max_wait(LONGEST);
    let answers = while_written::<HOOKS, _>(change, |pool| {
        // In the end there is no room for the entry of a reclaim either.
        let hasty = (0..200).filter_map(|_| pool.try_get().map(drop).err());
        let hasty: Vec<_> = hasty.collect();
        let short = Duration::from_millis(10);
        let patient = pool.get_timeout(short).map(drop).err();
        (hasty.last().cloned(), patient.is_some_and(is_late))
    });
    let busy = Some(Error::SinkBusy);
    assert_eq!(answers, Ok((busy, true)), "they waited for it");
}

fn a_borrow_waits_for_a_segment_no_longer_than_is_set<const HOOKS: bool>() {
    let short = Duration::from_millis(10);
    let change = |builder: Builder<_>| builder.max_wait(short);
    let answers = while_written::<HOOKS, _>(change, |pool| {
        let hasty = std::iter::repeat_with(|| pool.try_get().map(drop)).find_map(Result::err);
        let late = [pool.get().map(drop), pool.get_timeout(short).map(drop)];
        let late = [pool.add().map(drop)].into_iter().chain(late);
        let are_late: Vec<_> = late.map(|late| is_late(late.unwrap_err())).collect();
        (hasty, are_late)
    });
    let busy = Some(Error::SinkBusy);
    assert_eq!(answers, Ok((busy, vec![true; 3])), "it waited for it");
}

/// Borrows until the room of a journal is used up.
fn use_room_up<const HOOKS: bool>(pool: &Pool<Numbers<HOOKS>>) {
    let refused = std::iter::repeat_with(|| pool.try_get().map(drop)).find_map(Result::err);
    assert_eq!(refused, Some(Error::SinkBusy));
}

fn a_borrow_that_may_not_wait_waits_for_no_segment<const HOOKS: bool>() {
    let change = |builder: Builder<_>| builder.block_when_exhausted(false);
    let answers = while_written::<HOOKS, _>(change, |pool| {
        use_room_up(pool);
        let of_task = error_of(&mut pool.get_async(), &Bell::new());
        let of_threads = [pool.get(), pool.get_timeout(LONGEST)];
        (of_threads.map(|got| got.map(drop).unwrap_err()), of_task)
    });
    let busy = || Error::SinkBusy;
    assert_eq!(answers, Ok(([busy(), busy()], busy())), "it waited for it");
}

/// The result of a call of another thread, during which something is done once that thread sleeps.
fn while_asleep<T: Send>(call: impl FnOnce() -> T + Send, act: impl FnOnce()) -> T {
    let (begun, has_begun) = mpsc::channel();
    thread::scope(|scope| {
        let caller = scope.spawn(move || {
            begun
                .send(fs::read_link("/proc/thread-self").unwrap())
                .unwrap();
            call()
        });
        let stat = Path::new("/proc")
            .join(has_begun.recv().unwrap())
            .join("stat");
        while !fs::read_to_string(&stat).unwrap().contains(") S ") {
            thread::yield_now();
        }
        act();
        caller.join().unwrap()
    })
}

/// Closes a pool in another thread, which waits for the sink then, and returns once it is closed.
fn begin_close<const HOOKS: bool>(pool: &Pool<Numbers<HOOKS>>) {
    let own = pool.clone();
    thread::spawn(move || own.close());
    while !pool.is_closed() {
        thread::yield_now();
    }
}

fn a_close_ends_a_wait_for_a_segment<const HOOKS: bool>() {
    let answer = while_written::<HOOKS, _>(
        |builder| builder,
        |pool| {
            use_room_up(pool);
            while_asleep(|| pool.get().map(drop), || begin_close(pool))
        },
    );
    assert_eq!(answer, Ok(Err(Error::Closed)), "it waits for it");
}

fn a_wait_for_a_segment_is_a_part_of_the_wait_for_an_object<const HOOKS: bool>() {
    let (slow, is_called, go_on) = Slow::new();
    let clock = Clock::default();
    let builder = Pool::builder().max_total(1).clock(clock.told());
    let builder = builder.journal(Journal::Segments(when_due(slow).limit(200)));
    let pool = builder.max_wait(LONGEST).build(Numbers::<HOOKS>).unwrap();
    let held = pool.get().unwrap();
    let (answer, is_answered) = mpsc::channel();
    thread::scope(|scope| {
        scope.spawn(|| answer.send(pool.get().map(drop)).unwrap());
        while pool.waiting() == 0 {
            thread::yield_now();
        }
        scope.spawn(|| (0..100).all(|_| pool.reclaim().is_ok()));
        is_called.recv().unwrap();
        while pool.room() > 0 {
            assert_eq!(pool.reclaim(), Ok(0));
        }
        // Its time is over when it gets the object.
        clock.set(LONGEST.as_millis() as u64);
        drop(held);
        let answer = is_answered.recv_timeout(LONGEST / 4);
        drop(go_on);
        let error = answer.expect("it waits once more").unwrap_err();
        assert!(is_late(error));
        assert!(pool.metrics("n").to_string().contains(&late_borrows(1)));
    });
}

/// The error of a borrow of a task that is ready.
fn error_of<const HOOKS: bool>(
    get: &mut Get<Numbers<HOOKS>>,
    bell: &Arc<Bell>,
) -> Error<Infallible> {
    ready(poll(get, bell)).map(drop).unwrap_err()
}

fn a_task_waits_for_a_segment_without_its_thread<const HOOKS: bool>() {
    let (clock, most) = (Clock::default(), LONGEST.as_millis() as u64);
    let done = while_written::<HOOKS, _>(
        |builder| builder.max_wait(LONGEST).clock(clock.told()),
        |pool| {
            use_room_up(pool);
            let bells = [(); 4].map(|()| Bell::new());
            let begin = |bell| {
                let mut get = pool.get_async();
                assert!(poll(&mut get, bell).is_pending());
                get
            };
            let (mut late, dropped) = (begin(&bells[0]), begin(&bells[1]));
            drop(dropped);
            clock.set(most / 2);
            let mut closed = begin(&bells[2]);
            clock.set(most);
            assert!(is_late(error_of(&mut late, &bells[0])));
            // The last waker is the one that is called.
            assert!(poll(&mut closed, &bells[3]).is_pending());
            begin_close(pool);
            let mut rings = [0; 4];
            while rings[3] == 0 {
                for (sum, bell) in rings.iter_mut().zip(&bells) {
                    *sum += bell.rings();
                }
                thread::yield_now();
            }
            assert_eq!(rings, [0, 0, 0, 1]);
            assert_eq!(error_of(&mut closed, &bells[3]), Error::Closed);
        },
    );
    assert_eq!(done, Ok(()), "it waits on its thread");
}

/// A waker that panics.
struct Broke;

impl Wake for Broke {
    fn wake(self: Arc<Self>) {
        panic_quietly();
    }
}

fn a_task_that_waits_for_a_segment_is_woken_once_there_is_room<const HOOKS: bool>() {
    let (slow, is_called, go_on) = Slow::new();
    let (pool, stored) = pool_with_sink::<HOOKS>(
        |segments| segments,
        move || {
            slow.wait();
            false
        },
    );
    thread::scope(|scope| {
        let writing = scope.spawn(|| (0..30).for_each(|_| pair(&pool)));
        is_called.recv().unwrap();
        use_room_up(&pool);
        let (bell, mut get) = (Bell::new(), pool.get_async());
        let mut broken = pool.get_async();
        assert!(poll_with(&mut broken, &Waker::from(Arc::new(Broke))).is_pending());
        assert!(poll(&mut get, &bell).is_pending());
        assert_eq!(bell.rings(), 0);
        drop(go_on);
        writing.join().unwrap();
        assert_eq!(bell.rings(), 1);
        drop(ready(poll(&mut get, &bell)).unwrap());
        drop(ready(poll(&mut broken, &bell)).unwrap());
    });
    pool.flush_journal().unwrap();
    assert_segments_legal(&pool, &texts_of(&stored));
}

/// Acts on two tasks that wait for an object, once the first is woken for it and finds no room while another thread writes a segment. The last argument
/// ends that.
fn with_a_task_that_lacks_room<const HOOKS: bool>(
    act: impl FnOnce([Get<Numbers<HOOKS>>; 2], &[Arc<Bell>; 2], &mut dyn FnMut()),
) {
    let (slow, is_called, go_on) = Slow::new();
    let builder = Pool::builder().max_total(1);
    let builder = builder.journal(Journal::Segments(when_due(slow).limit(200)));
    let pool = builder.build(Numbers::<HOOKS>).unwrap();
    let held = pool.get().unwrap();
    let bells = [(); 2].map(|()| Bell::new());
    let mut gets = [(); 2].map(|()| pool.get_async());
    for (get, bell) in gets.iter_mut().zip(&bells) {
        assert!(poll(get, bell).is_pending());
    }
    thread::scope(|scope| {
        let writing = scope.spawn(|| (0..100).all(|_| pool.reclaim().is_ok()));
        is_called.recv().unwrap();
        while pool.room() > 0 {
            assert_eq!(pool.reclaim(), Ok(0));
        }
        drop(held);
        assert_eq!((bells[0].rings(), bells[1].rings()), (1, 0));
        let mut store = Some((go_on, writing));
        act(gets, &bells, &mut || {
            if let Some((go_on, writing)) = store.take() {
                drop(go_on);
                assert!(writing.join().unwrap());
            }
        });
    });
}

fn a_task_that_waits_for_a_segment_hands_its_wake_on<const HOOKS: bool>() {
    with_a_task_that_lacks_room::<HOOKS>(|[mut first, mut second], bells, end_store| {
        assert!(poll(&mut first, &bells[0]).is_pending());
        drop(first);
        assert_eq!((bells[0].rings(), bells[1].rings()), (0, 1));
        assert!(poll(&mut second, &bells[1]).is_pending());
        end_store();
        assert!(bells[1].rings() > 0);
        let lent = ready(poll(&mut second, &bells[1]));
        assert_eq!(lent.map(|number| *number), Ok(0));
    });
}

fn a_task_that_hears_of_no_room_hands_its_wake_on<const HOOKS: bool>() {
    with_a_task_that_lacks_room::<HOOKS>(|[mut first, mut second], bells, end_store| {
        // It waits for room, and the waker that it has then panics.
        assert!(poll_with(&mut first, &Waker::from(Arc::new(Broke))).is_pending());
        end_store();
        assert_eq!((bells[0].rings(), bells[1].rings()), (0, 1));
        let object = ready(poll(&mut second, &bells[1])).unwrap();
        // It may be polled again, and waits in its turn.
        assert!(poll(&mut first, &bells[0]).is_pending());
        drop(object);
        assert_eq!(bells[0].rings(), 1);
        drop(ready(poll(&mut first, &bells[0])).unwrap());
    });
}

fn a_borrow_that_waits_for_a_segment_goes_on_once_there_is_room<const HOOKS: bool>() {
    let (slow, is_called, go_on) = Slow::new();
    let mut is_first = true;
    // The first segment is stored at the second try.
    let fails = move || {
        let fails = mem::take(&mut is_first);
        if !fails {
            slow.wait();
        }
        fails
    };
    let (pool, stored) = pool_with_sink::<HOOKS>(|segments| segments, fails);
    pair(&pool);
    assert!(pool.flush_journal().is_err());
    let (answer, is_answered) = mpsc::channel();
    thread::scope(|scope| {
        scope.spawn(|| pool.flush_journal().unwrap());
        is_called.recv().unwrap();
        let hasty = std::iter::repeat_with(|| pool.try_get().map(drop)).find_map(Result::err);
        // The sink has failed, and is not known to be only slow.
        assert_eq!(hasty, Some(Error::JournalFull));
        scope.spawn(|| answer.send(pool.get_timeout(LONGEST).map(drop)));
        thread::sleep(Duration::from_millis(10));
        // Then the journal is cut, and the next segment is not stored for a while.
        go_on.send(()).unwrap();
        is_called.recv().unwrap();
        let answer = is_answered.recv_timeout(LONGEST / 4);
        drop(go_on);
        assert_eq!(answer, Ok(Ok(())), "it waits for the next segment");
    });
    pool.flush_journal().unwrap();
    assert_segments_legal(&pool, &texts_of(&stored));
}

/// Stores each segment in a second of this time.
struct Seconds(Arc<AtomicU64>);

impl Seconds {
    /// Opens a pool with such a sink, whose objects are abandoned after half a second. Returns the time too.
    fn pool<const HOOKS: bool>(limit: u64) -> (Pool<Numbers<HOOKS>>, Arc<AtomicU64>) {
        let time = Arc::new(AtomicU64::new(0));
        let (sink, told) = (Seconds(Arc::clone(&time)), Arc::clone(&time));
        let abandoned = Abandoned::new().on_maintenance(true);
        let pool = Pool::builder()
            .journal(Journal::Segments(when_due(sink).limit(limit)))
            .abandoned(abandoned.timeout(Duration::from_millis(500)))
            .clock(move || told.load(Ordering::SeqCst))
            .build(Numbers::<HOOKS>)
            .unwrap();
        (pool, time)
    }
}

impl SegmentSink for Seconds {
    fn store(&mut self, _segment: &Segment<'_>) -> io::Result<()> {
        self.0.fetch_add(1_000, Ordering::SeqCst);
        Ok(())
    }
}

fn a_loan_does_not_begin_before_a_segment_is_stored<const HOOKS: bool>() {
    // So a segment is due after each step of a loan in turn.
    for limit in 60..70 {
        let (pool, time) = Seconds::pool::<HOOKS>(limit);
        for _ in 0..100 {
            let held = pool.get().unwrap();
            assert_eq!(pool.reclaim(), Ok(0));
            drop(held);
        }
        assert!(time.load(Ordering::SeqCst) > 10_000);
    }
}

fn a_returned_object_is_lent_while_a_segment_is_stored<const HOOKS: bool>() {
    // So a segment is due after each step of a loan in turn, whether pairs of steps or calls take them.
    for (limit, reclaims) in (60..70).flat_map(|limit| [(limit, false), (limit, true)]) {
        let (slow, is_called, go_on) = Slow::new();
        let abandoned = reclaims.then(|| Abandoned::new().on_borrow(true));
        let builder = Pool::builder().max_total(1).abandoned(abandoned);
        let builder = builder.journal(Journal::Segments(when_due(slow).limit(limit)));
        let pool = builder.build(Numbers::<HOOKS>).unwrap();
        let lent = thread::scope(|scope| {
            scope.spawn(|| (0..30).for_each(|_| pair(&pool)));
            is_called.recv().unwrap();
            let lent = pool.get_timeout(LONGEST / 4).map(drop);
            drop(go_on);
            lent
        });
        assert_eq!(lent, Ok(()), "limit {limit}, {reclaims}");
    }
}

fn a_sink_may_borrow_what_another_borrow_waits_for<const HOOKS: bool>() {
    // So a segment is due after each step in turn.
    for limit in 60..70 {
        let own = Arc::new(Mutex::new(None::<WeakPool<Numbers<HOOKS>>>));
        let to_own = Arc::clone(&own);
        let fails = move || {
            let pool = to_own.lock().unwrap().as_ref().and_then(WeakPool::upgrade);
            pool.is_some_and(|pool| pool.get_timeout(LONGEST).is_err())
        };
        let (pool, stored) = pool_with_sink::<HOOKS>(|segments| segments.limit(limit), fails);
        *own.lock().unwrap() = Some(pool.downgrade());
        let start = Instant::now();
        for _ in 0..20 {
            let [first, second] = [(); 2].map(|()| pool.get().unwrap());
            thread::scope(|scope| {
                let waiting = scope.spawn(|| pool.get().map(drop));
                while pool.waiting() == 0 {
                    thread::yield_now();
                }
                drop(first);
                assert_eq!(waiting.join().unwrap(), Ok(()));
            });
            drop(second);
        }
        let waited = start.elapsed();
        assert!(waited < LONGEST, "limit {limit}: it waits for itself");
        assert!(stored.lock().unwrap().len() > 2);
    }
}

fn others_continue_while_a_cut_is_written<const HOOKS: bool>() {
    let builder = Pool::builder().journal(Journal::Memory(Some(1_000)));
    let pool = builder.build(Numbers::<HOOKS>).unwrap();
    pair(&pool);
    for by_cut in [true, false] {
        let (slow, is_called, go_on) = Slow::new();
        thread::scope(|scope| {
            let pool = &pool;
            scope.spawn(move || match by_cut {
                true => pool.cut(slow).unwrap(),
                false => pool.journal(slow).unwrap(),
            });
            is_called.recv().unwrap();
            for _ in 0..20 {
                drop(pool.try_get().unwrap());
            }
            if !by_cut {
                assert_eq!(entries_of(&cut_off(pool)).count(), 80);
            }
            assert!(!journal_of(pool).is_empty());
            drop(go_on);
        });
    }
}

fn a_sink_may_panic_and_call_its_pool<const HOOKS: bool>() {
    /// Borrows from the pool whose segments it stores, panics at its first call, and cuts in vain.
    struct Greedy<const HOOKS: bool> {
        pool: Arc<Mutex<Option<Pool<Numbers<HOOKS>>>>>,
        stored: Stored,
        has_panicked: bool,
    }
    impl<const HOOKS: bool> SegmentSink for Greedy<HOOKS> {
        fn store(&mut self, segment: &Segment<'_>) -> io::Result<()> {
            let pool = self.pool.lock().unwrap().clone();
            if let Some(pool) = pool {
                pair(&pool);
                assert!(pool.flush_journal().is_err());
            }
            if !mem::replace(&mut self.has_panicked, true) {
                panic_quietly();
            }
            let text = String::from_utf8(segment.text.to_vec()).unwrap();
            self.stored.lock().unwrap().push((segment.position, text));
            Ok(())
        }
    }
    let (whose, stored) = (Arc::new(Mutex::new(None)), Stored::default());
    let sink = Greedy::<HOOKS> {
        pool: Arc::clone(&whose),
        stored: Arc::clone(&stored),
        has_panicked: false,
    };
    let segments = when_due(sink).limit(200);
    let pool = Pool::builder().journal(Journal::Segments(segments));
    let pool = pool.build(Numbers::<HOOKS>).unwrap();
    *whose.lock().unwrap() = Some(pool.clone());
    (0..500).for_each(|_| pair(&pool));
    *whose.lock().unwrap() = None;
    pool.flush_journal().unwrap();
    assert_segments_legal(&pool, &texts_of(&stored));
}

fn the_last_handle_hands_over_the_rest<const HOOKS: bool>() {
    let (pool, stored) = pool_with_sink::<HOOKS>(|segments| segments, || false);
    let settings = pool.settings();
    let held = pool.get().unwrap();
    drop(pool);
    // The object may never come back.
    assert_eq!(judge_segments(&settings, &texts_of(&stored)), "legal 2\n");
    assert_eq!(Pooled::id(&held), 0);
    drop(held);
    let texts = texts_of(&stored);
    assert_eq!(judge_segments(&settings, &texts), "legal 7\n");
}

fn what_a_writer_still_holds_is_not_written<const HOOKS: bool>() {
    let pool = kept().build(Numbers::<HOOKS>).unwrap();
    pair(&pool);
    // Nothing fits on its disk.
    let full = || BufWriter::new(Cursor::new([0_u8; 0]));
    assert!(pool.journal(full()).is_err());
    assert!(pool.drain_journal(full()).is_err());
    let mut drained = Vec::new();
    assert_eq!(pool.drain_journal(&mut drained).unwrap(), 4);
    assert_eq!(String::from_utf8(drained).unwrap(), journal_of(&pool));
}

/// A writer that panics once it has got some bytes.
struct Panicking(Vec<u8>);

impl Write for Panicking {
    fn write(&mut self, bytes: &[u8]) -> io::Result<usize> {
        if self.0.len() > 10_000 {
            panic_quietly();
        }
        self.0.extend_from_slice(bytes);
        Ok(bytes.len())
    }

    fn flush(&mut self) -> io::Result<()> {
        Ok(())
    }
}

fn a_drain_whose_writer_panics_is_continued<const HOOKS: bool>() {
    let pool = kept().build(Numbers::<HOOKS>).unwrap();
    (0..500).for_each(|_| pair(&pool));
    let mut out = Panicking(Vec::new());
    assert!(panics(|| pool.drain_journal(&mut out)));
    let mut drained = out.0;
    let before = drained.len();
    assert!(before > 10_000);
    pool.drain_journal(&mut drained).unwrap();
    assert!(drained.len() > before);
    assert_eq!(String::from_utf8(drained).unwrap(), journal_of(&pool));
}

/// A writer that drains the journal itself.
struct Drains<'a, const HOOKS: bool>(&'a Pool<Numbers<HOOKS>>);

impl<const HOOKS: bool> Write for Drains<'_, HOOKS> {
    fn write(&mut self, bytes: &[u8]) -> io::Result<usize> {
        self.0.drain_journal(io::sink())?;
        Ok(bytes.len())
    }

    fn flush(&mut self) -> io::Result<()> {
        Ok(())
    }
}

fn a_writer_that_drains_what_is_drained_is_refused<const HOOKS: bool>() {
    let pool = kept().build(Numbers::<HOOKS>).unwrap();
    pair(&pool);
    assert!(pool.drain_journal(Drains(&pool)).is_err());
    let mut drained = Vec::new();
    assert_eq!(pool.drain_journal(&mut drained).unwrap(), 4);
    assert_eq!(String::from_utf8(drained).unwrap(), journal_of(&pool));
}

fn a_receiver_of_failures_may_wait_for_a_borrow<const HOOKS: bool>() {
    let (called, is_called) = mpsc::channel();
    let (answer, answered) = mpsc::channel::<()>();
    let answered = Mutex::new(answered);
    let sink = MemorySink {
        stored: Stored::default(),
        fails: || true,
    };
    let long = Duration::from_secs(60);
    let builder = Pool::builder()
        .journal(Journal::Segments(when_due(sink).limit(100)))
        .max_wait(long)
        .on_error(move |_| {
            if called.send(()).is_ok() {
                let _ = answered.lock().unwrap().recv_timeout(long);
            }
        });
    let pool = builder.build(Numbers::<HOOKS>).unwrap();
    thread::scope(|scope| {
        scope.spawn(|| while pool.get().is_ok() {});
        is_called.recv().unwrap();
        // The other thread is in its receiver, and no borrow waits for it.
        let start = Instant::now();
        drop(is_called);
        assert!(pool.flush_journal().is_err());
        assert!(start.elapsed() < long / 2);
        drop(answer);
    });
}

/// A pool whose sink fails, and what receives that: how many calls of it there were, and how many at most at a time.
struct Reported<const HOOKS: bool> {
    pool: Pool<Numbers<HOOKS>>,
    calls: Arc<AtomicU64>,
    most: Arc<AtomicU64>,
}

/// A pool whose sink fails. Its receiver of failures borrows from it, and from another one.
fn pool_whose_receiver_borrows<const HOOKS: bool>(
    other: Option<Pool<Numbers<HOOKS>>>,
) -> Reported<HOOKS> {
    const MANY: u64 = 50;
    let own = Arc::new(Mutex::new(None::<WeakPool<Numbers<HOOKS>>>));
    let (calls, most) = (Arc::new(AtomicU64::new(0)), Arc::new(AtomicU64::new(0)));
    let (to_own, counted, noted) = (Arc::clone(&own), Arc::clone(&calls), Arc::clone(&most));
    let running = AtomicU64::new(0);
    let on_error = move |_| {
        counted.fetch_add(1, Ordering::SeqCst);
        let now = running.fetch_add(1, Ordering::SeqCst) + 1;
        noted.fetch_max(now, Ordering::SeqCst);
        let own = to_own.lock().unwrap().clone().unwrap();
        if let (Some(own), true) = (own.upgrade(), now < MANY) {
            let _ = own.try_get();
        }
        let _ = other.as_ref().map(Pool::try_get);
        running.fetch_sub(1, Ordering::SeqCst);
    };
    let sink = MemorySink {
        stored: Stored::default(),
        fails: || true,
    };
    let builder = Pool::builder().journal(Journal::Segments(when_due(sink).limit(40)));
    let pool = builder.max_total(2).on_error(on_error);
    let pool = pool.build(Numbers::<HOOKS>).unwrap();
    *own.lock().unwrap() = Some(pool.downgrade());
    Reported { pool, calls, most }
}

fn a_receiver_of_failures_may_borrow<const HOOKS: bool>() {
    let other = pool_whose_receiver_borrows::<HOOKS>(None);
    while other.pool.get().is_ok() {}
    let before = other.calls.load(Ordering::SeqCst);
    let first = pool_whose_receiver_borrows::<HOOKS>(Some(other.pool.clone()));
    while first.pool.get().is_ok() {}
    for reported in [&first, &other] {
        assert_eq!(reported.most.load(Ordering::SeqCst), 1);
    }
    // A report of one pool within a report of the other is made.
    let calls = first.calls.load(Ordering::SeqCst);
    assert!(calls > 1, "{calls} reports");
    assert_eq!(other.calls.load(Ordering::SeqCst), before + calls);
}

fn a_cut_whose_writer_panics_loses_nothing<const HOOKS: bool>() {
    let pool = kept().build(Numbers::<HOOKS>).unwrap();
    (0..500).for_each(|_| pair(&pool));
    let mut out = Panicking(vec![0; 10_001]);
    assert!(panics(|| pool.cut(&mut out)));
    pair(&pool);
    let segments = [cut_off(&pool), journal_of(&pool)];
    assert_eq!(entries_of(&segments[0]).count(), 2_004);
    assert_segments_legal(&pool, &segments);
}

/// A writer whose flush fails after so many.
struct FailsAtFlush(u32);

impl Write for FailsAtFlush {
    fn write(&mut self, bytes: &[u8]) -> io::Result<usize> {
        Ok(bytes.len())
    }

    fn flush(&mut self) -> io::Result<()> {
        self.0 = self.0.checked_sub(1).ok_or(io::ErrorKind::BrokenPipe)?;
        Ok(())
    }
}

fn a_cut_that_fails_at_its_end_keeps_the_segment<const HOOKS: bool>() {
    let builder = Pool::builder().journal(Journal::Memory(Some(100)));
    let pool = builder.build(Numbers::<HOOKS>).unwrap();
    let fill = || std::iter::repeat_with(|| pool.get().map(drop)).find_map(Result::err);
    assert_eq!(fill(), Some(Error::JournalFull));
    let room = pool.room();
    assert!(pool.cut(FailsAtFlush(0)).is_err());
    assert_eq!(pool.room(), room);
    assert!(pool.cut(FailsAtFlush(1)).is_err());
    assert!(pool.room() > 90);
    // It is full again, and what was cut off is kept, however often a cut fails.
    assert_eq!(fill(), Some(Error::JournalFull));
    for _ in 0..3 {
        assert!(pool.cut(FailsAtFlush(0)).is_err());
        assert_eq!(fill(), Some(Error::JournalFull));
    }
    let segments = [cut_off(&pool), cut_off(&pool), journal_of(&pool)];
    assert_segments_legal(&pool, &segments);
    assert_eq!(pool.get().map(drop), Ok(()));
}

fn the_limit_of_a_text_matters_where_entries_are_kept<const HOOKS: bool>() {
    let limit_with = |change: fn(Builder<Numbers<HOOKS>>) -> Builder<Numbers<HOOKS>>| {
        let builder = Pool::builder().settings("journalLimit = 100\n").unwrap();
        let settings = change(builder).build(Numbers::<HOOKS>).unwrap().settings();
        let line = settings
            .lines()
            .find(|line| line.starts_with("journalLimit"));
        line.unwrap().to_owned()
    };
    struct Nowhere;
    impl SegmentSink for Nowhere {
        fn store(&mut self, _: &Segment<'_>) -> io::Result<()> {
            Ok(())
        }
    }
    assert_eq!(limit_with(|it| it), "journalLimit = 4294967296");
    assert_eq!(
        limit_with(|it| it.journal(Journal::Memory(None))),
        "journalLimit = 100"
    );
    assert_eq!(
        limit_with(|it| it.journal(Journal::Memory(Some(50)))),
        "journalLimit = 50"
    );
    assert_eq!(
        limit_with(|it| it.journal(Journal::Segments(when_due(Nowhere)))),
        "journalLimit = 100"
    );
    assert_eq!(
        limit_with(|it| it.journal(Journal::Segments(when_due(Nowhere).limit(70)))),
        "journalLimit = 70"
    );
    let too_many = Pool::builder().journal(Journal::Memory(Some((1 << 32) + 1)));
    let refused = OpenError::OutOfRange("Journal::Memory");
    assert_eq!(too_many.build(Numbers::<HOOKS>).map(drop), Err(refused));
}

fn a_copy_of_a_journal_that_is_dropped_meanwhile_is_whole<const HOOKS: bool>() {
    let pool = Pool::builder()
        .max_total(1)
        .build(Numbers::<HOOKS>)
        .unwrap();
    let copies = AtomicU64::new(0);
    thread::scope(|scope| {
        scope.spawn(|| {
            while copies.load(Ordering::SeqCst) < 50 {
                pair(&pool);
            }
        });
        for _ in 0..50 {
            let journal = journal_of(&pool);
            let head = journal.lines().next().map(str::to_owned);
            let entries = entries_of(&journal).count();
            assert_eq!(judge_alone(&pool.settings(), &journal), entries, "{head:?}");
            copies.fetch_add(1, Ordering::SeqCst);
        }
    });
}

/// The number of entries of a text in which each entry follows from the one before, by the life of its single object.
fn judge_alone(settings: &str, journal: &str) -> usize {
    assert!(settings.contains("maxTotal = 1\n"));
    let answers = ["= take 0", "= lent", "= check", "= parked"];
    let entries: Vec<_> = entries_of(journal).collect();
    let mut wanted = None;
    for entry in &entries {
        let at = answers.iter().position(|answer| entry.ends_with(answer));
        let at = at.or(entry.ends_with("= make 0").then_some(0)).unwrap();
        assert!(wanted.is_none() || wanted == Some(at), "{entry}");
        wanted = Some((at + 1) % 4);
    }
    entries.len()
}

fn a_note_of_a_use_stores_no_segment<const HOOKS: bool>() {
    // So a segment is due after each step in turn.
    for limit in 60..70 {
        let (pool, time) = Seconds::pool::<HOOKS>(limit);
        let held = pool.get().unwrap();
        for _ in 0..100 {
            assert_eq!(Pooled::touch(&held), Ok(Touched::Noted));
            assert_eq!(pool.reclaim(), Ok(0), "limit {limit}");
        }
        assert!(time.load(Ordering::SeqCst) > 3_000);
    }
}

fn room_that_another_thread_made_is_seen<const HOOKS: bool>() {
    let (slow, is_called, go_on) = Slow::new();
    let (flush, is_to_flush) = mpsc::channel();
    let reads = Arc::new(AtomicU64::new(u64::MAX));
    let (left, other) = (Arc::clone(&reads), Mutex::new((flush, is_called)));
    // At one read of the clock another thread cuts the journal.
    let clock = move || {
        if left.fetch_sub(1, Ordering::SeqCst) == 1 {
            let other = other.lock().unwrap();
            other.0.send(()).unwrap();
            other.1.recv().unwrap();
        }
        0
    };
    // The least limit.
    let segments = when_due(slow).limit(7);
    let builder = Pool::builder().max_total(1).clock(clock);
    let builder = builder.journal(Journal::Segments(segments));
    let pool = builder.build(Numbers::<HOOKS>).unwrap();
    let held = pool.get().unwrap();
    assert_eq!(pool.room(), 0);
    thread::scope(|scope| {
        let pool = &pool;
        scope.spawn(move || is_to_flush.recv().map(|()| pool.flush_journal().unwrap()));
        // The first read is at the beginning of the borrow, and the second before it looks for room.
        reads.store(2, Ordering::SeqCst);
        let (mut get, bell) = (pool.get_async(), Bell::new());
        assert!(poll(&mut get, &bell).is_pending());
        assert_eq!((pool.waiting(), pool.room()), (1, 1));
        drop(go_on);
    });
    drop(held);
}
