//! Allocations that fail: each in turn, in the pool and in its core.

#![cfg(target_env = "gnu")]

#[path = "common/hooks.rs"]
#[macro_use]
mod hooks;
mod common;

use common::managers::{kept, Numbers};
use common::tasks::{poll, Bell, LONGEST};
use common::{
    assert_segments_legal, entries_of, journal_of, texts_of, when_due, while_waiting, Stored,
};
use std::cell::Cell;
use std::convert::Infallible;
use std::ffi::c_void;
use std::io;
use std::ptr::null_mut;
use std::sync::atomic::{AtomicU64, Ordering};
use std::sync::{mpsc, Arc, Mutex};
use std::task::Poll;
use std::thread;
use zuphinka::{
    Builder, Error, Failure, Get, Journal, LeakDetection, Manager, Pool, Pooled, ReconfigureError,
    Returned, Segment, SegmentSink,
};

with_and_without_hooks! {
    a_journal_that_is_not_dropped_is_dropped_later
    a_borrow_of_an_idle_object_needs_no_memory_for_a_place
    a_segment_that_is_not_cut_is_cut_later
    a_cut_that_fails_changes_nothing
    a_change_of_settings_that_fails_changes_nothing
    a_task_that_cannot_wait_leaves_the_others_their_turns
    a_thread_that_cannot_wait_leaves_the_others_their_turns
    a_task_that_cannot_wait_for_a_segment_is_out_of_memory
    a_failure_that_cannot_be_reported_ends_no_call
    a_loan_that_cannot_be_watched_is_lent
}

thread_local! {
    /// The number of allocations of this thread until one fails.
    static LEFT: Cell<Option<u64>> = const { Cell::new(None) };
}

/// Counts an allocation. Returns whether it fails.
fn fails() -> bool {
    let left = LEFT.get();
    LEFT.set(left.and_then(|left| left.checked_sub(1)));
    left == Some(0)
}

extern "C" {
    fn __libc_malloc(size: usize) -> *mut c_void;
    fn __libc_realloc(block: *mut c_void, size: usize) -> *mut c_void;
}

// SAFETY: these take the place of the C library's functions in this program, and do what those do, or fail as those may.
#[no_mangle]
unsafe extern "C" fn malloc(size: usize) -> *mut c_void {
    match fails() {
        true => null_mut(),
        false => __libc_malloc(size),
    }
}

#[no_mangle]
unsafe extern "C" fn realloc(block: *mut c_void, size: usize) -> *mut c_void {
    match fails() {
        true => null_mut(),
        false => __libc_realloc(block, size),
    }
}

/// Calls while the allocation after `left` ones fails. Returns whether it did, and what the call came to.
fn failing<R>(left: u64, call: impl FnOnce() -> R) -> (bool, R) {
    LEFT.set(Some(left));
    let came = call();
    (LEFT.take().is_none(), came)
}

/// Calls while no allocation fails.
fn unfailing<R>(call: impl FnOnce() -> R) -> R {
    let left = LEFT.take();
    let came = call();
    LEFT.set(left);
    came
}

/// Tries with each allocation failing in turn, until none fails. Returns the number of those that failed.
fn each_in_turn(mut attempt: impl FnMut(u64) -> bool) -> u64 {
    (0..).find(|&left| !attempt(left)).unwrap()
}

/// Borrows and returns. Returns the number of pairs that failed for lack of memory.
fn pairs<const HOOKS: bool>(pool: &Pool<Numbers<HOOKS>>, count: u64) -> u64 {
    let mut failed = 0;
    for _ in 0..count {
        match pool.get() {
            Ok(number) => assert_eq!(*number, 0),
            Err(error) => {
                assert_eq!(error, Error::OutOfMemory);
                failed += 1;
            }
        }
    }
    failed
}

/// Borrows and returns, and returns the number of pairs that failed. If the journal cannot grow, its entries are dropped instead, so a pair may
/// fail only once and if no entry is stored.
fn pairs_without_entries<const HOOKS: bool>(pool: &Pool<Numbers<HOOKS>>, count: u64) -> u64 {
    let mut failed = 0;
    for _ in 0..count {
        if pairs(pool, 1) > 0 {
            failed += 1;
            assert_eq!(unfailing(|| entries_of(&journal_of(pool)).count()), 0);
        }
    }
    assert!(failed <= 1, "{failed} pairs failed");
    failed
}

fn a_journal_that_is_not_dropped_is_dropped_later<const HOOKS: bool>() {
    const PAIRS: u64 = 600;
    let failures = each_in_turn(|left| {
        let pool = Pool::builder().build(Numbers::<HOOKS>).unwrap();
        assert_eq!(pairs(&pool, 1), 0);
        let (has_failed, failed) = failing(left, || pairs_without_entries(&pool, PAIRS));
        assert_eq!(pairs(&pool, PAIRS), 0);
        let counts = pool.counts();
        assert_eq!((counts.idle, counts.lent, counts.created), (1, 0, 1));
        assert_eq!(counts.steps, 4 * (2 * PAIRS + 1 - failed));
        let stored = entries_of(&journal_of(&pool)).count();
        assert!(stored < 2_000, "{stored} entries are stored");
        assert_eq!(pool.close(), 1);
        has_failed
    });
    assert!(failures > 3, "{failures} allocations failed");
}

fn a_borrow_of_an_idle_object_needs_no_memory_for_a_place<const HOOKS: bool>() {
    let pool = Pool::builder()
        .max_total(4)
        .build(Numbers::<HOOKS>)
        .unwrap();
    let held = [(); 4].map(|()| pool.get().unwrap());
    drop(held);
    let (_, failed) = failing(0, || (0..100).filter(|_| pool.get().is_err()).count());
    assert_eq!(failed, 0);
    assert_eq!(pool.counts().created, 4);
}

/// A sink that is spared.
struct Spared(Stored);

impl SegmentSink for Spared {
    fn store(&mut self, segment: &Segment<'_>) -> io::Result<()> {
        unfailing(|| {
            let text = String::from_utf8(segment.text.to_vec()).unwrap();
            self.0.lock().unwrap().push((segment.position, text));
            Ok(())
        })
    }
}

fn a_segment_that_is_not_cut_is_cut_later<const HOOKS: bool>() {
    const PAIRS: u64 = 60;
    let mut reported = 0;
    let failures = each_in_turn(|left| {
        let (stored, reports) = (Stored::default(), Arc::new(Mutex::new(0)));
        let received = Arc::clone(&reports);
        let segments = when_due(Spared(Arc::clone(&stored))).limit(200);
        let builder = Pool::builder()
            .journal(Journal::Segments(segments))
            .on_error(move |failure| match failure {
                Failure::Sink(error) if error.kind() == io::ErrorKind::OutOfMemory => {
                    *received.lock().unwrap() += 1;
                }
                _ => panic!("another failure"),
            });
        let pool = builder.build(Numbers::<HOOKS>).unwrap();
        let (has_failed, failed) = failing(left, || pairs(&pool, PAIRS));
        // It fails in a borrow, or in the cut of a segment, which is reported; or in the first steps of a borrow of an idle object, which a call
        // then takes.
        let reports = *reports.lock().unwrap();
        assert!(failed + reports <= u64::from(has_failed));
        reported += reports;
        assert_eq!(pairs(&pool, PAIRS), 0);
        pool.flush_journal().unwrap();
        assert_eq!(pool.counts().steps, 4 * (2 * PAIRS - failed));
        let mut texts = texts_of(&stored);
        texts.push(journal_of(&pool));
        assert_segments_legal(&pool, &texts);
        has_failed
    });
    assert!(reported > 3, "{reported} of {failures} were reported");
}

fn a_cut_that_fails_changes_nothing<const HOOKS: bool>() {
    let pool = kept().build(Numbers::<HOOKS>).unwrap();
    pairs(&pool, 100);
    let (journal, counts) = (journal_of(&pool), pool.counts());
    let failures = each_in_turn(|left| {
        let (has_failed, cut) = failing(left, || pool.cut(io::sink()));
        match has_failed {
            true => {
                assert_eq!(cut.unwrap_err().kind(), io::ErrorKind::OutOfMemory);
                assert_eq!(journal_of(&pool), journal);
            }
            false => assert_eq!(cut.unwrap(), 400),
        }
        assert_eq!(pool.counts(), counts);
        has_failed
    });
    assert!(failures > 3, "{failures} allocations failed");
    assert_eq!(pairs(&pool, 100), 0);
}

/// Settings are read first, and the program ends if there is no memory for that; then the entries are copied, and the core needs memory.
fn a_change_of_settings_that_fails_changes_nothing<const HOOKS: bool>() {
    const PAIRS: u64 = 20;
    const MANY: u64 = 1 << 32;
    let open = || {
        let pool = kept().build(Numbers::<HOOKS>).unwrap();
        pairs(&pool, PAIRS);
        pool
    };
    let change = |pool: &Pool<Numbers<HOOKS>>| pool.reconfigure("maxTotal = 2\n");
    let pool = open();
    LEFT.set(Some(MANY));
    let first = change(&pool);
    let needed = MANY - LEFT.take().unwrap();
    assert_eq!(first.unwrap(), 4 * PAIRS);

    let pool = open();
    let look = || {
        (
            pool.settings(),
            pool.counts(),
            pool.room(),
            journal_of(&pool),
        )
    };
    let before = look();
    // Each line that is copied needs memory once.
    for left in needed - 4 * PAIRS..needed {
        let (has_failed, first) = failing(left, || change(&pool));
        assert!(has_failed);
        let error = first.unwrap_err();
        assert!(matches!(error, ReconfigureError::OutOfMemory), "{error}");
        assert_eq!(look(), before);
    }
    assert_eq!(change(&pool).unwrap(), 4 * PAIRS);
    assert_eq!(pool.max_total(), Some(2));
}

/// A pool of one object, and its object.
fn exhausted<const HOOKS: bool>() -> (Pool<Numbers<HOOKS>>, Pooled<Numbers<HOOKS>>) {
    let builder: Builder<Numbers<HOOKS>> = kept();
    let pool = builder
        .max_total(1)
        .max_wait(LONGEST)
        .build(Numbers)
        .unwrap();
    let held = pool.get().unwrap();
    (pool, held)
}

/// Polls a borrow that waits, or is out of memory. Returns whether it waits.
fn waits<const HOOKS: bool>(get: &mut Get<Numbers<HOOKS>>, bell: &Arc<Bell>) -> bool {
    match poll(get, bell) {
        Poll::Pending => true,
        Poll::Ready(Err(Error::OutOfMemory)) => false,
        Poll::Ready(_) => panic!("it neither waits nor is out of memory"),
    }
}

fn a_task_that_cannot_wait_leaves_the_others_their_turns<const HOOKS: bool>() {
    let failures = each_in_turn(|left| {
        let (pool, held) = exhausted::<HOOKS>();
        let bells = [(); 2].map(|()| Bell::new());
        let mut last = pool.get_async();
        let mut first = pool.get_async();
        let (has_failed, does_wait) = failing(left, || waits(&mut first, &bells[0]));
        assert_eq!(does_wait, !has_failed);
        assert!(waits(&mut last, &bells[1]));
        drop(held);
        let woken = bells.iter().position(|bell| bell.rings() == 1);
        assert_eq!(woken, Some(usize::from(has_failed)));
        drop(first);
        assert!(matches!(poll(&mut last, &bells[1]), Poll::Ready(Ok(_))));
        assert_eq!(pool.counts().idle, 1);
        has_failed
    });
    assert!(failures > 0, "{failures} allocations failed");
}

fn a_thread_that_cannot_wait_leaves_the_others_their_turns<const HOOKS: bool>() {
    let failures = each_in_turn(|left| {
        let (pool, held) = exhausted::<HOOKS>();
        let soon = std::time::Duration::from_millis(1);
        let (has_failed, came) = failing(left, || pool.get_timeout(soon));
        match came.unwrap_err() {
            Error::OutOfMemory => assert!(has_failed),
            error => assert!(matches!(error, Error::TimedOut(_)) && !has_failed),
        }
        let borrow = || pool.get().map(|number| *number);
        assert_eq!(while_waiting(&pool, borrow, || drop(held)), Ok(0));
        has_failed
    });
    assert!(failures > 0, "{failures} allocations failed");
}

/// Stores a segment once it is let go.
struct Held(mpsc::Sender<()>, mpsc::Receiver<()>);

impl SegmentSink for Held {
    fn store(&mut self, _segment: &Segment<'_>) -> io::Result<()> {
        let _ = self.0.send(());
        let _ = self.1.recv();
        Ok(())
    }
}

fn a_task_that_cannot_wait_for_a_segment_is_out_of_memory<const HOOKS: bool>() {
    let ((called, is_called), (go_on, may_go_on)) = (mpsc::channel(), mpsc::channel());
    let segments = when_due(Held(called, may_go_on)).limit(200);
    let builder = Pool::builder().journal(Journal::Segments(segments));
    let pool = builder.build(Numbers::<HOOKS>).unwrap();
    thread::scope(|scope| {
        scope.spawn(|| pairs(&pool, 30));
        is_called.recv().unwrap();
        while pool.try_get().is_ok() {}
        let failures = each_in_turn(|left| {
            let (bell, mut get) = (Bell::new(), pool.get_async());
            let (has_failed, does_wait) = failing(left, || waits(&mut get, &bell));
            assert_eq!(does_wait, !has_failed);
            has_failed
        });
        drop(go_on);
        assert!(failures > 0, "{failures} allocations failed");
    });
}

/// Makes numbers that do not pass their tests.
struct Unfit<const HOOKS: bool>;

impl<const HOOKS: bool> Manager for Unfit<HOOKS> {
    type Object = u64;
    type Error = Infallible;
    const ACTIVATES: bool = HOOKS;
    const PASSIVATES: bool = HOOKS;

    fn make(&self, id: u64) -> Result<u64, Infallible> {
        Ok(id)
    }

    fn validate(&self, _: &mut u64) -> bool {
        false
    }
}

fn a_failure_that_cannot_be_reported_ends_no_call<const HOOKS: bool>() {
    let failures = each_in_turn(|left| {
        let reports = Arc::new(AtomicU64::new(0));
        let received = Arc::clone(&reports);
        let pool = kept().test_on_return(true).on_error(move |_| {
            received.fetch_add(1, Ordering::Relaxed);
        });
        let pool = pool.build(Unfit::<HOOKS>).unwrap();
        let held = pool.get().unwrap();
        let (has_failed, returned) = failing(left, || Pooled::give_back(held));
        assert_eq!(returned, Returned::Destroyed);
        let reported = reports.load(Ordering::Relaxed);
        assert!(reported == 1 || (has_failed && reported == 0));
        Pooled::give_back(pool.get().unwrap());
        assert_eq!(reports.load(Ordering::Relaxed), reported + 1);
        has_failed
    });
    assert!(failures > 0, "{failures} allocations failed");
}

fn a_loan_that_cannot_be_watched_is_lent<const HOOKS: bool>() {
    let failures = each_in_turn(|left| {
        let detection = LeakDetection::new(LONGEST, |_| {});
        let builder = kept().leak_detection(detection);
        let pool = builder.build(Numbers::<HOOKS>).unwrap();
        pool.add().unwrap();
        let (has_failed, lent) = failing(left, || pool.get().map(drop));
        assert!(lent == Ok(()) || (has_failed && lent == Err(Error::OutOfMemory)));
        assert_eq!(pairs(&pool, 3), 0);
        has_failed
    });
    assert!(failures > 1, "{failures} allocations failed");
}
