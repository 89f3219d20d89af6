//! What a forked child may do with its parent's pool: drop it. And two children that open pools in one folder.
#![cfg(unix)]

mod common;

use common::managers::{pair, Numbers};
use common::{assert_start_legal, entries_of, new_folder, segments_in, start_in, starts_in};
use std::convert::Infallible;
use std::ffi::c_int;
use std::fs;
use std::panic::{catch_unwind, AssertUnwindSafe};
use std::path::{Path, PathBuf};
use std::thread;
use std::time::{Duration, Instant, SystemTime, UNIX_EPOCH};
use zuphinka::{Builder, Journal, Manager, Pool, Segments};

extern "C" {
    fn fork() -> c_int;
    fn waitpid(process: c_int, status: *mut c_int, options: c_int) -> c_int;
    fn kill(process: c_int, signal: c_int) -> c_int;
    fn exit(status: c_int) -> !;
    fn _exit(status: c_int) -> !;
}

/// The files that the manager, the clock and the receiver of failures make when they are dropped.
const PARTS: [&str; 3] = ["manager", "clock", "receiver"];

const WITHOUT_WAITING: c_int = 1;
const KILL: c_int = 9;

/// A child that takes longer hangs.
const LONGEST: Duration = Duration::from_secs(20);

/// Runs something in a forked child, which ends with the status that this returns, or with 1 if it panics. Returns the child's number.
fn forked(call: impl FnOnce() -> c_int) -> c_int {
    // SAFETY: the child runs what the test gives, and ends without a return.
    let child = unsafe { fork() };
    assert!(child >= 0, "no child can be forked");
    if child == 0 {
        let status = catch_unwind(AssertUnwindSafe(call)).unwrap_or(1);
        // SAFETY: it ends this process.
        unsafe { _exit(status) }
    }
    child
}

/// Waits for the end of a child. Returns its status, or -1 if it was killed.
fn status_of(child: c_int) -> c_int {
    let (mut status, end) = (0, Instant::now() + LONGEST);
    // SAFETY: the child is this process's own, and nobody else waits for it.
    while unsafe { waitpid(child, &mut status, WITHOUT_WAITING) } == 0 {
        if Instant::now() > end {
            // SAFETY: the child has not been waited for, so its number is still its own.
            unsafe { kill(child, KILL) };
        }
        thread::sleep(Duration::from_millis(1));
    }
    match status & 0x7f {
        0 => status >> 8,
        _ => -1,
    }
}

/// Runs something in a forked child. Returns the status of its end, which is 0 if it did not panic.
fn status_in_child(call: impl FnOnce()) -> c_int {
    status_of(forked(|| {
        call();
        0
    }))
}

/// Makes a file when it is dropped.
struct Noted(PathBuf);

impl Drop for Noted {
    fn drop(&mut self) {
        fs::write(&self.0, "").unwrap();
    }
}

/// Makes numbers, and notes in a folder which ones were destroyed.
struct Noting {
    folder: PathBuf,
    _end: Noted,
}

impl Manager for Noting {
    type Object = u64;
    type Error = Infallible;

    fn make(&self, id: u64) -> Result<u64, Infallible> {
        Ok(id)
    }

    fn destroy(&self, id: u64) {
        fs::write(self.folder.join(format!("destroyed {id}")), "").unwrap();
    }
}

/// A pool with an idle object, which stores its journal and notes its destructions below a folder.
fn pool_in(folder: &Path, change: impl FnOnce(Builder<Noting>) -> Builder<Noting>) -> Pool<Noting> {
    // It has a thread that stores it, in an hour.
    let segments = Segments::in_folder(folder.join("journal")).unwrap();
    let segments = segments.store_every(Duration::from_secs(3_600));
    let [manager, clock, receiver] = PARTS.map(|part| Noted(folder.join(part)));
    let start = Instant::now();
    let builder = Pool::builder().clock(move || {
        let _ = &clock;
        u64::try_from(start.elapsed().as_millis()).unwrap()
    });
    let builder = builder.on_error(move |_| {
        let _ = &receiver;
    });
    let builder = change(builder.journal(Journal::Segments(segments)));
    let manager = Noting {
        folder: folder.to_owned(),
        _end: manager,
    };
    let pool = builder.build(manager).unwrap();
    drop(pool.get().unwrap());
    pool
}

/// The names in a folder and in that of its journal.
fn names_in(folder: &Path) -> Vec<String> {
    let folders = [folder.to_owned(), folder.join("journal")];
    let files = folders
        .iter()
        .flat_map(|folder| fs::read_dir(folder).unwrap());
    let mut names: Vec<_> = files
        .map(|file| file.unwrap().file_name().into_string().unwrap())
        .collect();
    names.sort();
    names
}

/// Drops a pool in a child, and then in this process.
fn drop_in_both(change: impl FnOnce(Builder<Noting>) -> Builder<Noting>) {
    let folder = new_folder();
    let pool = pool_in(&folder, change);
    let before = names_in(&folder);
    let mut handle = Some(pool.clone());
    let copy = pool.downgrade();
    let mut pool = Some(pool);
    let status = status_in_child(|| {
        drop(handle.take());
        drop(pool.take());
        assert!(copy.upgrade().is_none());
    });
    assert_eq!(status, 0);
    // The child has neither destroyed the object nor stored an entry, and has dropped nothing of the pool's user.
    assert_eq!(names_in(&folder), before);
    drop(handle);
    let pool = pool.unwrap();
    drop(pool.get().unwrap());
    let settings = pool.settings();
    drop(pool);
    // A round of its own thread may be the last to have the pool.
    let end = Instant::now() + LONGEST;
    while !PARTS.iter().all(|part| folder.join(part).exists()) {
        assert!(Instant::now() < end, "a part of the pool is not dropped");
        thread::sleep(Duration::from_millis(1));
    }
    assert!(folder.join("destroyed 0").exists());
    let start = start_in(&folder.join("journal"));
    let segments = segments_in(&start);
    let entries = segments.iter().flat_map(|text| entries_of(text));
    assert_start_legal(&start, entries.count() as u64);
    assert!(segments.concat().contains(" close = "));
    assert!(fs::read_to_string(start.join("settings.toml")).unwrap() == settings);
    fs::remove_dir_all(folder).unwrap();
}

#[test]
fn a_child_drops_a_pool_and_does_nothing_to_it() {
    drop_in_both(|builder| builder);
}

#[test]
fn a_child_that_exits_stores_nothing_of_its_parents() {
    let folder = new_folder();
    let pool = pool_in(&folder, |builder| builder);
    let before = names_in(&folder);
    // SAFETY: what runs at the end of the child touches nothing of the parent's but its output.
    let child = forked(|| unsafe { exit(0) });
    assert_eq!(status_of(child), 0);
    assert_eq!(names_in(&folder), before);
    assert_eq!(pool.flush_journal().unwrap(), 4);
    assert_start_legal(&start_in(&folder.join("journal")), 4);
    drop(pool);
    fs::remove_dir_all(folder).unwrap();
}

#[test]
fn a_child_that_exits_stores_the_journal_of_its_own_pool() {
    let folder = new_folder();
    let pool = pool_in(&folder, |builder| builder);
    let child = forked(|| {
        let own = pool_in(&folder.join("child"), |builder| builder);
        std::mem::forget(own.get().unwrap());
        // SAFETY: as above.
        unsafe { exit(0) }
    });
    assert_eq!(status_of(child), 0);
    assert_start_legal(&start_in(&folder.join("child/journal")), 6);
    assert!(starts_in(&folder.join("journal")).is_empty());
    drop(pool);
    fs::remove_dir_all(folder).unwrap();
}

#[test]
fn a_child_drops_a_pool_whose_thread_it_does_not_have() {
    drop_in_both(|builder| builder.maintain_every(Duration::from_secs(3_600)));
}

/// Stores two segments in a folder, the first at a time. Returns whether that was done.
fn stores_at(folder: &Path, start: SystemTime) -> bool {
    let Ok(segments) = Segments::in_folder(folder) else {
        return false;
    };
    let builder = Pool::builder().journal(Journal::Segments(segments));
    let pool = builder.build(Numbers::<true>).unwrap();
    while SystemTime::now() < start {}
    (0..2).all(|_| {
        pair(&pool);
        pool.flush_journal().is_ok()
    })
}

#[test]
fn children_that_store_at_once_have_a_folder_each() {
    const STORED: c_int = 2;
    for round in 0..10 {
        let folder = new_folder();
        let start = UNIX_EPOCH + UNIX_EPOCH.elapsed().unwrap() + Duration::from_millis(8);
        let stores = || c_int::from(stores_at(&folder, start)) * STORED;
        let children = [forked(stores), forked(stores)];
        assert_eq!(children.map(status_of), [STORED; 2], "round {round}");
        let starts = starts_in(&folder);
        assert_eq!(starts.len(), 2);
        starts
            .iter()
            .for_each(|start| assert_start_legal(start, 11));
        fs::remove_dir_all(folder).unwrap();
    }
}
