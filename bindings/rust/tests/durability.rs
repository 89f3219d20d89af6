//! A folder of segments: the order in which it is synced and its files get their names, syncs that fail, two pools, a relative path, and pools that
//! cannot be opened.

#![cfg(all(target_env = "gnu", target_arch = "x86_64"))]

mod common;

use common::managers::{pair, Numbers};
use common::{assert_start_legal, files_in, in_folder_when_due, new_folder, start_in, starts_in};
use std::cell::Cell;
use std::ffi::{c_char, c_int, c_long, c_void, CStr};
use std::path::{Path, PathBuf};
use std::sync::{Barrier, Mutex};
use std::time::Duration;
use std::{env, fs, io, mem, thread};
use zuphinka::{Builder, Journal, LeakDetection, OpenError, Pool, Segments};

/// What was synced, and which files got and lost a name.
static EVENTS: Mutex<Vec<String>> = Mutex::new(Vec::new());

/// What cannot be synced: a folder, or all that is below one, as `FOLDER/*`.
static FAILING: Mutex<Vec<PathBuf>> = Mutex::new(Vec::new());

thread_local! {
    /// How many threads this one can still start, if that is limited.
    static STARTS: Cell<Option<u32>> = const { Cell::new(None) };
}

const FSYNC: c_long = 74;
const FDATASYNC: c_long = 75;
const RENAME: c_long = 82;

/// The library after this program that has a function.
const NEXT: *mut c_void = usize::MAX as *mut c_void;

/// The system has no resources for a thread.
const EAGAIN: c_int = 11;

extern "C" {
    fn syscall(number: c_long, ...) -> c_long;
    fn dlsym(library: *mut c_void, name: *const c_char) -> *mut c_void;
}

fn note(event: String) {
    EVENTS.lock().unwrap().push(event);
}

fn is_failing(path: &Path) -> bool {
    let failing = FAILING.lock().unwrap();
    failing.iter().any(|failing| match failing.ends_with("*") {
        true => path
            .ancestors()
            .skip(1)
            .any(|above| above.join("*") == *failing),
        false => path == failing,
    })
}

/// Does something while a folder, or what is below it, cannot be synced.
fn while_failing<R>(path: PathBuf, act: impl FnOnce() -> R) -> R {
    FAILING.lock().unwrap().push(path.clone());
    let done = act();
    FAILING.lock().unwrap().retain(|failing| *failing != path);
    done
}

fn note_name(event: &str, name: *const c_char) {
    // SAFETY: the functions below get texts of C.
    let name = unsafe { CStr::from_ptr(name) };
    note(format!("{event} {}", name.to_string_lossy()));
}

/// Syncs a file as a function of the C library does, and notes that.
fn sync(event: &str, function: c_long, file: c_int) -> c_int {
    let path = fs::read_link(format!("/proc/self/fd/{file}")).unwrap();
    note(format!("{event} {}", path.display()));
    let file = if is_failing(&path) { -1 } else { file };
    // SAFETY: both functions take a file, and return an error if it is none.
    unsafe { syscall(function, file) as c_int }
}

// SAFETY: these take the place of the C library's functions in this program, and do what those do.
#[no_mangle]
unsafe extern "C" fn fsync(file: c_int) -> c_int {
    sync("sync", FSYNC, file)
}

#[no_mangle]
unsafe extern "C" fn fdatasync(file: c_int) -> c_int {
    sync("sync data", FDATASYNC, file)
}

#[no_mangle]
unsafe extern "C" fn rename(from: *const c_char, to: *const c_char) -> c_int {
    note_name("rename", to);
    syscall(RENAME, from, to) as c_int
}

/// A function of the C library that starts a thread.
type Create = unsafe extern "C" fn(*mut c_void, *mut c_void, *mut c_void, *mut c_void) -> c_int;

#[no_mangle]
unsafe extern "C" fn pthread_create(
    thread: *mut c_void,
    attributes: *mut c_void,
    start: *mut c_void,
    argument: *mut c_void,
) -> c_int {
    match STARTS.get() {
        Some(0) => return EAGAIN,
        left => STARTS.set(left.map(|left| left - 1)),
    }
    let create = dlsym(NEXT, b"pthread_create\0".as_ptr().cast());
    let create: Create = mem::transmute(create);
    create(thread, attributes, start, argument)
}

/// The events since this was asked last, of paths in a folder. That of a start is called so.
fn events_in(folder: &Path) -> Vec<String> {
    let folder = format!("{}", folder.display());
    let mut events = EVENTS.lock().unwrap();
    let (own, others) = events.drain(..).partition(|event| event.contains(&folder));
    *events = others;
    own.iter()
        .map(|event| event.replace(&folder, "top"))
        .map(|event| match event.split_once("/20") {
            Some((before, start)) => match start.split_once('/') {
                Some((_, file)) => format!("{before}/start/{file}"),
                None => before.to_owned() + "/start",
            },
            None => event,
        })
        .collect()
}

/// A pool of some objects whose segments are stored in a folder.
fn pool_of(objects: u32, folder: &Path) -> Pool<Numbers<true>> {
    let segments = in_folder_when_due(folder);
    let builder = Pool::builder().journal(Journal::Segments(segments));
    builder.max_total(objects).build(Numbers).unwrap()
}

fn pool_in(folder: &Path) -> Pool<Numbers<true>> {
    pool_of(8, folder)
}

#[test]
fn a_file_is_synced_before_it_has_its_name_and_its_folder_afterwards() {
    let folder = fs::canonicalize(new_folder()).unwrap();
    let pool = pool_in(&folder.join("a/b/journal"));
    assert_eq!(
        events_in(&folder),
        ["sync top", "sync top/a", "sync top/a/b"],
        "each new folder has its name stored in the one above it"
    );
    pair(&pool);
    assert_eq!(pool.flush_journal().unwrap(), 4);
    let stored = |name: &str| {
        let start = "top/a/b/journal/start";
        let named = format!("rename {start}/{name}");
        [
            format!("sync {start}/.unfinished"),
            named,
            format!("sync {start}"),
        ]
    };
    let first = "segment-00000000000000000000";
    let names = ["start.toml", "settings.toml", first, "callers.txt"];
    let mut events = vec!["sync top/a/b/journal".to_owned()];
    events.extend(names.into_iter().flat_map(stored));
    assert_eq!(events_in(&folder), events);
    pair(&pool);
    assert_eq!(pool.flush_journal().unwrap(), 4);
    let appended = format!("sync data top/a/b/journal/start/{first}");
    assert_eq!(events_in(&folder), [appended]);
    drop(pool);
    fs::remove_dir_all(folder).unwrap();
}

#[test]
fn nothing_is_asked_of_what_is_above_a_folder_that_exists() {
    let folder = fs::canonicalize(new_folder()).unwrap();
    let journal = folder.join("journal");
    fs::create_dir(&journal).unwrap();
    // As where the pool may not read the folder above.
    while_failing(folder.clone(), || {
        let pool = pool_in(&journal);
        pair(&pool);
        assert_eq!(pool.flush_journal().unwrap(), 4);
    });
    fs::remove_dir_all(folder).unwrap();
}

#[test]
fn a_store_that_fails_leaves_whole_files_and_is_made_again() {
    let folder = fs::canonicalize(new_folder()).unwrap();
    let pool = pool_in(&folder);
    let fails = || {
        pair(&pool);
        assert!(while_failing(folder.join("*"), || pool.flush_journal()).is_err());
    };
    fails();
    pool.flush_journal().unwrap();
    let start = start_in(&folder);
    assert_start_legal(&start, 4);
    let [segment, callers] = ["segment-00000000000000000000", "callers.txt"];
    let read = |name| fs::read(start.join(name)).unwrap();
    let before = [segment, callers].map(read);
    let named = thread::Builder::new().name("another".to_owned());
    thread::scope(|scope| {
        named.spawn_scoped(scope, fails).unwrap().join().unwrap();
    });
    assert_eq!([segment, callers].map(read), before);
    pool.flush_journal().unwrap();
    assert_start_legal(&start, 8);
    let names = String::from_utf8(read(callers)).unwrap();
    assert_eq!(
        names
            .lines()
            .filter(|line| line.ends_with(" another"))
            .count(),
        1
    );
    drop(pool);
    fs::remove_dir_all(folder).unwrap();
}

#[test]
fn a_folder_whose_name_could_not_be_stored_is_made_again() {
    let folder = fs::canonicalize(new_folder()).unwrap();
    let pool = pool_in(&folder);
    pair(&pool);
    assert!(while_failing(folder.clone(), || pool.flush_journal()).is_err());
    assert_eq!(pool.flush_journal().unwrap(), 4);
    assert_start_legal(&start_in(&folder), 4);
    drop(pool);
    fs::remove_dir_all(folder).unwrap();
}

#[test]
fn pools_that_store_at_once_have_a_folder_each() {
    const POOLS: u32 = 8;
    let folder = fs::canonicalize(new_folder()).unwrap();
    let all = Barrier::new(POOLS as usize);
    thread::scope(|scope| {
        for objects in 1..=POOLS {
            let (folder, all) = (&folder, &all);
            scope.spawn(move || {
                all.wait();
                let pool = pool_of(objects, folder);
                (0..objects).for_each(|_| pair(&pool));
                let entries = 4 * u64::from(objects);
                assert_eq!(pool.flush_journal().unwrap(), entries);
            });
        }
    });
    let mut found = Vec::new();
    for start in starts_in(&folder) {
        let settings = fs::read_to_string(start.join("settings.toml")).unwrap();
        let objects = (1..=POOLS).find(|most| settings.contains(&format!("maxTotal = {most}\n")));
        let objects = objects.unwrap();
        // The pool was closed, and its object destroyed.
        assert_start_legal(&start, 4 * u64::from(objects) + 3);
        found.push(objects);
    }
    found.sort_unstable();
    assert_eq!(found, Vec::from_iter(1..=POOLS));
    fs::remove_dir_all(folder).unwrap();
}

#[test]
fn a_relative_folder_is_the_same_after_the_current_one_changes() {
    let [folder, other] = [(); 2].map(|()| fs::canonicalize(new_folder()).unwrap());
    let before = env::current_dir().unwrap();
    env::set_current_dir(&folder).unwrap();
    let pool = pool_in(Path::new("a/journal"));
    assert_eq!(events_in(&folder), ["sync top", "sync top/a"]);
    let nameless = Segments::in_folder("").unwrap_err();
    assert_eq!(nameless.kind(), io::ErrorKind::NotFound);
    env::set_current_dir(&other).unwrap();
    pair(&pool);
    let flushed = pool.flush_journal();
    env::set_current_dir(before).unwrap();
    assert_eq!(flushed.unwrap(), 4);
    drop(pool);
    assert_start_legal(&start_in(&folder.join("a/journal")), 7);
    fs::remove_dir_all(folder).unwrap();
    // Nothing is in it.
    fs::remove_dir(other).unwrap();
}

#[test]
fn a_pool_that_gets_no_thread_stores_nothing() {
    let folder = fs::canonicalize(new_folder()).unwrap();
    let hour = Duration::from_secs(3_600);
    let of_journal =
        || Pool::builder().journal(Journal::Segments(Segments::in_folder(&folder).unwrap()));
    let alone = Pool::builder().journal(Journal::Segments(in_folder_when_due(&folder)));
    let leaks = LeakDetection::new(hour, drop);
    let builders: [(Builder<Numbers<true>>, u32); 4] = [
        (of_journal(), 0),
        (of_journal().maintain_every(hour), 1),
        (alone.maintain_every(hour), 0),
        (Pool::builder().leak_detection(leaks), 0),
    ];
    for (builder, starts) in builders {
        STARTS.set(Some(starts));
        let refused = builder.build(Numbers::<true>).unwrap_err();
        STARTS.set(None);
        assert_eq!(refused, OpenError::Thread(io::ErrorKind::WouldBlock));
        assert!(files_in(&folder).is_empty());
    }
    fs::remove_dir_all(folder).unwrap();
}
