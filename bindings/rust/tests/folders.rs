//! The folder of a stored journal: its files, when a new one begins, the names of callers, the times of day, and files and folders that are gone.

#[path = "common/hooks.rs"]
#[macro_use]
mod hooks;
mod common;

use common::managers::{pair, Clock, Numbers};
use common::{
    assert_start_legal, entries_of, files_in, in_folder_when_due, new_folder, segments_in,
    start_in, starts_in,
};
use std::path::Path;
use std::process::{self, Command};
use std::time::{Duration, SystemTime, UNIX_EPOCH};
use std::{fs, io, thread};
use zuphinka::{caller_number, Builder, Journal, Pool};

with_and_without_hooks! {
    a_folder_has_the_segments_and_the_settings
    stores_are_appended_to_one_file
    a_file_has_no_more_entries_than_the_limit
    a_file_that_is_gone_is_followed_by_another
    a_folder_that_fails_is_written_later
    a_folder_that_is_made_anew_is_not_written
    a_second_start_has_a_folder_of_its_own
    callers_have_the_names_of_their_threads
}

/// A pool that stores its journal below a folder when that is due, with room for so many entries.
fn pool_in<const HOOKS: bool>(folder: &Path, limit: u64) -> Pool<Numbers<HOOKS>> {
    let segments = in_folder_when_due(folder).limit(limit);
    let builder = Pool::builder().journal(Journal::Segments(segments));
    builder.build(Numbers::<HOOKS>).unwrap()
}

/// Borrows and returns, and stores the entries.
fn store_pair<const HOOKS: bool>(pool: &Pool<Numbers<HOOKS>>) {
    pair(pool);
    assert_eq!(pool.flush_journal().unwrap(), 4);
}

fn a_folder_has_the_segments_and_the_settings<const HOOKS: bool>() {
    let folder = new_folder();
    let path = folder.join("a/journal");
    let pool = pool_in::<HOOKS>(&path, 200);
    let settings = pool.settings();
    (0..100).for_each(|_| pair(&pool));
    drop(pool);

    let start = start_in(&path);
    let (segments, others): (Vec<_>, Vec<_>) = files_in(&start)
        .into_iter()
        .partition(|name| name.starts_with("segment-"));
    assert_eq!(others, ["callers.txt", "settings.toml", "start.toml"]);
    let mut position = 0;
    for (name, text) in segments.iter().zip(segments_in(&start)) {
        assert_eq!(*name, format!("segment-{position:020}"));
        position += entries_of(&text).count();
    }
    let stored = fs::read_to_string(start.join("settings.toml")).unwrap();
    assert_eq!(stored, settings);
    // The pool was closed, and the object destroyed.
    assert_start_legal(&start, 403);
    fs::remove_dir_all(folder).unwrap();
}

fn stores_are_appended_to_one_file<const HOOKS: bool>() {
    let folder = new_folder();
    let pool = pool_in::<HOOKS>(&folder, 1_000);
    for stored in 1..=20 {
        store_pair(&pool);
        assert_start_legal(&start_in(&folder), 4 * stored);
    }
    let segments = segments_in(&start_in(&folder));
    assert_eq!(segments.len(), 1);
    // One line of a base before all of them.
    assert_eq!(segments[0].lines().count(), 81);
    drop(pool);
    fs::remove_dir_all(folder).unwrap();
}

fn a_file_has_no_more_entries_than_the_limit<const HOOKS: bool>() {
    const LIMIT: u64 = 60;
    let folder = new_folder();
    let pool = pool_in::<HOOKS>(&folder, LIMIT);
    let mut held = Vec::new();
    for round in 0..100 {
        // The number of lent objects, and so of outstanding entries, rises and falls.
        match round % 8 < 4 {
            true => held.push(pool.get().unwrap()),
            false => drop(held.pop()),
        }
        pool.flush_journal().unwrap();
    }
    drop(held);
    let steps = pool.counts().steps;
    drop(pool);
    let start = start_in(&folder);
    let segments = segments_in(&start);
    let entries = segments.iter().map(|text| entries_of(text).count() as u64);
    assert!(entries.max().unwrap() <= LIMIT);
    assert!((segments.len() as u64) < steps / 20, "{}", segments.len());
    let all = segments.iter().map(|text| entries_of(text).count() as u64);
    assert_start_legal(&start, all.sum());
    fs::remove_dir_all(folder).unwrap();
}

fn a_file_that_is_gone_is_followed_by_another<const HOOKS: bool>() {
    let folder = new_folder();
    let pool = pool_in::<HOOKS>(&folder, 1_000);
    store_pair(&pool);
    let start = start_in(&folder);
    let [first, second] = [0, 4].map(|position| start.join(format!("segment-{position:020}")));
    let moved = folder.join("moved");
    fs::rename(&first, &moved).unwrap();
    fs::remove_file(start.join("callers.txt")).unwrap();
    let named = thread::Builder::new().name("another".to_owned());
    thread::scope(|scope| {
        let storing = named.spawn_scoped(scope, || store_pair(&pool));
        storing.unwrap().join().unwrap();
    });
    assert!(second.exists());
    assert!(fs::read_to_string(start.join("callers.txt"))
        .unwrap()
        .ends_with(" another\n"));
    fs::rename(&moved, &first).unwrap();
    assert_start_legal(&start, 8);
    drop(pool);
    fs::remove_dir_all(folder).unwrap();
}

fn a_folder_that_fails_is_written_later<const HOOKS: bool>() {
    let folder = new_folder();
    let path = folder.join("journal");
    let pool = pool_in::<HOOKS>(&path, 200);
    fs::rename(&path, folder.join("elsewhere")).unwrap();
    (0..30).for_each(|_| pair(&pool));
    assert!(pool.flush_journal().is_err());
    fs::rename(folder.join("elsewhere"), &path).unwrap();
    while pool.flush_journal().unwrap() > 0 {}
    assert_start_legal(&start_in(&path), 120);
    drop(pool);
    fs::remove_dir_all(folder).unwrap();
}

fn a_folder_that_is_made_anew_is_not_written<const HOOKS: bool>() {
    let folder = new_folder();
    let pool = pool_in::<HOOKS>(&folder, 200);
    store_pair(&pool);
    let start = start_in(&folder);
    let moved = start.with_extension("moved");
    fs::rename(&start, &moved).unwrap();
    fs::create_dir(&start).unwrap();
    pair(&pool);
    let refused = pool.flush_journal().unwrap_err();
    assert_eq!(refused.kind(), io::ErrorKind::AlreadyExists);
    assert!(pool.reconfigure("maxTotal = 3").is_err());
    assert!(files_in(&start).is_empty());
    fs::remove_dir(&start).unwrap();
    fs::rename(&moved, &start).unwrap();
    assert_eq!(pool.flush_journal().unwrap(), 4);
    assert_start_legal(&start, 8);
    drop(pool);
    fs::remove_dir_all(folder).unwrap();
}

fn a_second_start_has_a_folder_of_its_own<const HOOKS: bool>() {
    let folder = new_folder();
    for starts in 1..=3 {
        store_pair(&pool_in::<HOOKS>(&folder, 200));
        assert_eq!(starts_in(&folder).len(), starts);
    }
    for start in starts_in(&folder) {
        let name = start.file_name().unwrap().to_str().unwrap();
        let (time, process) = name.split_once('-').unwrap();
        assert!(time.len() == 16 && time.ends_with('Z'), "{name}");
        let own = process::id().to_string();
        assert_eq!(process.split('-').next(), Some(own.as_str()));
        assert_start_legal(&start, 7);
    }
    fs::remove_dir_all(folder).unwrap();
}

/// The lines of a file of a start.
fn lines_of(start: &Path, name: &str) -> Vec<String> {
    let text = fs::read_to_string(start.join(name)).unwrap();
    assert!(text.ends_with('\n'));
    text.lines().map(str::to_owned).collect()
}

fn callers_have_the_names_of_their_threads<const HOOKS: bool>() {
    let folder = new_folder();
    let pool = pool_in::<HOOKS>(&folder, 1_000);
    let mut lines = Vec::new();
    for (name, shown) in [
        (Some("worker-3"), Some("worker-3")),
        (Some("a\tb\n\u{85}ü"), Some("a?b??ü")),
        (None, None),
        (Some("two words"), Some("two words")),
    ] {
        let builder = thread::Builder::new();
        let builder = match name {
            Some(name) => builder.name(name.to_owned()),
            None => builder,
        };
        let number = thread::scope(|scope| {
            let call = || {
                store_pair(&pool);
                pair(&pool);
                caller_number()
            };
            builder.spawn_scoped(scope, call).unwrap().join().unwrap()
        });
        lines.extend(shown.map(|shown| format!("{number} {shown}")));
        pool.flush_journal().unwrap();
    }
    let start = start_in(&folder);
    assert_eq!(lines_of(&start, "callers.txt"), lines);
    drop(pool);
    fs::remove_dir_all(folder).unwrap();
}

/// The milliseconds since the beginning of 1970 of a key of `start.toml`, as the program `date` reads it.
fn millis_of(start: &Path, key: &str) -> u64 {
    let lines = lines_of(start, "start.toml");
    let value = lines
        .iter()
        .find_map(|line| line.strip_prefix(key)?.strip_prefix(" = \""));
    let time = value.unwrap().strip_suffix('"').unwrap();
    let date = ["--utc", "--date", time, "+%s%3N"];
    let told = Command::new("date").args(date).output().unwrap();
    String::from_utf8(told.stdout)
        .unwrap()
        .trim()
        .parse()
        .unwrap()
}

fn now_in_millis() -> u64 {
    let passed = SystemTime::now().duration_since(UNIX_EPOCH).unwrap();
    u64::try_from(passed.as_millis()).unwrap()
}

#[test]
fn a_start_has_its_times_and_its_process() {
    for time in [None, Some(0), Some(5_000)] {
        let folder = new_folder();
        let builder: Builder<Numbers<true>> = Pool::builder();
        let builder = match time {
            Some(time) => {
                let clock = Clock::default();
                clock.set(time);
                builder.clock(clock.told())
            }
            None => builder,
        };
        let before = now_in_millis();
        let journal = Journal::Segments(in_folder_when_due(&folder));
        let pool = builder.journal(journal).build(Numbers).unwrap();
        let after = now_in_millis();
        thread::sleep(Duration::from_millis(5));
        store_pair(&pool);
        let start = start_in(&folder);
        let [started, zero] = ["started", "zero"].map(|key| millis_of(&start, key));
        assert!((before..=after).contains(&started));
        assert_eq!(zero, started - time.unwrap_or(0));
        let lines = lines_of(&start, "start.toml");
        assert_eq!(lines[2..], [format!("process = {}", process::id())]);
        drop(pool);
        fs::remove_dir_all(folder).unwrap();
    }
}

#[test]
fn a_file_that_has_16_mebibytes_is_followed_by_another() {
    const LIMIT: u64 = 16 << 20;
    let folder = new_folder();
    let pool = pool_in::<false>(&folder, 2_000_000);
    let size = |position: u64| {
        let name = format!("segment-{position:020}");
        fs::metadata(start_in(&folder).join(name)).map_or(0, |file| file.len())
    };
    let mut sizes = Vec::new();
    while segments_in(&start_or(&folder)).len() < 2 {
        (0..20_000).for_each(|_| pair(&pool));
        pool.flush_journal().unwrap();
        sizes.push(size(0));
    }
    let [.., before, last, again] = sizes[..] else {
        panic!("{sizes:?}")
    };
    assert!(
        before < LIMIT && last >= LIMIT && again == last,
        "{sizes:?}"
    );
    assert_start_legal(&start_in(&folder), pool.counts().steps);
    drop(pool);
    fs::remove_dir_all(folder).unwrap();
}

/// The folder of the only start, or the one above it before there is one.
fn start_or(folder: &Path) -> std::path::PathBuf {
    starts_in(folder).pop().unwrap_or_else(|| folder.to_owned())
}
