//! Four threads call a pool at random, over a manager that fails at random, while another one changes its settings, with 12 seeds.
//!
//! In the end all places can be lent, each object is dropped once, the segments have all entries, and each has the settings that the pool had then.
//! If ZUPHINKA_CHANGES names a folder, the stored segments stay there, with their settings, for a check by `judge`.

mod common;

use common::chance::{assert_dropped_once, close_empty, Dice, Drops, Failed, Fickle, Thing};
use common::tasks::{block_on, LONGEST};
use common::{cut_off, entries_of, new_folder, start_in};
use std::path::{Path, PathBuf};
use std::sync::atomic::{AtomicBool, Ordering};
use std::sync::Arc;
use std::time::Duration;
use std::{env, fs, io, thread};
use zuphinka::{
    Error, Journal, Manager, Pool, Pooled, ReconfigureError, Segment, SegmentFolder, SegmentSink,
    Segments,
};

const SEEDS: u64 = 12;
const THREADS: u64 = 4;
const CALLS: u32 = 800;
/// The most places by these settings.
const MOST: u64 = 4;
const TEXTS: [&str; 3] = [
    "maxTotal = 4\nmaxIdle = 4\nmaxWaitMillis = -1\ntestOnBorrow = true\n",
    "maxTotal = 2\nmaxIdle = 1\nmaxWaitMillis = -1\nlifo = false\ntestOnReturn = true\ntestWhileIdle = true\n",
    "maxTotal = 1\nminIdle = 1\nmaxWaitMillis = -1\ntestOnCreate = true\n",
];

impl<const HOOKS: bool> Manager for Fickle<HOOKS> {
    type Object = Thing;
    type Error = Failed;
    const ACTIVATES: bool = HOOKS;
    const PASSIVATES: bool = HOOKS;

    fn make(&self, _id: u64) -> Result<Thing, Failed> {
        self.dice().fail(false)?;
        Ok(Thing::new(&self.drops))
    }

    fn activate(&self, thing: &mut Thing) -> Result<(), Failed> {
        self.dice().fail(false)?;
        assert!(!thing.is_active, "what is kept is passive");
        thing.is_active = true;
        Ok(())
    }

    fn validate(&self, _thing: &mut Thing) -> bool {
        let mut dice = self.dice();
        if dice.roll(20) == 0 {
            thread::yield_now();
        }
        dice.fail(false).is_ok()
    }

    fn passivate(&self, thing: &mut Thing) -> Result<(), Failed> {
        self.dice().fail(false)?;
        thing.is_active = false;
        Ok(())
    }
}

/// A folder that fails at random, but never twice in succession.
struct Flaky {
    folder: SegmentFolder,
    dice: Dice,
    has_failed: bool,
}

impl SegmentSink for Flaky {
    fn store(&mut self, segment: &Segment<'_>) -> io::Result<()> {
        self.has_failed = !self.has_failed && self.dice.roll(3) == 0;
        match self.has_failed {
            true => Err(io::ErrorKind::BrokenPipe.into()),
            false => self.folder.store(segment),
        }
    }
}

/// What becomes of the journal.
#[derive(Clone, Copy, PartialEq)]
enum Keeping {
    Dropped,
    Cut,
    Stored,
}

impl Keeping {
    fn journal(self, seed: u64, folder: &Path) -> Journal {
        match self {
            Keeping::Dropped => Journal::Off,
            Keeping::Cut => Journal::Memory(None),
            Keeping::Stored => {
                let segments = Segments::new(Flaky {
                    folder: SegmentFolder::create(folder).unwrap(),
                    dice: Dice(seed),
                    has_failed: false,
                });
                Journal::Segments(segments.store_every(Duration::from_millis(1)))
            }
        }
    }
}

/// A pool, and the settings that it had: each with the position of the first entry.
struct Table<const HOOKS: bool> {
    pool: Pool<Fickle<HOOKS>>,
    settings: Vec<(u64, String)>,
    /// The segments that were cut off.
    segments: Vec<String>,
}

/// Borrows, uses and returns an object. Each thread has one at most, so that none waits for ever.
fn hold<const HOOKS: bool>(pool: &Pool<Fickle<HOOKS>>, dice: &mut Dice) {
    let lent = match dice.roll(3) {
        0 => pool.get_timeout(LONGEST),
        1 => block_on(pool.get_async()),
        _ => pool.try_get(),
    };
    let object = match lent {
        Ok(object) => object,
        Err(Error::TimedOut(_) | Error::Closed | Error::JournalFull | Error::OutOfMemory) => {
            panic!("it waits until it is woken")
        }
        Err(_) => return,
    };
    assert_eq!(object.is_active, HOOKS, "what is lent is active");
    assert!(!object.has_holder.swap(true, Ordering::SeqCst));
    if dice.roll(4) == 0 {
        thread::yield_now();
    }
    object.has_holder.store(false, Ordering::SeqCst);
    match dice.roll(12) {
        0 => drop(Pooled::invalidate(object)),
        1 => drop(Pooled::detach(object)),
        _ => drop(object),
    }
}

fn call<const HOOKS: bool>(pool: &Pool<Fickle<HOOKS>>, dice: &mut Dice) {
    match dice.roll(40) {
        0 => drop(pool.add()),
        1 => drop(pool.maintain()),
        2 => drop(pool.clear()),
        3 => {
            let counts = pool.counts();
            assert!(counts.idle + counts.lent + counts.reserved <= MOST);
        }
        4 => drop(pool.flush_journal()),
        _ => hold(pool, dice),
    }
}

impl<const HOOKS: bool> Table<HOOKS> {
    /// Changes the settings. What was cut off and is not written yet is written before.
    fn change(&mut self, text: &str) {
        loop {
            match self.pool.reconfigure(text) {
                Ok(first) => return self.settings.push((first, self.pool.settings())),
                Err(ReconfigureError::Unwritten) => self.segments.push(cut_off(&self.pool)),
                Err(ReconfigureError::Sink(_)) => {}
                Err(error) => panic!("{error}"),
            }
        }
    }

    /// Changes the settings until the others are done.
    fn change_often(&mut self, mut dice: Dice, is_over: &AtomicBool) {
        while !is_over.load(Ordering::SeqCst) {
            self.change(TEXTS[dice.roll(TEXTS.len() as u64) as usize]);
            for _ in 0..dice.roll(200) {
                thread::yield_now();
            }
        }
    }

    /// Sees that all places can be lent, and then that no object is left.
    fn check_places(&mut self, seed: u64) {
        self.change(TEXTS[0]);
        let lend = || loop {
            match self.pool.try_get() {
                Err(Error::Exhausted) => panic!("seed {seed}: a place is lost"),
                Err(_) => {}
                Ok(object) => return object,
            }
        };
        let lent: Vec<_> = (0..MOST).map(|_| lend()).collect();
        assert!(matches!(self.pool.try_get(), Err(Error::Exhausted)));
        drop(lent);
        close_empty(&self.pool, seed);
    }

    /// The settings that the pool had at a position.
    fn settings_at(&self, position: u64) -> &str {
        let changes = self.settings.iter().rev();
        let mut before = changes.filter(|(first, _)| *first <= position);
        &before.next().unwrap().1
    }
}

/// Returns the segments that a folder has, in their order, with the settings that it has for each.
fn read(folder: &Path) -> Vec<(String, String)> {
    let files = fs::read_dir(folder).unwrap();
    let names = files.map(|file| file.unwrap().file_name().into_string().unwrap());
    let others = ["callers.txt", "start.toml"];
    let names = names.filter(|name| !others.contains(&name.as_str()));
    let (mut segments, mut settings): (Vec<_>, Vec<_>) =
        names.partition(|name| name.starts_with("segment-"));
    segments.sort();
    // The first settings come last by name.
    settings.sort();
    assert_eq!(settings.pop().as_deref(), Some("settings.toml"));
    let read = |name: &str| fs::read_to_string(folder.join(name)).unwrap();
    let settings_of = |segment: &str| {
        let digits = segment.strip_prefix("segment-").unwrap();
        let name = format!("settings-{digits}.toml");
        let until = settings.partition_point(|other| *other <= name);
        let last = settings[..until].last();
        read(last.map_or("settings.toml", String::as_str))
    };
    let segments = segments.iter();
    segments
        .map(|name| (read(name), settings_of(name)))
        .collect()
}

/// Sees that the segments have all entries, and returns their positions.
fn check_entries(segments: &[String], steps: u64) -> Vec<u64> {
    let mut end = 0;
    let mut positions = Vec::new();
    for segment in segments {
        assert!(segment.starts_with(&format!("pool-journal 2 {end} ")));
        positions.push(end);
        end += entries_of(segment).count() as u64;
    }
    assert_eq!(end, steps);
    positions
}

/// Sees that no entry is lost, and that each segment has its settings. Returns the number of segments.
fn check_journal<const HOOKS: bool>(
    mut table: Table<HOOKS>,
    keeping: Keeping,
    folder: &Path,
) -> usize {
    let steps = table.pool.counts().steps;
    match keeping {
        Keeping::Dropped => 0,
        Keeping::Cut => {
            // One is not written yet, or none.
            for _ in 0..2 {
                table.segments.push(cut_off(&table.pool));
            }
            check_entries(&table.segments, steps).len()
        }
        Keeping::Stored => {
            while table.pool.flush_journal().is_err() {}
            let (segments, settings): (Vec<_>, Vec<_>) =
                read(&start_in(folder)).into_iter().unzip();
            let positions = check_entries(&segments, steps);
            for (position, settings) in positions.iter().zip(settings) {
                assert_eq!(settings, table.settings_at(*position));
            }
            positions.len()
        }
    }
}

/// Plays with a seed. Returns the number of segments, and that of changes.
fn play<const HOOKS: bool>(seed: u64, keeping: Keeping, folder: &Path) -> (usize, usize) {
    let drops = Arc::new(Drops::default());
    let builder = Pool::builder().journal(keeping.journal(seed, folder));
    let manager = Fickle::<HOOKS>::new(seed, &drops, false);
    let pool = builder.settings(TEXTS[0]).unwrap().build(manager).unwrap();
    let mut table = Table {
        settings: vec![(0, pool.settings())],
        pool: pool.clone(),
        segments: Vec::new(),
    };
    let is_over = AtomicBool::new(false);
    thread::scope(|scope| {
        let start = |number: u64| {
            let (pool, mut dice) = (&pool, Dice(seed * 1_000 + number));
            scope.spawn(move || (0..CALLS).for_each(|_| call(pool, &mut dice)))
        };
        let players: Vec<_> = (0..THREADS).map(start).collect();
        let changes = scope.spawn(|| table.change_often(Dice(seed), &is_over));
        let played = players.into_iter().map(|player| player.join());
        let played: Vec<_> = played.collect();
        is_over.store(true, Ordering::SeqCst);
        changes.join().unwrap();
        played.into_iter().for_each(|player| player.unwrap());
    });
    drop(pool);
    table.check_places(seed);
    let changes = table.settings.len();
    let segments = check_journal(table, keeping, folder);
    assert_dropped_once(&drops, seed);
    (segments, changes)
}

/// The folder that ZUPHINKA_CHANGES names, or a new one, and whether it is to be removed.
fn folder() -> (PathBuf, bool) {
    match env::var_os("ZUPHINKA_CHANGES") {
        Some(named) => (named.into(), false),
        None => (new_folder(), true),
    }
}

#[test]
fn settings_change_while_threads_borrow() {
    let (folder, is_temporary) = folder();
    let (mut segments, mut changes) = (0, 0);
    for seed in 1..=SEEDS {
        let keeping = match seed % 3 {
            0 => Keeping::Dropped,
            1 => Keeping::Cut,
            _ => Keeping::Stored,
        };
        let own = |has_hooks| folder.join(format!("{seed}-{has_hooks}"));
        for (more, made) in [
            play::<true>(seed, keeping, &own(true)),
            play::<false>(seed, keeping, &own(false)),
        ] {
            segments += more;
            changes += made;
        }
    }
    assert!(
        changes > 100 && segments > 50,
        "{changes} changes, {segments} segments"
    );
    if is_temporary {
        fs::remove_dir_all(folder).unwrap();
    }
}
