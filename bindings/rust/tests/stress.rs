//! Four threads call a pool by chance, over a manager that fails and panics by chance, with 20 seeds.
//!
//! Each object that was made is dropped once, and no object is left anywhere. Unless the journal is dropped, the program `pool` finds it legal,
//! what each thread did stands in it in its order, and all that was drained is the journal, or all segments are that were cut off or
//! stored.

mod common;

use common::chance::{
    assert_dropped_once, close_empty, hush_random_panics, panic_at_random, Dice, Drops, Failed,
    Fickle, Thing,
};
use common::{
    caught, cut_off, entries_of, journal_of, judge_segments, texts_of, MemorySink, Stored,
};
use std::collections::HashSet;
use std::sync::atomic::{AtomicU64, Ordering};
use std::sync::{Arc, Mutex};
use std::thread;
use std::time::Duration;
use zuphinka::{caller_number, Abandoned, Error, Journal, Manager, Pool, Pooled, Segments};

const SEEDS: u64 = 20;
const THREADS: u64 = 4;
const CALLS: u32 = 2_000;

/// Before one in so many the thread lets others run.
const YIELDS_OF: u64 = 50;

impl<const HOOKS: bool> Fickle<HOOKS> {
    /// Fails or panics now and then.
    fn call(&self) -> Result<(), Failed> {
        let mut dice = self.dice();
        if dice.roll(YIELDS_OF) == 0 {
            thread::yield_now();
        }
        dice.fail(self.panics)
    }
}

impl<const HOOKS: bool> Manager for Fickle<HOOKS> {
    type Object = Thing;
    type Error = Failed;
    const ACTIVATES: bool = HOOKS;
    const PASSIVATES: bool = HOOKS;

    fn make(&self, _id: u64) -> Result<Thing, Failed> {
        self.call()?;
        Ok(Thing::new(&self.drops))
    }

    fn activate(&self, thing: &mut Thing) -> Result<(), Failed> {
        self.call()?;
        assert!(!thing.is_active, "what is kept is passive");
        thing.is_active = true;
        Ok(())
    }

    fn validate(&self, _thing: &mut Thing) -> bool {
        self.call().is_ok()
    }

    fn passivate(&self, thing: &mut Thing) -> Result<(), Failed> {
        self.call()?;
        thing.is_active = false;
        Ok(())
    }

    fn destroy(&self, thing: Thing) {
        drop(thing);
        if self.panics {
            let _ = self.call();
        }
    }
}

/// What becomes of the journal.
#[derive(Clone, Copy, PartialEq)]
enum Keeping {
    /// It is kept in memory, and drained.
    Drained,
    /// It is kept in memory, and cut.
    Cut,
    /// It is handed to a sink, which fails now and then.
    Stored,
    Dropped,
}

impl Keeping {
    fn of(seed: u64) -> Keeping {
        match (seed + seed / 4) % 4 {
            0 => Keeping::Drained,
            1 => Keeping::Cut,
            2 => Keeping::Stored,
            _ => Keeping::Dropped,
        }
    }

    /// The journal, whose sink fails in one call of so many, but never twice in succession.
    fn journal(self, seed: u64, stored: &Stored) -> Journal {
        let (mut dice, mut has_failed) = (Dice(seed), false);
        let fails = move || {
            has_failed = !has_failed && dice.roll(3) == 0;
            has_failed
        };
        let stored = Arc::clone(stored);
        match self {
            Keeping::Drained | Keeping::Cut => Journal::Memory(None),
            Keeping::Stored => {
                let sink = MemorySink { stored, fails };
                // There is room for all entries, so that no call fails for a slow thread that writes.
                let segments = Segments::new(sink).limit(100_000);
                Journal::Segments(segments.store_every(Duration::from_millis(1)))
            }
            Keeping::Dropped => Journal::Off,
        }
    }
}

/// What threads do in a pool that has nothing to lend.
#[derive(Clone, Copy, PartialEq)]
enum Manner {
    /// They are refused. They may hold several objects, and hand some to others.
    Refused,
    /// They wait without limit, and hold one object at most.
    Waiting,
    /// They wait for a short time by the clock, or not at all. They may hold several objects, and hand some to others.
    Hasty,
}

impl Manner {
    fn of(seed: u64) -> Manner {
        match seed % 3 {
            0 => Manner::Waiting,
            1 => Manner::Refused,
            _ => Manner::Hasty,
        }
    }

    fn open<const HOOKS: bool>(
        self,
        manager: Fickle<HOOKS>,
        journal: Journal,
    ) -> Pool<Fickle<HOOKS>> {
        let abandoned = |timeout| {
            Abandoned::new()
                .on_borrow(true)
                .on_maintenance(true)
                .timeout(Duration::from_millis(timeout))
        };
        let moment = AtomicU64::new(0);
        let ticking = move || moment.fetch_add(1, Ordering::Relaxed);
        let builder = Pool::builder()
            .journal(journal)
            .min_idle(1)
            .test_on_borrow(true)
            .test_while_idle(true);
        let builder = match self {
            Manner::Refused => builder
                .clock(ticking)
                .max_total(4)
                .max_idle(2)
                .block_when_exhausted(false)
                .test_on_create(true)
                .test_on_return(true)
                .min_evictable_idle(Duration::from_millis(40))
                .tests_per_eviction_run(2)
                .abandoned(abandoned(200)),
            Manner::Waiting => builder
                .clock(ticking)
                .max_total(1)
                .max_wait(None)
                .lifo(false)
                .min_evictable_idle(Duration::from_millis(40))
                .soft_min_evictable_idle(Duration::from_millis(20))
                .tests_per_eviction_run(-1)
                .abandoned(abandoned(60)),
            Manner::Hasty => builder
                .max_total(3)
                .max_wait(Duration::from_millis(2))
                .min_evictable_idle(Duration::from_millis(1))
                .abandoned(abandoned(3)),
        };
        builder.build(manager).unwrap()
    }
}

/// A call that began, or what it came to.
#[derive(Clone, Copy, Debug, PartialEq, Eq)]
enum Mark {
    Borrows,
    /// A borrow was given this object.
    Lent(u64),
    /// A borrow was answered that there is nothing for it.
    Denied,
    /// A borrow ended its wait, or was denied at that very moment.
    GivesUp,
    GivesBack(u64),
    Invalidates(u64),
    Uses(u64),
    Adds,
    /// A fill found enough, or no place for more.
    Filled,
    Evicts,
    Reclaims,
    Clears,
    Closes,
}

/// What a line says of its caller's calls.
fn mark_of(words: &[&str]) -> Option<Mark> {
    let id = || words[1].parse().unwrap();
    match words {
        ["borrow", _, "=", "exhausted" | "timeout" | "refused", ..] => Some(Mark::Denied),
        ["ready", _, "good", ..] => Some(Mark::Lent(id())),
        ["fill", "=", "enough" | "noplace"] => Some(Mark::Filled),
        ["return", ..] => Some(Mark::GivesBack(id())),
        ["invalidate", ..] => Some(Mark::Invalidates(id())),
        ["use", ..] => Some(Mark::Uses(id())),
        ["add", ..] => Some(Mark::Adds),
        ["evict", ..] => Some(Mark::Evicts),
        ["reclaim", "borrow", ..] => Some(Mark::Borrows),
        ["reclaim", "maintain", ..] => Some(Mark::Reclaims),
        ["clear", ..] => Some(Mark::Clears),
        ["close", ..] => Some(Mark::Closes),
        _ => None,
    }
}

/// What a journal tells of the calls of one caller.
fn told(journal: &str, caller: u32) -> Vec<Mark> {
    let caller = caller.to_string();
    let lines = journal
        .lines()
        .map(|line| line.split(' ').collect::<Vec<_>>());
    lines
        .filter(|words| words[0] == caller)
        .filter_map(|words| mark_of(&words[2..]))
        .collect()
}

/// Whether a journal tells this of the calls of one caller. That it gave up stands nowhere.
fn tells(told: &[Mark], marks: &[Mark]) -> bool {
    let mut left = told.iter().peekable();
    let as_told = marks.iter().all(|mark| match mark {
        Mark::GivesUp => {
            left.next_if_eq(&&Mark::Denied);
            true
        }
        _ => left.next() == Some(mark),
    });
    as_told && left.next().is_none()
}

/// What the threads share.
struct Table<const HOOKS: bool> {
    pool: Pool<Fickle<HOOKS>>,
    manner: Manner,
    /// Objects that one hands to another.
    handed: Mutex<Vec<Pooled<Fickle<HOOKS>>>>,
    drained: Mutex<Vec<u8>>,
    segments: Mutex<Vec<String>>,
    keeping: Keeping,
    is_calm: bool,
}

/// A thread that calls by chance, and writes down what it did.
struct Player<'a, const HOOKS: bool> {
    table: &'a Table<HOOKS>,
    dice: Dice,
    held: Vec<Pooled<Fickle<HOOKS>>>,
    marks: Vec<Mark>,
}

impl<'a, const HOOKS: bool> Player<'a, HOOKS> {
    fn new(table: &'a Table<HOOKS>, seed: u64) -> Player<'a, HOOKS> {
        Player {
            table,
            dice: Dice(seed),
            held: Vec::new(),
            marks: Vec::new(),
        }
    }

    fn pool(&self) -> &'a Pool<Fickle<HOOKS>> {
        &self.table.pool
    }

    fn borrow(&mut self) {
        let (pool, manner) = (self.pool(), self.table.manner);
        if manner == Manner::Waiting && !self.held.is_empty() {
            return;
        }
        self.marks.push(Mark::Borrows);
        let how = if manner == Manner::Hasty {
            self.dice.roll(3)
        } else {
            0
        };
        let lent = caught(|| match how {
            0 => pool.get(),
            1 => pool.try_get(),
            _ => pool.get_timeout(Duration::from_micros(300)),
        });
        match lent {
            Some(Ok(object)) => {
                assert_eq!(object.is_active, HOOKS, "what is lent is active");
                self.marks.push(Mark::Lent(Pooled::id(&object)));
                self.held.push(object);
            }
            Some(Err(Error::Exhausted)) if how > 0 => self.marks.push(Mark::GivesUp),
            // It makes no entry if it waited behind others.
            Some(Err(Error::TimedOut(_))) => self.marks.push(Mark::GivesUp),
            Some(Err(Error::Closed | Error::Exhausted)) => self.marks.push(Mark::Denied),
            Some(Err(Error::JournalFull | Error::OutOfMemory)) => {
                panic!("there is room and memory")
            }
            Some(Err(_)) | None => {}
        }
    }

    /// One of the objects that it holds, by chance.
    fn pick(&mut self) -> Option<Pooled<Fickle<HOOKS>>> {
        self.dice.pick(&mut self.held)
    }

    fn give_back(&mut self, object: Pooled<Fickle<HOOKS>>) {
        self.marks.push(Mark::GivesBack(Pooled::id(&object)));
        if self.dice.roll(2) == 0 {
            caught(|| Pooled::give_back(object));
        } else {
            caught(|| drop(object));
        }
    }

    fn invalidate(&mut self, object: Pooled<Fickle<HOOKS>>) {
        self.marks.push(Mark::Invalidates(Pooled::id(&object)));
        caught(|| Pooled::invalidate(object));
    }

    /// It panics while it holds an object.
    fn stumble(&mut self, object: Pooled<Fickle<HOOKS>>) {
        if self.table.is_calm {
            self.marks.push(Mark::Invalidates(Pooled::id(&object)));
            caught(move || {
                let _held = object;
                panic_at_random();
            });
        } else {
            self.give_back(object);
        }
    }

    fn touch(&mut self, object: Pooled<Fickle<HOOKS>>) {
        self.marks.push(Mark::Uses(Pooled::id(&object)));
        Pooled::touch(&object).unwrap();
        self.held.push(object);
    }

    fn hand_on(&mut self, object: Pooled<Fickle<HOOKS>>) {
        if self.table.manner == Manner::Waiting {
            self.held.push(object);
            return;
        }
        let mut handed = self.table.handed.lock().unwrap();
        handed.push(object);
        let other = self.dice.roll(handed.len() as u64) as usize;
        self.held.push(handed.swap_remove(other));
    }

    /// A call with an object that it holds. With none it borrows one.
    fn call_with_one(&mut self) {
        let Some(object) = self.pick() else {
            return self.borrow();
        };
        match self.dice.roll(16) {
            0..=9 => self.give_back(object),
            10 => self.stumble(object),
            11..=12 => self.invalidate(object),
            13..=14 => self.touch(object),
            _ => self.hand_on(object),
        }
    }

    fn fill(&mut self) {
        let pool = self.pool();
        if let Some(Ok(_)) = caught(|| pool.fill()) {
            self.marks.push(Mark::Filled);
        }
    }

    fn evict(&mut self) {
        self.marks.push(Mark::Evicts);
        let pool = self.pool();
        caught(|| pool.evict());
    }

    fn reclaim(&mut self) {
        self.marks.push(Mark::Reclaims);
        self.pool().reclaim().unwrap();
    }

    /// Maintains the pool, in one call where no manager panics.
    fn maintain(&mut self) {
        if !self.table.is_calm {
            self.evict();
            self.reclaim();
            self.fill();
            return;
        }
        self.marks.push(Mark::Evicts);
        match self.pool().maintain() {
            Ok(_) => self.marks.extend([Mark::Reclaims, Mark::Filled]),
            Err(Error::Closed) => {}
            Err(_) => self.marks.push(Mark::Reclaims),
        }
    }

    fn close(&mut self) {
        self.marks.push(Mark::Closes);
        let pool = self.pool();
        caught(|| pool.close());
    }

    /// Drains the journal, cuts it, or hands it to its sink.
    fn write(&mut self) {
        match self.table.keeping {
            Keeping::Drained => {
                let mut drained = self.table.drained.lock().unwrap();
                self.pool().drain_journal(&mut *drained).unwrap();
            }
            Keeping::Cut => {
                let mut segments = self.table.segments.lock().unwrap();
                segments.push(cut_off(self.pool()));
            }
            // It may fail, and then it is tried again.
            Keeping::Stored => drop(self.pool().flush_journal()),
            Keeping::Dropped => assert!(!journal_of(self.pool()).is_empty()),
        }
    }

    /// A call that is made seldom. A pool is closed now and then.
    fn call_seldom(&mut self) {
        let pool = self.pool();
        match self.dice.roll(3_000) {
            0 => self.close(),
            1..=500 => {
                self.marks.push(Mark::Clears);
                caught(|| pool.clear());
            }
            501..=600 => self.write(),
            _ => {
                let counts = pool.counts();
                assert!(counts.idle + counts.lent + counts.reserved <= 4);
            }
        }
    }

    fn call(&mut self) {
        let pool = self.pool();
        match self.dice.roll(24) {
            0..=7 => self.borrow(),
            8..=16 => self.call_with_one(),
            17 => {
                self.marks.push(Mark::Adds);
                caught(|| pool.add());
            }
            18 => self.fill(),
            19 => self.evict(),
            20 => self.reclaim(),
            21 => self.maintain(),
            _ => self.call_seldom(),
        }
    }

    /// Makes all its calls, and gives back what it holds. Its number, and what it did.
    fn play(mut self) -> (u32, Vec<Mark>) {
        for _ in 0..CALLS {
            self.call();
        }
        while let Some(object) = self.held.pop() {
            self.give_back(object);
        }
        (caller_number(), self.marks)
    }
}

/// What a caller did, by its number.
type Played = Vec<(u32, Vec<Mark>)>;

/// Lets all threads play.
fn play_all<const HOOKS: bool>(table: &Table<HOOKS>, seed: u64) -> Played {
    thread::scope(|scope| {
        let start = |number| {
            let player = Player::new(table, seed * 1_000 + number);
            scope.spawn(move || player.play())
        };
        let players: Vec<_> = (0..THREADS).map(start).collect();
        players
            .into_iter()
            .map(|player| player.join().unwrap())
            .collect()
    })
}

/// Sees that the segments are one legal journal with all entries, in which stands what each thread did.
fn check_segments<const HOOKS: bool>(
    pool: &Pool<Fickle<HOOKS>>,
    segments: &[String],
    played: &Played,
    seed: u64,
) {
    let steps = pool.counts().steps;
    let verdict = judge_segments(&pool.settings(), segments);
    assert_eq!(verdict, format!("legal {steps}\n"), "seed {seed}");
    let journal = joined(segments);
    assert_eq!(journal.lines().count() as u64, steps, "seed {seed}");
    for (caller, marks) in played {
        let told = told(&journal, *caller);
        assert!(
            tells(&told, marks),
            "seed {seed}, caller {caller}: {told:?} isn't {marks:?}"
        );
    }
}

/// The entries of segments.
fn joined(segments: &[String]) -> String {
    let entries = segments.iter().flat_map(|segment| entries_of(segment));
    entries.flat_map(|entry| [entry, "\n"]).collect()
}

/// Plays with a seed. Returns the number of objects, and the journal that is there.
fn play<const HOOKS: bool>(seed: u64) -> (usize, String) {
    let drops = Arc::new(Drops::default());
    let (manner, panics) = (Manner::of(seed), seed % 4 == 0);
    let (keeping, stored) = (Keeping::of(seed), Stored::default());
    let manager = Fickle::<HOOKS>::new(seed, &drops, panics);
    let table = Table {
        pool: manner.open(manager, keeping.journal(seed, &stored)),
        manner,
        handed: Mutex::default(),
        drained: Mutex::default(),
        segments: Mutex::default(),
        keeping,
        is_calm: !panics,
    };
    let played = play_all(&table, seed);
    let pool = table.pool;
    for object in table.handed.into_inner().unwrap() {
        caught(|| drop(object));
    }
    close_empty(&pool, seed);

    let mut segments = table.segments.into_inner().unwrap();
    while keeping == Keeping::Stored && pool.flush_journal().is_err() {}
    segments.extend(texts_of(&stored));
    segments.push(journal_of(&pool));
    let is_in_parts = keeping == Keeping::Cut || keeping == Keeping::Stored;
    assert_eq!(is_in_parts, segments.len() > 2, "seed {seed}");
    let journal = joined(&segments);
    match keeping {
        Keeping::Dropped => assert!((journal.lines().count() as u64) < pool.counts().steps),
        _ => check_segments(&pool, &segments, &played, seed),
    }
    if keeping == Keeping::Drained {
        let mut drained = table.drained.into_inner().unwrap();
        pool.drain_journal(&mut drained).unwrap();
        assert_eq!(String::from_utf8(drained).unwrap(), journal, "seed {seed}");
    }

    drop(pool);
    (assert_dropped_once(&drops, seed), journal)
}

/// Each answer that comes in these pools.
const ANSWERS: [&str; 21] = [
    "take",
    "make",
    "wait",
    "exhausted",
    "timeout",
    "lent",
    "check",
    "parked",
    "kept",
    "destroy",
    "destroyidle",
    "test",
    "freed",
    "gone",
    "noted",
    "count",
    "reclaimed",
    "nothing",
    "enough",
    "noplace",
    "refused",
];

#[test]
fn objects_are_dropped_once_and_journals_are_legal() {
    hush_random_panics();
    let (mut objects, mut journals) = (0, String::new());
    for seed in 1..=SEEDS {
        for (more, journal) in [play::<true>(seed), play::<false>(seed)] {
            objects += more;
            journals += &journal;
        }
    }
    assert!(objects > 1_000, "there were {objects} objects only");
    let answers: HashSet<_> = journals
        .lines()
        .filter_map(|line| line.split(" = ").nth(1)?.split(' ').next())
        .collect();
    assert_eq!(answers, HashSet::from(ANSWERS));
}
