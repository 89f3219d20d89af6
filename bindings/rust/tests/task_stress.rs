//! Four threads poll, drop and exchange borrows at random, over a manager that is awaited, fails and panics at random, with 16 seeds.
//!
//! No object has two holders, each object is dropped once, no wake is lost, and no object is left anywhere. The journal has each loan under
//! the number of the thread that polled first. Unless it is dropped meanwhile, it has all loans, and the program `pool` finds it legal.

mod common;

use common::chance::{
    assert_dropped_once, close_empty, hush_random_panics, Dice, Drops, Failed, Fickle, Thing,
};
use common::tasks::{poll, yield_now, Bell};
use common::{assert_segments_legal, caught, entries_of, journal_of, texts_of, MemorySink, Stored};
use std::sync::atomic::{AtomicU64, Ordering};
use std::sync::{Arc, Mutex};
use std::task::Poll;
use std::thread;
use std::time::Duration;
use zuphinka::{
    caller_number, Abandoned, Async, AsyncManager, Get, Journal, Pool, Pooled, Segments,
};

const SEEDS: u64 = 16;
const THREADS: u64 = 4;
const CALLS: u32 = 1_500;

/// A call is awaited this number of times at most.
const AWAITS: u64 = 3;
/// The borrows that a thread has at most, and the objects.
const MOST: usize = 3;

impl<const HOOKS: bool> Fickle<HOOKS> {
    async fn call_async(&self) -> Result<(), Failed> {
        let mut dice = self.dice();
        for _ in 0..dice.roll(AWAITS + 1) {
            yield_now().await;
        }
        dice.fail(self.panics)
    }
}

impl<const HOOKS: bool> AsyncManager for Fickle<HOOKS> {
    type Object = Thing;
    type Error = Failed;
    const ACTIVATES: bool = HOOKS;
    const PASSIVATES: bool = HOOKS;

    async fn make(&self, _id: u64) -> Result<Thing, Failed> {
        self.call_async().await?;
        Ok(Thing::new(&self.drops))
    }

    async fn activate(&self, thing: &mut Thing) -> Result<(), Failed> {
        self.call_async().await?;
        assert!(!thing.is_active, "what is kept is passive");
        thing.is_active = true;
        Ok(())
    }

    async fn validate(&self, _thing: &mut Thing) -> bool {
        self.call_async().await.is_ok()
    }

    fn passivate(&self, thing: &mut Thing) -> Result<(), Failed> {
        self.dice().fail(self.panics)?;
        thing.is_active = false;
        Ok(())
    }

    fn destroy(&self, thing: Thing) {
        drop(thing);
        if self.panics {
            let _ = self.dice().fail(true);
        }
    }
}

type Manager<const HOOKS: bool> = Async<Fickle<HOOKS>>;

/// A borrow that was polled, and the number of the thread that polled first.
struct Begun<const HOOKS: bool> {
    get: Get<Manager<HOOKS>>,
    bell: Arc<Bell>,
    caller: u32,
}

/// What the threads share.
struct Table<const HOOKS: bool> {
    pool: Pool<Manager<HOOKS>>,
    /// Borrows that one thread hands to another.
    handed: Mutex<Vec<Begun<HOOKS>>>,
}

/// A thread that calls at random.
struct Player<'a, const HOOKS: bool> {
    table: &'a Table<HOOKS>,
    dice: Dice,
    begun: Vec<Begun<HOOKS>>,
    held: Vec<Pooled<Manager<HOOKS>>>,
    /// The loans: caller and object.
    loans: Vec<(u32, u64)>,
}

impl<'a, const HOOKS: bool> Player<'a, HOOKS> {
    fn new(table: &'a Table<HOOKS>, seed: u64) -> Player<'a, HOOKS> {
        Player {
            table,
            dice: Dice(seed),
            begun: Vec::new(),
            held: Vec::new(),
            loans: Vec::new(),
        }
    }

    fn pool(&self) -> &'a Pool<Manager<HOOKS>> {
        &self.table.pool
    }

    fn hold(&mut self, caller: u32, object: Pooled<Manager<HOOKS>>) {
        assert_eq!(object.is_active, HOOKS, "what is lent is active");
        let had_holder = object.has_holder.swap(true, Ordering::SeqCst);
        assert!(!had_holder, "an object has two holders");
        self.loans.push((caller, Pooled::id(&object)));
        self.held.push(object);
    }

    /// Polls a borrow, and keeps it if it waits.
    fn advance(&mut self, mut borrow: Begun<HOOKS>) {
        borrow.bell.rings();
        match caught(|| poll(&mut borrow.get, &borrow.bell)) {
            Some(Poll::Pending) => self.begun.push(borrow),
            Some(Poll::Ready(Ok(object))) => self.hold(borrow.caller, object),
            Some(Poll::Ready(Err(_))) | None => {}
        }
    }

    fn begin(&mut self) {
        if self.begun.len() + self.held.len() < MOST {
            let borrow = Begun {
                get: self.pool().get_async(),
                bell: Bell::new(),
                caller: caller_number(),
            };
            self.advance(borrow);
        }
    }

    fn go_on(&mut self) {
        if let Some(borrow) = self.dice.pick(&mut self.begun) {
            match borrow.bell.has_rung() || self.dice.roll(8) == 0 {
                true => self.advance(borrow),
                false => self.begun.push(borrow),
            }
        }
    }

    fn cancel(&mut self) {
        let borrow = self.dice.pick(&mut self.begun);
        caught(|| drop(borrow));
    }

    fn exchange(&mut self) {
        let Some(borrow) = self.dice.pick(&mut self.begun) else {
            return;
        };
        let mut handed = self.table.handed.lock().unwrap();
        handed.push(borrow);
        self.begun.extend(self.dice.pick(&mut handed));
    }

    fn borrow(&mut self) {
        if self.held.len() < MOST {
            let (pool, wait) = (self.pool(), Duration::from_micros(200));
            if let Some(Ok(object)) = caught(|| pool.get_timeout(wait)) {
                self.hold(caller_number(), object);
            }
        }
    }

    fn end_loan(&mut self) {
        let Some(object) = self.dice.pick(&mut self.held) else {
            return;
        };
        object.has_holder.store(false, Ordering::SeqCst);
        let invalidates = self.dice.roll(6) == 0;
        caught(|| match invalidates {
            true => drop(Pooled::invalidate(object)),
            false => drop(object),
        });
    }

    fn call(&mut self) {
        let pool = self.pool();
        match self.dice.roll(32) {
            0..=5 => self.begin(),
            6..=15 => self.go_on(),
            16..=17 => self.cancel(),
            18..=19 => self.exchange(),
            20..=26 => self.end_loan(),
            27..=28 => self.borrow(),
            29 => drop(caught(|| pool.add())),
            30 => drop(caught(|| pool.maintain())),
            _ => match self.dice.roll(1_000) {
                0 => drop(caught(|| pool.close())),
                1..=200 => drop(caught(|| pool.clear())),
                _ => {
                    let counts = pool.counts();
                    assert!(counts.idle + counts.lent + counts.reserved <= MOST as u64);
                }
            },
        }
    }

    fn play(mut self) -> Player<'a, HOOKS> {
        (0..CALLS).for_each(|_| self.call());
        self
    }

    /// Ends all loans and borrows. Each borrow that waits is polled when its bell has rung, and not before.
    fn finish(&mut self) {
        while !self.held.is_empty() {
            self.end_loan();
        }
        while let Some(rung) = self.begun.iter().position(|it| it.bell.has_rung()) {
            let borrow = self.begun.swap_remove(rung);
            self.advance(borrow);
            self.end_loan();
        }
        assert!(self.begun.is_empty(), "a wake is lost");
    }
}

fn open<const HOOKS: bool>(
    seed: u64,
    manager: Fickle<HOOKS>,
    stored: &Stored,
) -> Pool<Manager<HOOKS>> {
    let sink = MemorySink {
        stored: Arc::clone(stored),
        fails: || {
            // Others use the room up meanwhile, and then wait.
            thread::sleep(Duration::from_millis(1));
            false
        },
    };
    let journal = match seed % 3 {
        0 => Journal::Memory(None),
        1 => Journal::Segments(Segments::new(sink).limit(40)),
        _ => Journal::Off,
    };
    let abandoned = Abandoned::new()
        .on_borrow(true)
        .on_maintenance(true)
        .timeout(Duration::from_millis(300));
    let moment = AtomicU64::new(0);
    let builder = Pool::builder()
        .journal(journal)
        .clock(move || moment.fetch_add(1, Ordering::Relaxed))
        .max_total(1 + (seed / 2 % MOST as u64) as u32)
        .min_idle(1)
        .test_on_create(seed % 5 < 2)
        .test_on_borrow(seed % 5 > 0)
        .test_on_return(seed % 5 == 1)
        .test_while_idle(true)
        .min_evictable_idle(Duration::from_millis(40))
        .abandoned((seed % 4 == 3).then_some(abandoned));
    builder.build(Async(manager)).unwrap()
}

/// The loans that a journal has, in ascending order.
fn loans_of(segments: &[String]) -> Vec<(u32, u64)> {
    let entries = segments.iter().flat_map(|segment| entries_of(segment));
    let mut loans: Vec<_> = entries
        .map(|entry| entry.split(' ').collect::<Vec<_>>())
        .filter(|words| words.last() == Some(&"lent"))
        .map(|words| (words[0].parse().unwrap(), words[3].parse().unwrap()))
        .collect();
    loans.sort();
    loans
}

/// Lets four threads play, and ends what they left. Returns the loans, in ascending order.
fn play_all<const HOOKS: bool>(table: &Table<HOOKS>, seed: u64) -> Vec<(u32, u64)> {
    let played: Vec<_> = thread::scope(|scope| {
        let start = |number| {
            let player = Player::new(table, seed * 1_000 + number);
            scope.spawn(move || player.play())
        };
        let players: Vec<_> = (0..THREADS).map(start).collect();
        let played = players.into_iter().map(|player| player.join().unwrap());
        played.collect()
    });
    let mut last = Player::new(table, seed);
    last.begun.append(&mut table.handed.lock().unwrap());
    for player in played {
        last.begun.extend(player.begun);
        last.held.extend(player.held);
        last.loans.extend(player.loans);
    }
    last.finish();
    last.loans.sort();
    last.loans
}

/// Plays with a seed. Returns the number of objects and of loans.
fn play<const HOOKS: bool>(seed: u64) -> (usize, usize) {
    let (drops, stored) = (Arc::new(Drops::default()), Stored::default());
    let manager = Fickle::<HOOKS>::new(seed, &drops, seed % 4 > 1);
    let table = Table {
        pool: open(seed, manager, &stored),
        handed: Mutex::default(),
    };
    let loans = play_all(&table, seed);
    close_empty(&table.pool, seed);
    table.pool.flush_journal().unwrap();
    let mut segments = texts_of(&stored);
    segments.push(journal_of(&table.pool));
    match seed % 3 {
        2 => assert!(loans_of(&segments)
            .iter()
            .all(|loan| loans.binary_search(loan).is_ok())),
        _ => {
            assert_segments_legal(&table.pool, &segments);
            assert_eq!(loans_of(&segments), loans, "seed {seed}");
        }
    }

    drop(table);
    (assert_dropped_once(&drops, seed), loans.len())
}

#[test]
fn borrows_of_four_threads_lose_nothing() {
    hush_random_panics();
    let (mut objects, mut loans) = (0, 0);
    for seed in 1..=SEEDS {
        for played in [play::<true>(seed), play::<false>(seed)] {
            objects += played.0;
            loans += played.1;
        }
    }
    assert!(objects > 1_000, "there were {objects} objects only");
    assert!(loans > 1_000, "there were {loans} loans only");
}
