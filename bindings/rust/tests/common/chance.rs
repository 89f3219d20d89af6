//! What tests share that call a pool at random.

use super::caught;
use std::panic;
use std::sync::atomic::{AtomicBool, AtomicU64, Ordering};
use std::sync::{Arc, Mutex};
use std::{error, fmt};
use zuphinka::{Manager, Pool};

/// One call of a manager in this number fails.
pub const FAILS_OF: u64 = 12;
/// One in this number panics, if it may.
pub const PANICS_OF: u64 = 40;

/// Numbers that look random, and are the same in each run.
pub struct Dice(pub u64);

impl Dice {
    /// Returns a number below `sides`.
    pub fn roll(&mut self, sides: u64) -> u64 {
        self.0 = self
            .0
            .wrapping_mul(6_364_136_223_846_793_005)
            .wrapping_add(1_442_695_040_888_963_407);
        (self.0 >> 33) % sides
    }

    /// Takes one of some values out.
    pub fn pick<T>(&mut self, values: &mut Vec<T>) -> Option<T> {
        let count = values.len() as u64;
        (count > 0).then(|| values.swap_remove(self.roll(count) as usize))
    }

    /// Fails or panics now and then.
    pub fn fail(&mut self, panics: bool) -> Result<(), Failed> {
        let fails = self.roll(FAILS_OF) == 0;
        if panics && self.roll(PANICS_OF) == 0 {
            panic_at_random();
        }
        match fails {
            true => Err(Failed),
            false => Ok(()),
        }
    }
}

/// A manager whose calls fail and panic by chance, each by its number.
pub struct Fickle<const HOOKS: bool> {
    pub drops: Arc<Drops>,
    pub panics: bool,
    seed: u64,
    calls: AtomicU64,
}

impl<const HOOKS: bool> Fickle<HOOKS> {
    pub fn new(seed: u64, drops: &Arc<Drops>, panics: bool) -> Fickle<HOOKS> {
        Fickle {
            drops: Arc::clone(drops),
            panics,
            seed,
            calls: AtomicU64::new(0),
        }
    }

    /// Returns the dice of the next call.
    pub fn dice(&self) -> Dice {
        let call = self.calls.fetch_add(1, Ordering::Relaxed);
        Dice(self.seed.wrapping_add(call))
    }
}

/// What a panic at random has for its message.
struct AtRandom;

pub fn panic_at_random() -> ! {
    panic::panic_any(AtRandom)
}

/// Why a call failed.
#[derive(Debug)]
pub struct Failed;

impl fmt::Display for Failed {
    fn fmt(&self, f: &mut fmt::Formatter<'_>) -> fmt::Result {
        f.write_str("by chance")
    }
}

impl error::Error for Failed {}

/// How often each object was dropped, in the order in which they were made.
pub type Drops = Mutex<Vec<u32>>;

/// An object that counts its drops.
pub struct Thing {
    number: usize,
    drops: Arc<Drops>,
    pub is_active: bool,
    pub has_holder: AtomicBool,
}

impl Thing {
    pub fn new(drops: &Arc<Drops>) -> Thing {
        let mut counts = drops.lock().unwrap();
        counts.push(0);
        Thing {
            number: counts.len() - 1,
            drops: Arc::clone(drops),
            is_active: false,
            has_holder: AtomicBool::new(false),
        }
    }
}

impl Drop for Thing {
    fn drop(&mut self) {
        self.drops.lock().unwrap()[self.number] += 1;
    }
}

/// Sees that each object was dropped once. Returns the number of objects.
pub fn assert_dropped_once(drops: &Drops, seed: u64) -> usize {
    let drops = drops.lock().unwrap();
    let are_dropped = drops.iter().all(|times| *times == 1);
    assert!(are_dropped, "seed {seed}: {drops:?}");
    drops.len()
}

/// Prints no message of panics at random.
pub fn hush_random_panics() {
    let report = panic::take_hook();
    panic::set_hook(Box::new(move |panicked| {
        if !panicked.payload().is::<AtRandom>() {
            report(panicked);
        }
    }));
}

/// Closes a pool, and sees that no object is left in it.
pub fn close_empty<M: Manager>(pool: &Pool<M>, seed: u64) {
    while caught(|| pool.close()).is_none() || pool.counts().idle > 0 {
        caught(|| pool.clear());
    }
    let counts = pool.counts();
    let left = (counts.idle, counts.lent, counts.reserved);
    assert_eq!(left, (0, 0, 0), "seed {seed}");
    let ended = counts.destroyed + counts.reclaimed;
    assert_eq!(counts.created, ended, "seed {seed}");
}
