//! Threads that borrow an object and return it, for `bench/peers`: what `pool load` does, by this crate.
//!
//! `pairs SETTINGS WORKERS ROUNDS [WORD..]` lets each of WORKERS threads do ROUNDS rounds, closes the pool, and prints the number of refused
//! borrows and the counts. The words, in any order:
//!
//! - `instant`: times come from the system's clock, instead of a counter as in `pool load`;
//! - `hooks`: the manager's hooks `activate` and `passivate` are called, and do nothing;
//! - `memory`: the journal is kept in memory, up to the `journalLimit` of the settings, instead of dropped;
//! - `segments=FOLDER`: the journal is stored in a new folder.

use std::convert::Infallible;
use std::error::Error;
use std::sync::atomic::{AtomicU64, Ordering};
use std::{env, fs, thread};
use zuphinka::{Builder, Journal, Manager, Pool, Segments};

/// The value of an object is its id.
struct Ids<const HOOKS: bool>;

impl<const HOOKS: bool> Manager for Ids<HOOKS> {
    type Object = u64;
    type Error = Infallible;
    const ACTIVATES: bool = HOOKS;
    const PASSIVATES: bool = HOOKS;

    fn make(&self, id: u64) -> Result<u64, Infallible> {
        Ok(id)
    }
}

/// Does the rounds of a worker. Returns how many of them were refused.
fn work<M: Manager>(pool: &Pool<M>, rounds: u64) -> u64 {
    (0..rounds).map(|_| u64::from(pool.get().is_err())).sum()
}

/// A pool as the words say.
fn configure<M: Manager>(settings: &str, words: &[String]) -> Result<Builder<M>, Box<dyn Error>> {
    let moment = AtomicU64::new(0);
    let counter = move || moment.fetch_add(1, Ordering::Relaxed);
    // A counter is no clock by which a wait could have a limit.
    let mut builder = Pool::builder().settings(settings)?.max_wait(None);
    if !words.iter().any(|word| word == "instant") {
        builder = builder.clock(counter);
    }
    for word in words {
        builder = match word.split_once('=') {
            None if word == "instant" || word == "hooks" => builder,
            None if word == "memory" => builder.journal(Journal::Memory(None)),
            Some(("segments", folder)) => {
                builder.journal(Journal::Segments(Segments::in_folder(folder)?))
            }
            _ => return Err(format!("unknown word {word}").into()),
        };
    }
    Ok(builder)
}

fn run<const HOOKS: bool>(words: &[String]) -> Result<(), Box<dyn Error>> {
    let [settings, workers, rounds, words @ ..] = words else {
        return Err(
            "pairs SETTINGS WORKERS ROUNDS [instant] [hooks] [memory | segments=FOLDER]".into(),
        );
    };
    let (workers, rounds): (u64, u64) = (workers.parse()?, rounds.parse()?);
    let pool = configure(&fs::read_to_string(settings)?, words)?.build(Ids::<HOOKS>)?;
    let refused: u64 = thread::scope(|scope| {
        let workers: Vec<_> = (0..workers)
            .map(|_| scope.spawn(|| work(&pool, rounds)))
            .collect();
        workers
            .into_iter()
            .map(|worker| worker.join().unwrap())
            .sum()
    });
    pool.close();
    let counts = pool.counts();
    println!("workers {workers}\nrounds {rounds}\nrefused {refused}");
    println!(
        "created {}\ndestroyed {}\nsteps {}",
        counts.created, counts.destroyed, counts.steps
    );
    Ok(())
}

fn main() -> Result<(), Box<dyn Error>> {
    let words: Vec<String> = env::args().skip(1).collect();
    match words.iter().any(|word| word == "hooks") {
        true => run::<true>(&words),
        false => run::<false>(&words),
    }
}
