//! What the text of the metrics says of a pool.

mod common;
#[path = "common/hooks.rs"]
#[macro_use]
mod hooks;

use common::managers::{pool_with, Maker, Numbers};
use common::tasks::{poll, ready, Bell};
use std::sync::atomic::{AtomicBool, Ordering};
use std::time::Duration;
use std::{env, fs, thread};
use zuphinka::{Abandoned, Error, Pool, Pooled, Returned};

with_and_without_hooks! {
    the_text_tells_of_a_short_life
    a_reclaimed_object_is_destroyed_and_its_loan_does_not_count
    a_borrow_that_is_not_to_wait_does_not_time_out
}

const BOUNDS: [&str; 20] = [
    "0.0001", "0.00025", "0.0005", "0.001", "0.0025", "0.005", "0.01", "0.025", "0.05", "0.1",
    "0.25", "0.5", "1.0", "2.5", "5.0", "10.0", "25.0", "50.0", "100.0", "+Inf",
];

/// The samples of a histogram, whose times are in these buckets.
fn histogram(name: &str, buckets: &[&str], sum: &str) -> String {
    let mut text = String::new();
    for (n, bound) in BOUNDS.iter().enumerate() {
        let count = buckets
            .iter()
            .filter(|bucket| BOUNDS[..=n].contains(bucket))
            .count();
        text += &format!("{name}_bucket{{pool=\"n\",le=\"{bound}\"}} {count}\n");
    }
    let count = buckets.len();
    text + &format!("{name}_count{{pool=\"n\"}} {count}\n{name}_sum{{pool=\"n\"}} {sum}\n")
}

/// The number of a pool named `n`.
fn number(text: &str, name: &str) -> u64 {
    let start = format!("{name}{{pool=\"n\"}} ");
    let line = text.lines().find_map(|line| line.strip_prefix(&start));
    line.unwrap().parse().unwrap()
}

fn the_text_tells_of_a_short_life<const HOOKS: bool>() {
    let (pool, _, clock) =
        pool_with::<HOOKS>(|builder| builder.max_total(1).max_wait(Duration::from_secs(5)));
    let bell = Bell::new();
    clock.set(1_000);
    let first = pool.get().unwrap();
    let mut waiting = pool.get_async();
    assert!(poll(&mut waiting, &bell).is_pending());
    let text = pool.metrics("n").to_string();
    assert_eq!(number(&text, "zuphinka_waiting_borrows"), 1);
    clock.set(1_040);
    drop(first);
    let second = ready(poll(&mut waiting, &bell)).unwrap();
    clock.set(3_040);
    let timed_out = pool.get_timeout(Duration::ZERO);
    assert!(matches!(timed_out, Err(Error::TimedOut(_))));
    assert_eq!(Pooled::invalidate(second), Returned::Destroyed);
    let third = pool.get().unwrap();
    clock.set(3_045);
    assert_eq!(Pooled::detach(third).id, 1);
    let _fourth = pool.get().unwrap();
    let mut late = pool.get_async();
    assert!(poll(&mut late, &bell).is_pending());
    clock.set(8_045);
    assert!(matches!(
        ready(poll(&mut late, &bell)),
        Err(Error::TimedOut(_))
    ));
    let wanted = "# TYPE zuphinka_idle_objects gauge
# UNIT zuphinka_idle_objects objects
# HELP zuphinka_idle_objects Idle objects.
zuphinka_idle_objects{pool=\"n\"} 0
# TYPE zuphinka_lent_objects gauge
# UNIT zuphinka_lent_objects objects
# HELP zuphinka_lent_objects Lent objects.
zuphinka_lent_objects{pool=\"n\"} 1
# TYPE zuphinka_waiting_borrows gauge
# UNIT zuphinka_waiting_borrows borrows
# HELP zuphinka_waiting_borrows Borrows that wait for an object.
zuphinka_waiting_borrows{pool=\"n\"} 0
# TYPE zuphinka_created_objects counter
# UNIT zuphinka_created_objects objects
# HELP zuphinka_created_objects Objects that the pool began to make.
zuphinka_created_objects_total{pool=\"n\"} 3
# TYPE zuphinka_destroyed_objects counter
# UNIT zuphinka_destroyed_objects objects
# HELP zuphinka_destroyed_objects Objects that were destroyed, reclaimed, or could not be made.
zuphinka_destroyed_objects_total{pool=\"n\"} 2
# TYPE zuphinka_borrows counter
# UNIT zuphinka_borrows borrows
# HELP zuphinka_borrows Borrows that got an object.
zuphinka_borrows_total{pool=\"n\"} 4
# TYPE zuphinka_timeouts counter
# UNIT zuphinka_timeouts timeouts
# HELP zuphinka_timeouts Borrows that timed out.
zuphinka_timeouts_total{pool=\"n\"} 2
# TYPE zuphinka_wait_seconds histogram
# UNIT zuphinka_wait_seconds seconds
# HELP zuphinka_wait_seconds How long borrows took that got an object.
"
    .to_owned()
        + &histogram(
            "zuphinka_wait_seconds",
            &["0.0001", "0.0001", "0.0001", "0.05"],
            "0.040000000",
        )
        + "# TYPE zuphinka_loan_seconds histogram
# UNIT zuphinka_loan_seconds seconds
# HELP zuphinka_loan_seconds How long objects were lent that were not reclaimed, by the end of their loans.
"
        + &histogram(
            "zuphinka_loan_seconds",
            &["0.005", "0.05", "2.5"],
            "2.045000000",
        )
        + "# EOF\n";
    assert_eq!(pool.metrics("n").to_string(), wanted);
}

fn a_reclaimed_object_is_destroyed_and_its_loan_does_not_count<const HOOKS: bool>() {
    let (pool, _, clock) = pool_with::<HOOKS>(|builder| {
        let abandoned = Abandoned::new().on_borrow(true);
        builder
            .max_total(1)
            .abandoned(abandoned.timeout(Duration::from_secs(1)))
    });
    let first = pool.get().unwrap();
    clock.set(1_000);
    let second = pool.get().unwrap();
    assert_eq!(Pooled::give_back(first), Returned::Gone);
    drop(second);
    let text = pool.metrics("n").to_string();
    let numbers = [
        "zuphinka_borrows_total",
        "zuphinka_loan_seconds_count",
        "zuphinka_created_objects_total",
        "zuphinka_destroyed_objects_total",
        "zuphinka_idle_objects",
    ]
    .map(|name| number(&text, name));
    assert_eq!(numbers, [2, 1, 2, 1, 1]);
}

fn a_borrow_that_is_not_to_wait_does_not_time_out<const HOOKS: bool>() {
    let (pool, _, _) = pool_with::<HOOKS>(|builder| builder.max_total(1).max_wait(Duration::ZERO));
    let _lent = pool.get().unwrap();
    assert!(matches!(pool.try_get(), Err(Error::Exhausted)));
    let text = pool.metrics("n").to_string();
    assert_eq!(number(&text, "zuphinka_timeouts_total"), 0);
    assert!(matches!(pool.get(), Err(Error::TimedOut(_))));
    let text = pool.metrics("n").to_string();
    assert_eq!(number(&text, "zuphinka_timeouts_total"), 1);
}

#[test]
fn a_text_has_each_metric_once_for_all_pools() {
    let pool = Pool::new(Numbers::<false>).unwrap();
    let name = "say \"b\\\"\nc";
    let both = pool.metrics("a").and(pool.metrics(name));
    let text = both.to_string();
    assert_eq!(both.clone().without_end().to_string() + "# EOF\n", text);
    assert_eq!(
        text.matches("# TYPE zuphinka_idle_objects gauge\n").count(),
        1
    );
    let samples = "zuphinka_idle_objects{pool=\"a\"} 0
zuphinka_idle_objects{pool=\"say \\\"b\\\\\\\"\\nc\"} 0
# TYPE ";
    assert!(text.contains(samples), "{text}");
}

/// The texts agree with each other. tests/check_rust.py reads those that are written to the file that ZUPHINKA_METRICS names.
#[test]
fn metrics_are_read_while_threads_borrow() {
    const THREADS: u64 = 4;
    const ROUNDS: u64 = 20_000;
    let pool = Pool::builder()
        .max_total(3)
        .build(Maker::<false>::default())
        .unwrap();
    let is_over = AtomicBool::new(false);
    let texts = thread::scope(|scope| {
        let reader = scope.spawn(|| {
            let mut texts = String::new();
            while !is_over.load(Ordering::SeqCst) {
                texts += &pool.metrics("n").to_string();
                thread::sleep(Duration::from_millis(1));
            }
            texts
        });
        let borrowers = [(); THREADS as usize].map(|()| {
            scope.spawn(|| {
                for _ in 0..ROUNDS {
                    drop(pool.get().unwrap());
                }
            })
        });
        for borrower in borrowers {
            borrower.join().unwrap();
        }
        is_over.store(true, Ordering::SeqCst);
        reader.join().unwrap()
    });
    let last = pool.metrics("n").to_string();
    assert_eq!(number(&last, "zuphinka_borrows_total"), THREADS * ROUNDS);
    assert_eq!(
        number(&last, "zuphinka_loan_seconds_count"),
        THREADS * ROUNDS
    );
    if let Some(file) = env::var_os("ZUPHINKA_METRICS") {
        fs::write(file, texts + &last).unwrap();
    }
}
