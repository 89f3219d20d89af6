//! Loans that last too long, and whom they are told to.

mod common;

use common::managers::{kept, Numbers};
use common::panic_quietly;
use common::tasks::block_on;
use std::sync::{mpsc, Mutex};
use std::thread;
use std::time::Duration;
use zuphinka::{caller_number, Abandoned, Leak, LeakDetection, Pool, Pooled};

const LONGEST: Duration = Duration::from_secs(20);
const LIMIT: Duration = Duration::from_millis(40);

/// A limit that no loan outlasts by mischance.
const LONG: Duration = Duration::from_millis(1_500);

/// A pool that tells of leaks.
fn pool(
    limit: Duration,
    change: impl FnOnce(LeakDetection) -> LeakDetection,
) -> (Pool<Numbers<true>>, mpsc::Receiver<Leak>) {
    let (told, leaks) = mpsc::channel();
    let detection = LeakDetection::new(limit, move |leak| told.send(leak).unwrap());
    let builder = kept().max_total(4).leak_detection(change(detection));
    (builder.build(Numbers).unwrap(), leaks)
}

#[test]
fn a_loan_that_lasts_is_told_of_once() {
    let (pool, leaks) = pool(LIMIT, |detection| detection);
    let named = thread::Builder::new().name("worker-3".to_owned());
    let leak = || (std::mem::forget(pool.get().unwrap()), caller_number()).1;
    let number = thread::scope(|scope| named.spawn_scoped(scope, leak).unwrap().join().unwrap());
    let told = leaks.recv_timeout(LONGEST).unwrap();
    assert_eq!((told.object, told.caller), (0, number));
    assert_eq!(told.thread.as_deref(), Some("worker-3"));
    assert!(told.lent_for > LIMIT && told.backtrace.is_none());
    let text = told.to_string();
    let begin = format!(
        "object 0 has been lent for {:?} to caller {number}",
        told.lent_for
    );
    assert_eq!(text, begin + ", thread \"worker-3\"");

    // A loan of another object is told of next, though that one is returned then.
    let held = pool.get().unwrap();
    assert_eq!(leaks.recv_timeout(LONGEST).unwrap().object, 1);
    drop(held);
    let again = block_on(pool.get_async()).unwrap();
    let told = leaks.recv_timeout(LONGEST).unwrap();
    assert_eq!((told.object, told.caller), (1, caller_number()));
    drop(again);
    drop(pool);
    assert!(leaks.try_recv().is_err());
}

#[test]
fn a_loan_that_ends_in_time_is_not_told_of() {
    let (pool, leaks) = pool(LONG, |detection| detection);
    let ends: [fn(Pooled<Numbers<true>>); 4] = [
        drop,
        |held| _ = Pooled::give_back(held),
        |held| _ = Pooled::invalidate(held),
        |held| _ = Pooled::detach(held),
    ];
    for end in ends {
        end(pool.get().unwrap());
    }
    // The next one outlasts them all.
    let held = pool.get().unwrap();
    assert_eq!(
        leaks.recv_timeout(LONGEST).unwrap().object,
        Pooled::id(&held)
    );
    assert!(leaks.try_recv().is_err());
}

#[test]
fn a_leak_has_the_place_where_it_was_lent_if_that_is_asked_for() {
    #[inline(never)]
    fn lend_in_this_function(pool: &Pool<Numbers<true>>) -> Pooled<Numbers<true>> {
        pool.get().unwrap()
    }
    let (pool, leaks) = pool(LIMIT, LeakDetection::with_backtraces);
    let _held = lend_in_this_function(&pool);
    let told = leaks.recv_timeout(LONGEST).unwrap();
    let text = told.backtrace.unwrap().to_string();
    assert!(text.contains("lend_in_this_function"), "{text}");
}

#[test]
fn a_reclaimed_object_that_is_still_held_is_told_of() {
    let (told, leaks) = mpsc::channel();
    let builder = kept().max_total(1).abandoned(
        Abandoned::new()
            .on_maintenance(true)
            .timeout(Duration::ZERO),
    );
    let detection = LeakDetection::new(LIMIT, move |leak| told.send(leak).unwrap());
    let pool = builder
        .leak_detection(detection)
        .build(Numbers::<true>)
        .unwrap();
    let held = pool.get().unwrap();
    while pool.reclaim().unwrap() == 0 {}
    let other = pool.get().unwrap();
    let mut objects = [(); 2].map(|()| leaks.recv_timeout(LONGEST).unwrap().object);
    objects.sort_unstable();
    assert_eq!(objects, [Pooled::id(&held), Pooled::id(&other)]);
}

#[test]
fn who_is_told_may_panic_and_end_the_pool() {
    let ((told, leaks), (give, given)) = (mpsc::channel(), mpsc::channel());
    let given = Mutex::new(given);
    let detection = LeakDetection::new(LIMIT, move |leak| {
        told.send(leak.object).unwrap();
        if leak.object == 1 {
            let last: (Pool<Numbers<true>>, Pooled<_>) = given.lock().unwrap().recv().unwrap();
            drop(last);
        }
        panic_quietly();
    });
    let pool = kept()
        .leak_detection(detection)
        .build(Numbers::<true>)
        .unwrap();
    let first = pool.get().unwrap();
    assert_eq!(leaks.recv_timeout(LONGEST), Ok(0));
    // The last handle goes in the thread that tells.
    let second = pool.get().unwrap();
    drop(first);
    give.send((pool, second)).unwrap();
    assert_eq!(leaks.recv_timeout(LONGEST), Ok(1));
    // Its thread ends, and with it the closure.
    let ended = leaks.recv_timeout(LONGEST);
    assert_eq!(ended, Err(mpsc::RecvTimeoutError::Disconnected));
}
