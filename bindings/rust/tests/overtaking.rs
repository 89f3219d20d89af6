//! How often borrows overtake those that wait: for as long as the pool allows, and then at most as often as it allows.

mod common;
#[path = "common/hooks.rs"]
#[macro_use]
mod hooks;

use common::managers::{kept, pool_with, Clock, Maker, Numbers};
use common::tasks::{poll, ready, Bell, LONGEST};
use common::{assert_legal, entries_of, journal_of, steps_of, while_waiting};
use std::sync::atomic::{AtomicBool, Ordering};
use std::sync::Arc;
use std::task::Poll;
use std::thread;
use std::time::Duration;
use zuphinka::{caller_number, Builder, Error, Get, Pool, Pooled};

with_and_without_hooks! {
    a_waiter_is_overtaken_64_times_at_most
    a_waiter_is_overtaken_without_a_limit_for_a_time
    a_pool_may_be_fair
    a_waiter_that_was_woken_for_nothing_is_not_overtaken_again
    an_overtake_counts_against_each_waiter
    a_waiter_that_is_gone_holds_nobody_up
    a_task_that_is_not_polled_holds_no_thread_up
    a_task_that_is_not_polled_loses_its_turn
    a_borrow_takes_what_is_left_beyond_the_waiters
    a_borrow_times_out_behind_a_waiter
    a_close_ends_waits_behind_a_waiter
    a_pair_makes_the_same_entries_while_another_waits
    a_thread_that_borrows_again_at_once_starves_nobody
    one_that_is_overtaken_makes_no_entry
    threads_are_served_in_turns
}

type Numbered<const HOOKS: bool> = Pool<Numbers<HOOKS>>;

/// A pool of some objects, with a clock that stands still. Each overtake counts.
fn pool<const HOOKS: bool>(
    objects: u32,
    change: impl FnOnce(Builder<Numbers<HOOKS>>) -> Builder<Numbers<HOOKS>>,
) -> Numbered<HOOKS> {
    let builder = kept().max_total(objects).max_wait(LONGEST).clock(|| 0);
    let builder = builder.overtake_time(Duration::ZERO);
    change(builder).build(Numbers).unwrap()
}

/// A task that waits.
fn waiting<const HOOKS: bool>(pool: &Numbered<HOOKS>, bell: &Arc<Bell>) -> Get<Numbers<HOOKS>> {
    let mut get = pool.get_async();
    assert!(poll(&mut get, bell).is_pending());
    get
}

/// The object of a task that was woken.
fn lent<const HOOKS: bool>(
    get: &mut Get<Numbers<HOOKS>>,
    bell: &Arc<Bell>,
) -> Pooled<Numbers<HOOKS>> {
    assert_eq!(bell.rings(), 1);
    ready(poll(get, bell)).unwrap()
}

/// How often an object is returned and borrowed again, before such a borrow finds nothing.
fn overtakes<const HOOKS: bool>(pool: &Numbered<HOOKS>, mut held: Pooled<Numbers<HOOKS>>) -> usize {
    for times in 0.. {
        drop(held);
        held = match pool.try_get() {
            Ok(object) => object,
            Err(error) => {
                assert_eq!(error, Error::Exhausted);
                return times;
            }
        };
    }
    unreachable!("it ends")
}

fn a_waiter_is_overtaken_64_times_at_most<const HOOKS: bool>() {
    let (pool, bell) = (pool::<HOOKS>(1, |builder| builder), Bell::new());
    let held = pool.get().unwrap();
    let mut get = waiting(&pool, &bell);
    assert_eq!(overtakes(&pool, held), 64);
    let (steps, counts) = (steps_of(&pool).len(), pool.counts());
    assert!(matches!(pool.try_get(), Err(Error::Exhausted)));
    let soon = Duration::from_millis(1);
    assert!(matches!(pool.get_timeout(soon), Err(Error::TimedOut(_))));
    // Who may not overtake makes no entry.
    assert_eq!((steps_of(&pool).len(), pool.counts()), (steps, counts));
    drop(lent(&mut get, &bell));
    assert!(pool.try_get().is_ok());
    assert_legal(&pool);
}

fn a_waiter_is_overtaken_without_a_limit_for_a_time<const HOOKS: bool>() {
    let (clock, bell) = (Clock::default(), Bell::new());
    let pool = pool::<HOOKS>(1, |builder| {
        let time = Duration::from_micros(19_001);
        let builder = builder.clock(clock.told()).overtake_time(time);
        builder.max_overtakes(3)
    });
    clock.set(100);
    let mut held = pool.get().unwrap();
    let mut get = waiting(&pool, &bell);
    clock.set(119);
    for _ in 0..100 {
        drop(held);
        held = pool.try_get().unwrap();
    }
    clock.set(120);
    assert_eq!(overtakes(&pool, held), 3);
    drop(lent(&mut get, &bell));
    assert_legal(&pool);
}

fn a_pool_may_be_fair<const HOOKS: bool>() {
    let pool = pool::<HOOKS>(1, |builder| builder.max_overtakes(0));
    let bells = [(); 2].map(|()| Bell::new());
    let held = pool.get().unwrap();
    let mut first = waiting(&pool, &bells[0]);
    assert_eq!(overtakes(&pool, held), 0);
    let mut second = waiting(&pool, &bells[1]);
    drop(lent(&mut first, &bells[0]));
    assert!(matches!(pool.try_get(), Err(Error::Exhausted)));
    drop(lent(&mut second, &bells[1]));
    assert!(pool.try_get().is_ok());
    assert_legal(&pool);
}

fn a_waiter_that_was_woken_for_nothing_is_not_overtaken_again<const HOOKS: bool>() {
    let (pool, bell) = (pool::<HOOKS>(1, |builder| builder), Bell::new());
    let held = pool.get().unwrap();
    let mut get = waiting(&pool, &bell);
    // It looks before it is woken, which changes nothing.
    assert!(poll(&mut get, &bell).is_pending());
    drop(held);
    let held = pool.try_get().unwrap();
    assert_eq!(bell.rings(), 1);
    assert!(poll(&mut get, &bell).is_pending());
    assert_eq!(overtakes(&pool, held), 0);
    drop(lent(&mut get, &bell));
    assert_legal(&pool);
}

fn an_overtake_counts_against_each_waiter<const HOOKS: bool>() {
    let pool = pool::<HOOKS>(1, |builder| builder.max_overtakes(3));
    let bells = [(); 3].map(|()| Bell::new());
    let held = pool.get().unwrap();
    let mut first = waiting(&pool, &bells[0]);
    let mut second = waiting(&pool, &bells[1]);
    assert_eq!(overtakes(&pool, held), 3);
    // Not even the second may come before the first.
    assert!(poll(&mut second, &bells[1]).is_pending());
    let held = lent(&mut first, &bells[0]);
    // The second was overtaken with the first, and the third was not.
    let mut third = waiting(&pool, &bells[2]);
    assert_eq!(overtakes(&pool, held), 0);
    let held = lent(&mut second, &bells[1]);
    assert_eq!(overtakes(&pool, held), 3);
    drop(lent(&mut third, &bells[2]));
    assert_legal(&pool);
}

fn a_waiter_that_is_gone_holds_nobody_up<const HOOKS: bool>() {
    let pool = pool::<HOOKS>(1, |builder| builder.max_overtakes(0));
    let bells = [(); 2].map(|()| Bell::new());
    let held = pool.get().unwrap();
    let first = waiting(&pool, &bells[0]);
    assert_eq!(overtakes(&pool, held), 0);
    // It queues though the object is idle: the first one is on its way.
    let mut second = waiting(&pool, &bells[1]);
    assert_eq!((bells[0].rings(), bells[1].rings()), (1, 0));
    drop(first);
    drop(lent(&mut second, &bells[1]));
    assert!(pool.try_get().is_ok());
    assert_legal(&pool);
}

/// After this time a task that is not polled has lost its wake.
const UNHEEDED: Duration = Duration::from_millis(1_001);

fn a_task_that_is_not_polled_holds_no_thread_up<const HOOKS: bool>() {
    let pool = pool::<HOOKS>(1, |builder| builder.max_overtakes(0));
    let (held, bell) = (pool.get().unwrap(), Bell::new());
    let mut get = waiting(&pool, &bell);
    thread::scope(|scope| {
        // It waits for the task, which is woken only then.
        let behind = scope.spawn(|| pool.get().map(drop));
        while pool.waiting() < 2 {
            thread::yield_now();
        }
        drop(held);
        assert_eq!(bell.rings(), 1);
        assert_eq!(behind.join().unwrap(), Ok(()));
    });
    // It begins again.
    assert!(ready(poll(&mut get, &bell)).is_ok());
    assert_legal(&pool);
}

fn a_task_that_is_not_polled_loses_its_turn<const HOOKS: bool>() {
    type Call<const HOOKS: bool> = fn(&Numbered<HOOKS>, &mut Option<Get<Numbers<HOOKS>>>);
    let calls: [Call<HOOKS>; 4] = [
        |pool, _| assert!(pool.maintain().is_ok()),
        |pool, _| assert_eq!(pool.try_get().err(), Some(Error::Exhausted)),
        |_, third| assert!(poll(third.as_mut().unwrap(), &Bell::new()).is_pending()),
        |_, third| *third = None,
    ];
    let pool = pool::<HOOKS>(1, |builder| builder.max_overtakes(0));
    for call in calls {
        let bells = [(); 3].map(|()| Bell::new());
        let held = pool.get().unwrap();
        let [mut first, mut second, third] = [0, 1, 2].map(|one| waiting(&pool, &bells[one]));
        let mut third = Some(third);
        drop(held);
        let rings: Vec<_> = bells.iter().map(|bell| bell.rings()).collect();
        assert_eq!(rings, [1, 0, 0]);
        thread::sleep(UNHEEDED);
        call(&pool, &mut third);
        let held = lent(&mut second, &bells[1]);
        // It begins again.
        assert!(poll(&mut first, &bells[0]).is_pending());
        drop(third.take());
        drop(held);
        drop(lent(&mut first, &bells[0]));
    }
    assert!(pool.try_get().is_ok());
    assert_legal(&pool);
}

fn a_borrow_takes_what_is_left_beyond_the_waiters<const HOOKS: bool>() {
    let pool = pool::<HOOKS>(2, |builder| builder.fair(true));
    let bell = Bell::new();
    let held = [(); 2].map(|()| pool.get().unwrap());
    let mut get = waiting(&pool, &bell);
    drop(held);
    let held = pool.try_get().unwrap();
    assert!(matches!(pool.try_get(), Err(Error::Exhausted)));
    drop(lent(&mut get, &bell));
    drop(held);
    assert_legal(&pool);
}

fn a_borrow_times_out_behind_a_waiter<const HOOKS: bool>() {
    let clock = Clock::default();
    let pool = pool::<HOOKS>(1, |builder| {
        let builder = builder.max_overtakes(0).clock(clock.told());
        builder.max_wait(Duration::from_millis(20))
    });
    let bells = [(); 2].map(|()| Bell::new());
    let held = pool.get().unwrap();
    let mut first = waiting(&pool, &bells[0]);
    drop(held);
    let mut second = waiting(&pool, &bells[1]);
    let steps = steps_of(&pool).len();
    clock.set(20);
    assert!(matches!(
        poll(&mut second, &bells[1]),
        Poll::Ready(Err(Error::TimedOut(_)))
    ));
    assert_eq!(steps_of(&pool).len(), steps);
    drop(lent(&mut first, &bells[0]));
    assert!(pool.try_get().is_ok());
    assert_legal(&pool);
}

fn a_close_ends_waits_behind_a_waiter<const HOOKS: bool>() {
    let pool = pool::<HOOKS>(1, |builder| builder.max_overtakes(0));
    let bells = [(); 2].map(|()| Bell::new());
    let held = pool.get().unwrap();
    let mut first = waiting(&pool, &bells[0]);
    drop(held);
    let mut second = waiting(&pool, &bells[1]);
    pool.close();
    for (get, bell) in [(&mut first, &bells[0]), (&mut second, &bells[1])] {
        assert_eq!(bell.rings(), 1);
        assert_eq!(ready(poll(get, bell)).err(), Some(Error::Closed));
    }
    assert_eq!(pool.try_get().err(), Some(Error::Closed));
    assert_legal(&pool);
}

/// The steps of a borrow of an idle object and of its return, in which a call of the manager fails or none, and the calls of the manager.
fn pair_while<const HOOKS: bool>(waits: bool, failing: Option<&'static str>) -> [Vec<String>; 2] {
    let (pool, maker, _) = pool_with::<HOOKS>(|builder| {
        let builder = builder.test_on_borrow(true).test_on_return(true);
        builder.max_total(1).max_wait(LONGEST)
    });
    let (held, bell) = (pool.get().unwrap(), Bell::new());
    let mut get = waits.then(|| pool.get_async());
    if let Some(get) = &mut get {
        assert!(poll(get, &bell).is_pending());
    }
    drop(held);
    let before = steps_of(&pool).len();
    maker.calls();
    failing
        .into_iter()
        .for_each(|name: &'static str| Maker::<HOOKS>::fail(&maker, name));
    drop(pool.get().unwrap());
    assert_eq!(bell.rings(), usize::from(waits));
    let steps = steps_of(&pool).split_off(before);
    assert_legal(&pool);
    [steps, maker.calls()]
}

fn a_pair_makes_the_same_entries_while_another_waits<const HOOKS: bool>() {
    for failing in [None, Some("activate"), Some("validate"), Some("passivate")] {
        let pairs = [false, true].map(|waits| pair_while::<HOOKS>(waits, failing));
        assert_eq!(pairs[0], pairs[1], "{failing:?} fails");
        assert!(pairs[0][0].len() >= 4);
    }
}

fn one_that_is_overtaken_makes_no_entry<const HOOKS: bool>() {
    let pool = pool::<HOOKS>(1, |builder| builder);
    let (held, bell) = (pool.get().unwrap(), Bell::new());
    let mut get = pool.get_async();
    assert!(poll(&mut get, &bell).is_pending());
    drop(held);
    let held = pool.get().unwrap();
    let steps = steps_of(&pool).len();
    assert!(poll(&mut get, &bell).is_pending());
    assert_eq!(steps_of(&pool).len(), steps);
    drop(held);
    assert_eq!(bell.rings(), 2);
    assert!(poll(&mut get, &bell).is_ready());
    assert_legal(&pool);
}

fn a_thread_that_borrows_again_at_once_starves_nobody<const HOOKS: bool>() {
    let pool = pool::<HOOKS>(1, |builder| builder.clock(|| 0));
    let (is_over, held) = (AtomicBool::new(false), pool.get().unwrap());
    let own = caller_number();
    let mut held = Some(held);
    while_waiting(
        &pool,
        || {
            let object = pool.get().unwrap();
            is_over.store(true, Ordering::SeqCst);
            drop(object);
        },
        || {
            while !is_over.load(Ordering::SeqCst) {
                held.take();
                held = Some(pool.get().unwrap());
            }
        },
    );
    drop(held);
    assert!(most_overtakes(&journal_of(&pool), own) <= 64);
    assert_legal(&pool);
}

/// How often at most a caller got an object between the wait and the loan of another one.
fn most_overtakes(journal: &str, caller: u32) -> usize {
    let caller = caller.to_string();
    let (mut overtakes, mut most, mut waits) = (0, 0, false);
    for entry in entries_of(journal) {
        let words: Vec<_> = entry.split(' ').collect();
        let is_borrow = words[2] == "borrow";
        let gets = is_borrow && words.contains(&"take");
        match (words[0] == caller, gets) {
            (true, true) if waits => overtakes += 1,
            (true, _) => {}
            (false, _) if is_borrow => {
                waits = !gets;
                most = most.max(overtakes);
                overtakes = 0;
            }
            (false, _) => {}
        }
    }
    most
}

/// Threads that borrow again and again wait in turns: each of them ends, and none is woken in vain for ever.
fn threads_are_served_in_turns<const HOOKS: bool>() {
    for (objects, overtakes) in [(1, 0), (1, 1), (2, 0), (2, 3), (3, 16), (1, u32::MAX)] {
        let pool = pool::<HOOKS>(objects, |builder| builder.max_overtakes(overtakes));
        thread::scope(|scope| {
            for number in 0..6_u32 {
                let pool = &pool;
                scope.spawn(move || {
                    for round in 0..200_u32 {
                        let object = pool.get().unwrap();
                        if (round + number) % 50 == 0 {
                            thread::sleep(Duration::from_micros(100));
                        }
                        drop(object);
                    }
                });
            }
        });
        assert_eq!(pool.counts().lent, 0);
        assert_legal(&pool);
    }
}
