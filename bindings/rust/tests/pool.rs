//! What each call of a pool does, what it asks of the manager, and what it leaves.

mod common;
#[path = "common/hooks.rs"]
#[macro_use]
mod hooks;

use common::managers::{kept, pool_with, Broken, Maker, Numbers};
use common::tasks::{poll, ready, Bell};
use common::{
    assert_legal, assert_segments_legal, cut_off, entries_of, journal_of, panics, steps_of,
    times_of, wait_for_waits, while_waiting,
};
use std::sync::atomic::{AtomicU64, Ordering};
use std::sync::{mpsc, Arc, Mutex};
use std::thread;
use std::time::{Duration, Instant};
use zuphinka::{
    caller_number, Abandoned, Addition, Builder, Error, OpenError, Pool, Pooled, Returned,
    SettingsError, Touched,
};

with_and_without_hooks! {
    a_journal_is_as_the_readme_shows_it
    moments_are_milliseconds_since_the_pool_was_opened
    the_clock_is_read_where_time_may_pass
    times_never_fall
    a_clock_that_goes_back_ends_no_wait
    each_thread_stands_under_its_own_number
    the_last_or_the_first_parked_is_lent
    tests_come_where_they_are_set
    an_exhausted_pool_refuses
    a_wait_is_as_long_as_the_settings_say
    no_wait_of_a_task_ends_before_its_time
    a_wait_at_the_end_of_the_clock_is_a_sleep
    a_waiter_is_woken_by_what_it_waits_for
    a_waiter_is_woken_by_a_removal
    a_use_puts_a_removal_off
    a_new_object_that_fails_is_destroyed
    a_new_object_that_fails_its_second_test_is_destroyed
    an_idle_object_that_fails_makes_way_for_another
    what_comes_back_broken_is_destroyed
    no_more_are_idle_than_may_be
    additions_and_fills_go_as_far_as_there_are_places
    an_eviction_destroys_what_is_idle_for_too_long_or_fails
    maintenance_evicts_and_reclaims_and_fills
    a_clear_destroys_what_is_idle
    a_closed_pool_lends_nothing_and_keeps_nothing
    a_pool_that_nobody_has_is_closed
    an_object_goes_back_from_any_thread
    what_a_panicking_thread_holds_is_destroyed
    a_manager_that_panics_costs_its_object_only
    a_full_journal_takes_back_and_closes
    all_who_wait_hear_of_a_close
    all_who_wait_hear_of_a_full_journal
    who_is_woken_for_nothing_makes_no_entry
    a_drain_goes_on_where_the_last_ended
    a_drain_that_fails_loses_nothing
    a_pool_whose_journal_is_cut_lends_on
    a_cut_that_fails_loses_nothing
    a_drain_goes_on_behind_a_cut
    segments_of_four_threads_are_one_journal
    what_is_written_while_others_cut_is_whole
    errors_say_what_happened
}

fn all_tests<const HOOKS: bool>(builder: Builder<Maker<HOOKS>>) -> Builder<Maker<HOOKS>> {
    builder
        .test_on_create(true)
        .test_on_borrow(true)
        .test_on_return(true)
        .test_while_idle(true)
}

/// Those of some calls, or of the steps that report them, that there are with or without hooks.
fn of_hooks<const HOOKS: bool>(calls: &[&'static str]) -> Vec<&'static str> {
    let is_of_hook = |call: &str| call.contains("activate") || call.contains("passivate");
    let calls = calls.iter().copied();
    calls.filter(|call| HOOKS || !is_of_hook(call)).collect()
}

/// The steps that tell of a failure.
fn failures_of<const HOOKS: bool>(pool: &Pool<Maker<HOOKS>>) -> Vec<String> {
    let mut steps = steps_of(pool);
    steps.retain(|step| step.contains("fail"));
    steps
}

fn a_journal_is_as_the_readme_shows_it<const HOOKS: bool>() {
    let (pool, maker, clock) = pool_with::<HOOKS>(|builder| builder);
    clock.set(10);
    let widget = pool.get().unwrap();
    clock.set(15);
    assert_eq!(Pooled::give_back(widget), Returned::Parked);
    let me = caller_number();
    let wanted = format!(
        "{me} 10 borrow 10 = make 0\n{me} 10 ready 0 good = lent\n{me} 15 return 0 = check\n{me} 15 park 0 good = parked\n"
    );
    assert_eq!(journal_of(&pool), wanted);
    assert_eq!(
        maker.calls(),
        of_hooks::<HOOKS>(&["make 0", "activate 0", "passivate 0"])
    );
    assert_legal(&pool);
}

fn moments_are_milliseconds_since_the_pool_was_opened<const HOOKS: bool>() {
    let before = Instant::now();
    let pool = kept().build(Maker::<HOOKS>::default()).unwrap();
    let opened = Instant::now();
    thread::sleep(Duration::from_millis(20));
    let least = opened.elapsed().as_millis();
    pool.add().unwrap();
    let most = before.elapsed().as_millis();
    for line in journal_of(&pool).lines() {
        let moment: u128 = line.split(' ').nth(1).unwrap().parse().unwrap();
        assert!(
            (least..=most).contains(&moment),
            "{line}: not from {least} to {most}"
        );
    }
}

fn the_clock_is_read_where_time_may_pass<const HOOKS: bool>() {
    let reads = AtomicU64::new(0);
    let clock = move || reads.fetch_add(1, Ordering::SeqCst);
    let pool = kept()
        .clock(clock)
        .build(Maker::<HOOKS>::default())
        .unwrap();
    for _ in 0..2 {
        drop(pool.get().unwrap());
    }
    let wanted = match HOOKS {
        // After `make` and after `activate` of the new object.
        true => [0, 2, 3, 4, 5, 6, 7, 8],
        false => [0, 1, 2, 2, 3, 3, 4, 4],
    };
    assert_eq!(times_of(&pool), wanted);
    assert_legal(&pool);
}

fn times_never_fall<const HOOKS: bool>() {
    let (pool, _, clock) = pool_with::<HOOKS>(|builder| builder);
    clock.set(10);
    let widget = pool.get().unwrap();
    clock.set(5);
    drop(widget);
    clock.set(12);
    pool.add().unwrap();
    assert_eq!(times_of(&pool), [10, 10, 10, 10, 12, 12]);
    assert_legal(&pool);
}

fn a_clock_that_goes_back_ends_no_wait<const HOOKS: bool>() {
    let limit = Duration::from_millis(400);
    let (pool, _, clock) = pool_with::<HOOKS>(|builder| builder.max_total(1).max_wait(limit));
    clock.set(1_000);
    let widget = pool.get().unwrap();
    clock.set(500);
    // The clock stands still, so only the limit of the call ends its wait.
    let short = Duration::from_millis(5);
    assert!(matches!(pool.get_timeout(short), Err(Error::TimedOut(_))));
    assert_eq!(steps_of(&pool)[2..], ["borrow 1000 = wait"]);
    drop(widget);
    assert_legal(&pool);
}

fn each_thread_stands_under_its_own_number<const HOOKS: bool>() {
    let (pool, ..) = pool_with::<HOOKS>(|builder| builder);
    let me = caller_number();
    let (other, widget) = thread::scope(|scope| {
        let lend = || (caller_number(), pool.get().unwrap());
        scope.spawn(lend).join().unwrap()
    });
    drop(widget);
    assert_ne!(me, other);
    let journal = journal_of(&pool);
    let callers: Vec<u32> = journal
        .lines()
        .map(|line| line.split(' ').next().unwrap().parse().unwrap())
        .collect();
    assert_eq!(callers, [other, other, me, me]);
}

fn the_last_or_the_first_parked_is_lent<const HOOKS: bool>() {
    for (lifo, wanted) in [(true, 1), (false, 0)] {
        let (pool, ..) = pool_with::<HOOKS>(|builder| builder.lifo(lifo));
        let (first, second) = (pool.get().unwrap(), pool.get().unwrap());
        drop(first);
        drop(second);
        assert_eq!(Pooled::id(&pool.get().unwrap()), wanted);
    }
}

fn tests_come_where_they_are_set<const HOOKS: bool>() {
    let (pool, maker, _) = pool_with::<HOOKS>(all_tests);
    drop(pool.get().unwrap());
    assert_eq!(
        maker.calls(),
        of_hooks::<HOOKS>(&[
            "make 0",
            "validate 0",
            "activate 0",
            "validate 0",
            "validate 0",
            "passivate 0"
        ])
    );
    drop(pool.get().unwrap());
    assert_eq!(
        maker.calls(),
        of_hooks::<HOOKS>(&["activate 0", "validate 0", "validate 0", "passivate 0"])
    );
    let run = pool.evict().unwrap();
    assert_eq!((run.examined, run.destroyed), (1, 0));
    assert_eq!(
        maker.calls(),
        of_hooks::<HOOKS>(&["activate 0", "validate 0", "passivate 0"])
    );
    assert_eq!(pool.add().unwrap(), Addition::Idle);
    assert_eq!(
        maker.calls(),
        of_hooks::<HOOKS>(&["make 1", "validate 1", "passivate 1"])
    );
    assert_legal(&pool);
}

fn an_exhausted_pool_refuses<const HOOKS: bool>() {
    let (pool, ..) = pool_with::<HOOKS>(|builder| builder.max_total(1));
    let _held = pool.get().unwrap();
    assert_eq!(pool.try_get().unwrap_err(), Error::Exhausted);
    assert!(matches!(
        pool.get_timeout(Duration::ZERO).unwrap_err(),
        Error::TimedOut(_)
    ));
    let (start, short) = (Instant::now(), Duration::from_millis(30));
    assert!(matches!(
        pool.get_timeout(short).unwrap_err(),
        Error::TimedOut(_)
    ));
    assert!(start.elapsed() >= short);
    assert_legal(&pool);

    let (pool, ..) = pool_with::<HOOKS>(|builder| builder.max_total(1).block_when_exhausted(false));
    let _held = pool.get().unwrap();
    assert_eq!(pool.get().unwrap_err(), Error::Exhausted);
    assert_eq!(
        pool.get_timeout(Duration::from_secs(60)).unwrap_err(),
        Error::Exhausted
    );

    let (pool, ..) = pool_with::<HOOKS>(|builder| builder.max_total(1).max_wait(Duration::ZERO));
    let _held = pool.get().unwrap();
    assert!(matches!(pool.get().unwrap_err(), Error::TimedOut(_)));
    assert_eq!(pool.try_get().unwrap_err(), Error::Exhausted);
}

fn a_wait_is_as_long_as_the_settings_say<const HOOKS: bool>() {
    let maker = Maker::<HOOKS>::default();
    let short = Duration::from_millis(40);
    let pool = kept().max_total(1).max_wait(short).build(maker).unwrap();
    let _held = pool.get().unwrap();
    let start = Instant::now();
    assert!(matches!(pool.get().unwrap_err(), Error::TimedOut(_)));
    // Moments are whole milliseconds.
    assert!(start.elapsed() >= short - Duration::from_millis(1));
    let journal = journal_of(&pool);
    let answers: Vec<_> = journal
        .lines()
        .map(|line| line.rsplit(" = ").next().unwrap())
        .collect();
    assert_eq!(answers, ["make 0", "lent", "wait", "timeout"]);
    assert_legal(&pool);
}

fn no_wait_of_a_task_ends_before_its_time<const HOOKS: bool>() {
    let most = Duration::from_millis(2);
    let builder = Pool::builder().max_total(1).max_wait(most);
    let pool = builder.build(Numbers::<HOOKS>).unwrap();
    let _held = pool.get().unwrap();
    let bell = Bell::new();
    let waits = (0..50).map(|_| {
        let (start, mut get) = (Instant::now(), pool.get_async());
        let mut polled = poll(&mut get, &bell);
        while polled.is_pending() {
            polled = poll(&mut get, &bell);
        }
        assert!(matches!(ready(polled).unwrap_err(), Error::TimedOut(_)));
        start.elapsed()
    });
    let shortest = waits.min().unwrap();
    assert!(shortest >= most, "{shortest:?}");
}

fn a_wait_at_the_end_of_the_clock_is_a_sleep<const HOOKS: bool>() {
    let reads = Arc::new(AtomicU64::new(0));
    let counted = Arc::clone(&reads);
    let clock = move || {
        counted.fetch_add(1, Ordering::SeqCst);
        u64::MAX
    };
    let builder = Pool::builder().max_total(1).clock(clock);
    let pool = builder.build(Numbers::<HOOKS>).unwrap();
    let _held = pool.get().unwrap();
    let short = Duration::from_millis(50);
    assert!(matches!(
        pool.get_timeout(short).unwrap_err(),
        Error::TimedOut(_)
    ));
    let reads = reads.load(Ordering::SeqCst);
    assert!(reads < 20, "{reads} reads");
}

fn a_waiter_is_woken_by_what_it_waits_for<const HOOKS: bool>() {
    let waits = [None, Some(Duration::from_secs(60))];
    for wait in waits {
        let (pool, maker, _) = pool_with::<HOOKS>(|builder| builder.max_total(1));
        let call = || match wait {
            None => pool.get().map(|widget| Pooled::id(&widget)),
            Some(time) => pool.get_timeout(time).map(|widget| Pooled::id(&widget)),
        };
        let held = pool.get().unwrap();
        assert_eq!(while_waiting(&pool, call, || drop(held)), Ok(0));

        let held = pool.get().unwrap();
        let invalidated = || assert_eq!(Pooled::invalidate(held), Returned::Destroyed);
        assert_eq!(while_waiting(&pool, call, invalidated), Ok(1));

        if HOOKS {
            let held = pool.get().unwrap();
            maker.fail("passivate");
            assert_eq!(while_waiting(&pool, call, || drop(held)), Ok(2));
        }

        let held = pool.get().unwrap();
        let closed = || assert_eq!(pool.close(), 0);
        assert_eq!(while_waiting(&pool, call, closed), Err(Error::Closed));
        drop(held);
        assert_eq!(maker.dropped(), [0, 1, 2][..if HOOKS { 3 } else { 2 }]);
        assert_legal(&pool);
    }
}

fn a_waiter_is_woken_by_a_removal<const HOOKS: bool>() {
    let abandoned = Abandoned::new()
        .on_maintenance(true)
        .timeout(Duration::from_millis(100));
    let (pool, maker, clock) =
        pool_with::<HOOKS>(|builder| builder.max_total(1).abandoned(abandoned));
    let held = pool.get().unwrap();
    let get = || pool.get().map(|widget| Pooled::id(&widget));
    let removed = || {
        assert_eq!(pool.reclaim().unwrap(), 0);
        clock.set(100);
        assert_eq!(pool.reclaim().unwrap(), 1);
    };
    assert_eq!(while_waiting(&pool, get, removed), Ok(1));
    assert_eq!(Pooled::touch(&held).unwrap(), Touched::Gone);
    assert_eq!(held.id, 0);
    maker.calls();
    assert_eq!(Pooled::give_back(held), Returned::Gone);
    assert_eq!(maker.calls(), of_hooks::<HOOKS>(&["destroy 0"]));
    assert_eq!(maker.dropped(), [0]);
    assert_legal(&pool);
}

fn a_use_puts_a_removal_off<const HOOKS: bool>() {
    let abandoned = Abandoned::new()
        .on_borrow(true)
        .timeout(Duration::from_millis(100));
    let (pool, _, clock) = pool_with::<HOOKS>(|builder| builder.max_total(2).abandoned(abandoned));
    let (used, unused) = (pool.get().unwrap(), pool.get().unwrap());
    clock.set(60);
    assert_eq!(Pooled::touch(&used).unwrap(), Touched::Noted);
    clock.set(100);
    assert_eq!(pool.get().unwrap().id, 2);
    assert_eq!(Pooled::invalidate(unused), Returned::Gone);
    assert_eq!(Pooled::give_back(used), Returned::Parked);
    assert_eq!(pool.counts().reclaimed, 1);
    assert_legal(&pool);
}

/// Sees that each of some new objects is gone.
fn assert_none_left<const HOOKS: bool>(pool: &Pool<Maker<HOOKS>>, made: u64) {
    let counts = pool.counts();
    let (created, destroyed) = (counts.created, counts.destroyed);
    assert_eq!((created, destroyed, counts.reserved), (made, made, 0));
    assert_legal(pool);
}

fn a_new_object_that_fails_is_destroyed<const HOOKS: bool>() {
    let (pool, maker, _) = pool_with::<HOOKS>(|builder| all_tests(builder).max_total(1));
    maker.fail("make");
    assert_eq!(pool.get().unwrap_err(), Error::Make(Broken("make")));
    maker.fail("validate");
    assert_eq!(pool.get().unwrap_err(), Error::CreateTest(None));
    maker.fail("make");
    assert_eq!(pool.add().unwrap_err(), Error::Make(Broken("make")));
    maker.fail("validate");
    assert_eq!(pool.add().unwrap_err(), Error::CreateTest(None));
    let wanted = [
        "make 0",
        "make 1",
        "validate 1",
        "destroy 1",
        "make 2",
        "make 3",
        "validate 3",
        "destroy 3",
    ];
    assert_eq!(maker.calls(), wanted);
    assert_eq!(maker.dropped(), [1, 3]);
    assert_none_left(&pool, 4);
}

#[test]
fn a_new_object_whose_hook_fails_is_destroyed() {
    let (pool, maker, _) = pool_with::<true>(|builder| all_tests(builder).max_total(1));
    maker.fail("activate");
    assert_eq!(pool.get().unwrap_err(), Error::Activate(Broken("activate")));
    maker.fail("passivate");
    assert_eq!(
        pool.add().unwrap_err(),
        Error::Passivate(Broken("passivate"))
    );
    let wanted = [
        "make 0",
        "validate 0",
        "activate 0",
        "destroy 0",
        "make 1",
        "validate 1",
        "passivate 1",
        "destroy 1",
    ];
    assert_eq!(maker.calls(), wanted);
    assert_eq!(maker.dropped(), [0, 1]);
    assert_none_left(&pool, 2);
}

fn a_new_object_that_fails_its_second_test_is_destroyed<const HOOKS: bool>() {
    let (pool, maker, _) = pool_with::<HOOKS>(|builder| builder.test_on_borrow(true));
    maker.fail("validate");
    assert_eq!(pool.get().unwrap_err(), Error::BorrowTest(None));
    assert_eq!(
        maker.calls(),
        of_hooks::<HOOKS>(&["make 0", "activate 0", "validate 0", "destroy 0"])
    );
    assert_eq!(
        steps_of(&pool),
        [
            "borrow 0 = make 0",
            "ready 0 testfail = destroy",
            "destroyed 0 = freed"
        ]
    );
    assert_legal(&pool);
}

fn an_idle_object_that_fails_makes_way_for_another<const HOOKS: bool>() {
    let (pool, maker, _) = pool_with::<HOOKS>(|builder| builder.test_on_borrow(true));
    for _ in 0..2 {
        pool.add().unwrap();
    }
    maker.calls();
    maker.fail("validate");
    assert_eq!(pool.get().unwrap().id, 0);
    let wanted = [
        "activate 1",
        "validate 1",
        "destroy 1",
        "activate 0",
        "validate 0",
        "passivate 0",
    ];
    assert_eq!(maker.calls(), of_hooks::<HOOKS>(&wanted));
    assert_eq!(failures_of(&pool), ["ready 1 testfail = destroy"]);
    assert_legal(&pool);
}

#[test]
fn an_idle_object_whose_hook_fails_makes_way_for_another() {
    let (pool, maker, _) = pool_with::<true>(|builder| builder.test_on_borrow(true));
    for _ in 0..2 {
        pool.add().unwrap();
    }
    maker.calls();
    maker.fail("activate");
    maker.fail("validate");
    assert_eq!(pool.get().unwrap().id, 2);
    let wanted = [
        "activate 1",
        "destroy 1",
        "activate 0",
        "validate 0",
        "destroy 0",
        "make 2",
        "activate 2",
        "validate 2",
        "passivate 2",
    ];
    assert_eq!(maker.calls(), wanted);
    assert_eq!(
        failures_of(&pool),
        [
            "ready 1 activatefail = destroy",
            "ready 0 testfail = destroy"
        ]
    );
    assert_legal(&pool);
}

fn what_comes_back_broken_is_destroyed<const HOOKS: bool>() {
    let (pool, maker, _) = pool_with::<HOOKS>(|builder| builder.test_on_return(true));
    for name in of_hooks::<HOOKS>(&["validate", "passivate"]) {
        let widget = pool.get().unwrap();
        maker.fail(name);
        assert_eq!(Pooled::give_back(widget), Returned::Destroyed);
    }
    let wanted = of_hooks::<HOOKS>(&[
        "park 0 testfail = destroy",
        "park 1 passivatefail = destroy",
    ]);
    assert_eq!(failures_of(&pool), wanted);
    assert_eq!(maker.dropped(), [0, 1][..wanted.len()]);
    assert_eq!(pool.counts().destroyed, wanted.len() as u64);
    assert_legal(&pool);
}

fn no_more_are_idle_than_may_be<const HOOKS: bool>() {
    let (pool, maker, _) = pool_with::<HOOKS>(|builder| builder.max_idle(1));
    let (first, second) = (pool.get().unwrap(), pool.get().unwrap());
    assert_eq!(Pooled::give_back(first), Returned::Parked);
    maker.calls();
    assert_eq!(Pooled::give_back(second), Returned::Destroyed);
    assert_eq!(
        maker.calls(),
        of_hooks::<HOOKS>(&["passivate 1", "destroy 1"])
    );
    assert_eq!(maker.dropped(), [1]);
    assert_legal(&pool);
}

fn additions_and_fills_go_as_far_as_there_are_places<const HOOKS: bool>() {
    let (pool, ..) = pool_with::<HOOKS>(|builder| builder.max_total(3).min_idle(2));
    assert_eq!(pool.fill().unwrap(), 2);
    assert_eq!(pool.fill().unwrap(), 0);
    assert_eq!(pool.add().unwrap(), Addition::Idle);
    assert_eq!(pool.add().unwrap(), Addition::NoPlace);
    assert_eq!(pool.counts().idle, 3);
    assert_eq!(pool.close(), 3);
    assert_eq!(pool.add().unwrap_err(), Error::Closed);
    assert_eq!(pool.evict().unwrap_err(), Error::Closed);
    assert_eq!(pool.fill().unwrap(), 0);
    assert_legal(&pool);
}

fn an_eviction_destroys_what_is_idle_for_too_long_or_fails<const HOOKS: bool>() {
    let settings = |builder: Builder<Maker<HOOKS>>| {
        builder
            .min_evictable_idle(Duration::from_millis(50))
            .tests_per_eviction_run(-1)
            .test_while_idle(true)
    };
    let (pool, maker, clock) = pool_with::<HOOKS>(settings);
    pool.add().unwrap();
    clock.set(30);
    for _ in 0..3 {
        pool.add().unwrap();
    }
    clock.set(60);
    maker.fail("validate");
    maker.calls();
    let run = pool.evict().unwrap();
    assert_eq!((run.examined, run.destroyed), (4, 2));
    let wanted = [
        "destroy 0",
        "activate 1",
        "validate 1",
        "destroy 1",
        "activate 2",
        "validate 2",
        "passivate 2",
        "activate 3",
        "validate 3",
        "passivate 3",
    ];
    assert_eq!(maker.calls(), of_hooks::<HOOKS>(&wanted));
    assert_eq!(pool.counts().evicted, 2);
    assert_eq!(failures_of(&pool), ["tested 1 testfail = destroy"]);
    assert_legal(&pool);
}

#[test]
fn an_eviction_destroys_what_a_hook_fails_for() {
    let settings =
        |builder: Builder<Maker<true>>| builder.tests_per_eviction_run(-1).test_while_idle(true);
    let (pool, maker, _) = pool_with::<true>(settings);
    for _ in 0..3 {
        pool.add().unwrap();
    }
    for name in ["activate", "validate", "passivate"] {
        maker.fail(name);
    }
    maker.calls();
    let run = pool.evict().unwrap();
    assert_eq!((run.examined, run.destroyed), (3, 3));
    let wanted = [
        "activate 0",
        "destroy 0",
        "activate 1",
        "validate 1",
        "destroy 1",
        "activate 2",
        "validate 2",
        "passivate 2",
        "destroy 2",
    ];
    assert_eq!(maker.calls(), wanted);
    assert_eq!(pool.counts().evicted, 3);
    let wanted = [
        "tested 0 activatefail = destroy",
        "tested 1 testfail = destroy",
        "tested 2 passivatefail = destroy",
    ];
    assert_eq!(failures_of(&pool), wanted);
    assert_legal(&pool);
}

fn maintenance_evicts_and_reclaims_and_fills<const HOOKS: bool>() {
    let abandoned = Abandoned::new()
        .on_maintenance(true)
        .timeout(Duration::from_millis(100));
    let settings = |builder: Builder<Maker<HOOKS>>| {
        builder
            .min_idle(2)
            .min_evictable_idle(Duration::from_millis(50))
            .abandoned(abandoned)
    };
    let (pool, _, clock) = pool_with::<HOOKS>(settings);
    let _forgotten = pool.get().unwrap();
    pool.add().unwrap();
    clock.set(100);
    let done = pool.maintain().unwrap();
    assert_eq!(
        (
            done.eviction.examined,
            done.eviction.destroyed,
            done.reclaimed,
            done.filled
        ),
        (1, 1, 1, 2)
    );
    pool.close();
    assert_eq!(pool.maintain().unwrap_err(), Error::Closed);
    assert_legal(&pool);
}

fn a_clear_destroys_what_is_idle<const HOOKS: bool>() {
    let (pool, maker, _) = pool_with::<HOOKS>(|builder| builder);
    let held = pool.get().unwrap();
    pool.add().unwrap();
    pool.add().unwrap();
    assert_eq!(pool.clear().unwrap(), 2);
    assert_eq!(pool.clear().unwrap(), 0);
    assert_eq!(maker.dropped(), [1, 2]);
    drop(held);
    assert_eq!(pool.get().unwrap().id, 0);
    assert_legal(&pool);
}

fn a_closed_pool_lends_nothing_and_keeps_nothing<const HOOKS: bool>() {
    let (pool, maker, _) = pool_with::<HOOKS>(|builder| builder);
    let held = pool.get().unwrap();
    pool.add().unwrap();
    assert_eq!(pool.close(), 1);
    assert_eq!(pool.close(), 0);
    assert_eq!(pool.get().unwrap_err(), Error::Closed);
    assert_eq!(pool.try_get().unwrap_err(), Error::Closed);
    maker.calls();
    assert_eq!(Pooled::give_back(held), Returned::Destroyed);
    assert_eq!(
        maker.calls(),
        of_hooks::<HOOKS>(&["passivate 0", "destroy 0"])
    );
    assert_eq!(maker.dropped(), [1, 0]);
    assert_legal(&pool);
}

fn a_pool_that_nobody_has_is_closed<const HOOKS: bool>() {
    let (pool, maker, _) = pool_with::<HOOKS>(|builder| builder);
    let other = pool.clone();
    let held = pool.get().unwrap();
    pool.add().unwrap();
    drop(pool);
    other.add().unwrap();
    drop(other);
    assert_eq!(held.id, 0);
    assert!(maker.dropped().is_empty());
    maker.calls();
    drop(held);
    assert_eq!(
        maker.calls(),
        of_hooks::<HOOKS>(&["passivate 0", "destroy 1", "destroy 2", "destroy 0"])
    );
    assert_eq!(maker.dropped(), [1, 2, 0]);
}

fn an_object_goes_back_from_any_thread<const HOOKS: bool>() {
    let (pool, ..) = pool_with::<HOOKS>(|builder| builder.max_total(1));
    let (hand, take) = mpsc::channel();
    let other = thread::spawn(move || {
        let widget: Pooled<Maker<HOOKS>> = take.recv().unwrap();
        Pooled::give_back(widget)
    });
    hand.send(pool.get().unwrap()).unwrap();
    assert_eq!(other.join().unwrap(), Returned::Parked);
    assert_eq!(pool.try_get().unwrap().id, 0);
    assert_legal(&pool);
}

fn what_a_panicking_thread_holds_is_destroyed<const HOOKS: bool>() {
    let (pool, maker, _) = pool_with::<HOOKS>(|builder| builder);
    let widget = pool.get().unwrap();
    maker.calls();
    assert!(panics(move || {
        let _held = widget;
        panic!("the holder panics");
    }));
    assert_eq!(maker.calls(), of_hooks::<HOOKS>(&["destroy 0"]));
    assert_eq!(
        steps_of(&pool)[2..],
        ["invalidate 0 = destroy", "destroyed 0 = freed"]
    );
    assert_legal(&pool);
}

fn a_manager_that_panics_costs_its_object_only<const HOOKS: bool>() {
    for name in of_hooks::<HOOKS>(&["make", "validate", "activate", "passivate", "destroy"]) {
        let (pool, maker, _) = pool_with::<HOOKS>(|builder| all_tests(builder).max_total(1));
        maker.panic(name);
        match name {
            "passivate" => {
                let widget = pool.get().unwrap();
                assert!(panics(|| drop(widget)));
            }
            "destroy" => {
                pool.add().unwrap();
                assert!(panics(|| pool.clear()));
            }
            _ => assert!(panics(|| pool.get())),
        }
        let dropped = maker.dropped();
        assert_eq!(dropped.len(), usize::from(name != "make"), "{name}");
        let counts = pool.counts();
        assert_eq!(
            (counts.idle, counts.lent, counts.reserved),
            (0, 0, 0),
            "{name}"
        );
        assert_eq!(pool.try_get().unwrap().id, 1, "{name}");
        assert_legal(&pool);
    }
    for name in of_hooks::<HOOKS>(&["make", "validate", "passivate"]) {
        let (pool, maker, _) = pool_with::<HOOKS>(|builder| all_tests(builder).max_total(1));
        maker.panic(name);
        assert!(panics(|| pool.add()));
        assert_eq!(pool.add().unwrap(), Addition::Idle, "{name}");
        assert_legal(&pool);
    }
    for name in of_hooks::<HOOKS>(&["activate", "validate", "passivate"]) {
        let (pool, maker, _) =
            pool_with::<HOOKS>(|builder| builder.test_while_idle(true).max_total(1));
        pool.add().unwrap();
        maker.panic(name);
        assert!(panics(|| pool.evict()));
        assert_eq!(maker.dropped(), [0]);
        assert_eq!(pool.add().unwrap(), Addition::Idle, "{name}");
        assert_legal(&pool);
    }
}

fn a_full_journal_takes_back_and_closes<const HOOKS: bool>() {
    let (pool, maker, _) = pool_with::<HOOKS>(|builder| builder.max_total(1).journal_limit(12));
    let held = pool.get().unwrap();
    fill_journal(&pool);
    assert_eq!(pool.get().unwrap_err(), Error::JournalFull);
    assert_eq!(pool.add().unwrap_err(), Error::JournalFull);
    assert_eq!(pool.fill().unwrap_err(), Error::JournalFull);
    assert_eq!(pool.evict().unwrap_err(), Error::JournalFull);
    assert_eq!(pool.clear().unwrap_err(), Error::JournalFull);
    assert_eq!(pool.reclaim().unwrap_err(), Error::JournalFull);
    assert_eq!(Pooled::touch(&held).unwrap_err(), Error::JournalFull);
    assert_eq!(Pooled::give_back(held), Returned::Parked);
    assert_eq!(pool.close(), 1);
    assert_eq!(pool.close(), 0);
    assert_eq!(maker.dropped(), [0]);
    assert!(journal_of(&pool).lines().count() <= 12);
    assert_legal(&pool);
}

/// Makes entries that change nothing, until there is no room for more.
fn fill_journal<const HOOKS: bool>(pool: &Pool<Maker<HOOKS>>) {
    while pool.room() > 0 {
        assert_eq!(pool.reclaim(), Ok(0));
    }
}

/// Lets two threads wait, and then does something: what their borrows came to.
fn while_two_wait<const HOOKS: bool>(
    pool: &Pool<Maker<HOOKS>>,
    act: impl FnOnce(),
) -> [Result<u64, Error<Broken>>; 2] {
    thread::scope(|scope| {
        let wait = || scope.spawn(|| pool.get().map(|widget| widget.id));
        let waiting = [wait(), wait()];
        wait_for_waits(pool, 2);
        act();
        waiting.map(|waiter| waiter.join().unwrap())
    })
}

fn all_who_wait_hear_of_a_close<const HOOKS: bool>() {
    let (pool, ..) = pool_with::<HOOKS>(|builder| builder.max_total(1));
    let held = pool.get().unwrap();
    let came = while_two_wait(&pool, || assert_eq!(pool.close(), 0));
    assert_eq!(came, [Err(Error::Closed), Err(Error::Closed)]);
    assert_eq!(Pooled::give_back(held), Returned::Destroyed);
    assert_legal(&pool);
}

fn all_who_wait_hear_of_a_full_journal<const HOOKS: bool>() {
    let (pool, ..) = pool_with::<HOOKS>(|builder| builder.max_total(1).journal_limit(12));
    let held = pool.get().unwrap();
    let came = while_two_wait(&pool, || {
        fill_journal(&pool);
        drop(held);
    });
    assert_eq!(came, [Err(Error::JournalFull), Err(Error::JournalFull)]);
    assert_legal(&pool);
}

fn who_is_woken_for_nothing_makes_no_entry<const HOOKS: bool>() {
    let (pool, ..) = pool_with::<HOOKS>(|builder| builder.max_total(1));
    let held = pool.get().unwrap();
    assert_eq!(while_two_wait(&pool, || drop(held)), [Ok(0), Ok(0)]);
    let journal = journal_of(&pool);
    assert_eq!(
        journal
            .lines()
            .filter(|line| line.ends_with("wait"))
            .count(),
        2
    );
    assert_legal(&pool);
}

fn a_drain_goes_on_where_the_last_ended<const HOOKS: bool>() {
    let (pool, ..) = pool_with::<HOOKS>(|builder| builder);
    let mut text = Vec::new();
    assert_eq!(pool.drain_journal(&mut text).unwrap(), 0);
    drop(pool.get().unwrap());
    assert_eq!(pool.drain_journal(&mut text).unwrap(), 4);
    assert_eq!(pool.drain_journal(&mut text).unwrap(), 0);
    for _ in 0..300 {
        drop(pool.get().unwrap());
    }
    assert_eq!(pool.drain_journal(&mut text).unwrap(), 1_200);
    assert_eq!(String::from_utf8(text).unwrap(), journal_of(&pool));
}

/// Takes so many bytes.
struct Narrow(usize, Vec<u8>);
impl std::io::Write for Narrow {
    fn write(&mut self, bytes: &[u8]) -> std::io::Result<usize> {
        if self.1.len() + bytes.len() > self.0 {
            return Err(std::io::ErrorKind::WriteZero.into());
        }
        self.1.extend_from_slice(bytes);
        Ok(bytes.len())
    }
    fn flush(&mut self) -> std::io::Result<()> {
        Ok(())
    }
}

fn a_drain_that_fails_loses_nothing<const HOOKS: bool>() {
    let (pool, ..) = pool_with::<HOOKS>(|builder| builder);
    for _ in 0..200 {
        drop(pool.get().unwrap());
    }
    let journal = journal_of(&pool);
    let mut narrow = Narrow(journal.len() / 2, Vec::new());
    assert!(pool.drain_journal(&mut narrow).is_err());
    assert!(!narrow.1.is_empty());
    pool.drain_journal(&mut narrow.1).unwrap();
    assert_eq!(String::from_utf8(narrow.1).unwrap(), journal);
}

fn a_pool_whose_journal_is_cut_lends_on<const HOOKS: bool>() {
    let (pool, maker, _) = pool_with::<HOOKS>(|builder| builder.max_total(1).journal_limit(12));
    drop(pool.get().unwrap());
    let mut segments = vec![cut_off(&pool)];
    let room = pool.room();
    for _ in 1..20 {
        let refused = std::iter::repeat_with(|| pool.get().map(drop)).find_map(Result::err);
        assert_eq!(refused, Some(Error::JournalFull));
        let before = pool.counts();
        segments.push(cut_off(&pool));
        assert_eq!((pool.counts(), pool.room()), (before, room));
    }
    let held = pool.get().unwrap();
    segments.push(cut_off(&pool));
    assert!(segments[20].contains("0 idle "), "{}", segments[20]);
    drop(held);
    pool.close();
    segments.push(cut_off(&pool));
    assert!(segments[21].contains("0 lent "), "{}", segments[21]);
    segments.push(journal_of(&pool));
    assert!(segments[22].starts_with("pool-journal 2 "));
    assert!(segments[22].contains(" closed "), "{}", segments[22]);
    assert_segments_legal(&pool, &segments);
    assert_eq!(maker.dropped(), [0]);
}

fn a_cut_that_fails_loses_nothing<const HOOKS: bool>() {
    /// Takes all, and fails at the end.
    struct Lossy(Vec<u8>);
    impl std::io::Write for Lossy {
        fn write(&mut self, bytes: &[u8]) -> std::io::Result<usize> {
            self.0.write(bytes)
        }
        fn flush(&mut self) -> std::io::Result<()> {
            Err(std::io::ErrorKind::BrokenPipe.into())
        }
    }
    let (pool, ..) = pool_with::<HOOKS>(|builder| builder);
    let first = cut_off(&pool);
    for _ in 0..200 {
        drop(pool.get().unwrap());
    }
    let (journal, counts) = (journal_of(&pool), pool.counts());
    for room in [0, 10, journal.len() / 2, journal.len() - 1] {
        assert!(pool.cut(&mut Narrow(room, Vec::new())).is_err());
        assert!(pool.cut(&mut Lossy(Vec::new())).is_err());
        assert_eq!(
            (journal_of(&pool), pool.counts()),
            (journal.clone(), counts)
        );
    }
    drop(pool.get().unwrap());
    let segments = [first, cut_off(&pool), journal_of(&pool)];
    assert_eq!(entries_of(&segments[1]).count(), 804);
    assert_segments_legal(&pool, &segments);
}

fn a_drain_goes_on_behind_a_cut<const HOOKS: bool>() {
    let (pool, ..) = pool_with::<HOOKS>(|builder| builder);
    let mut drained = Vec::new();
    drop(pool.get().unwrap());
    assert_eq!(pool.drain_journal(&mut drained).unwrap(), 4);
    drop(pool.get().unwrap());
    let segment = cut_off(&pool);
    assert_eq!(entries_of(&segment).count(), 8);
    assert_eq!(pool.drain_journal(&mut drained).unwrap(), 0);
    drop(pool.get().unwrap());
    assert_eq!(pool.drain_journal(&mut drained).unwrap(), 4);
    let last = journal_of(&pool);
    let written: Vec<_> = entries_of(&segment)
        .take(4)
        .chain(entries_of(&last))
        .collect();
    assert_eq!(
        String::from_utf8(drained)
            .unwrap()
            .lines()
            .collect::<Vec<_>>(),
        written
    );
    assert_segments_legal(&pool, &[segment, last]);
}

fn segments_of_four_threads_are_one_journal<const HOOKS: bool>() {
    const ROUNDS: u64 = 2_000;
    let (pool, ..) = pool_with::<HOOKS>(|builder| builder.max_total(2).journal_limit(400));
    let segments = Mutex::new(Vec::new());
    let cut = || {
        let mut segments = segments.lock().unwrap();
        segments.push(cut_off(&pool));
    };
    let borrow = || {
        for _ in 0..ROUNDS {
            while let Err(error) = pool.get().map(drop) {
                assert_eq!(error, Error::JournalFull);
                cut();
            }
            if pool.room() < 200 {
                cut();
            }
        }
    };
    thread::scope(|scope| {
        for _ in 0..4 {
            scope.spawn(borrow);
        }
    });
    let counts = pool.counts();
    assert_eq!((counts.lent, counts.reserved), (0, 0));
    assert!(counts.steps >= 4 * 4 * ROUNDS);
    let mut segments = segments.into_inner().unwrap();
    segments.push(journal_of(&pool));
    assert!(segments.len() > 80, "{} segments", segments.len());
    assert_segments_legal(&pool, &segments);
}

fn what_is_written_while_others_cut_is_whole<const HOOKS: bool>() {
    const TIMES: u64 = 50;
    let (pool, ..) = pool_with::<HOOKS>(|builder| builder.max_total(2).journal_limit(20_000));
    let (cuts, copied, is_over) = (AtomicU64::new(0), AtomicU64::new(0), AtomicU64::new(0));
    let goes_on = || is_over.load(Ordering::SeqCst) == 0;
    let is_enough = || {
        cuts.load(Ordering::SeqCst)
            .min(copied.load(Ordering::SeqCst))
            >= TIMES
    };
    let (mut segments, mut copies, mut drained) = (Vec::new(), Vec::new(), Vec::new());
    thread::scope(|scope| {
        let lending = || {
            for round in 0.. {
                if is_enough() && round >= 1_000 {
                    break;
                }
                if pool.get().map(drop).is_err() {
                    thread::yield_now();
                }
            }
        };
        let borrowers = [scope.spawn(lending), scope.spawn(lending)];
        scope.spawn(|| {
            while goes_on() {
                if pool.room() < 19_000 {
                    segments.push(cut_off(&pool));
                    cuts.fetch_add(1, Ordering::SeqCst);
                }
            }
        });
        scope.spawn(|| {
            while goes_on() {
                copies.push(journal_of(&pool));
                copied.fetch_add(1, Ordering::SeqCst);
            }
        });
        scope.spawn(|| {
            while goes_on() {
                pool.drain_journal(&mut drained).unwrap();
            }
        });
        let lent = borrowers.map(|borrower| borrower.join());
        is_over.store(1, Ordering::SeqCst);
        lent.into_iter().for_each(|lent| lent.unwrap());
    });
    segments.push(cut_off(&pool));
    assert_segments_legal(&pool, &segments);
    let entries: Vec<_> = segments.iter().flat_map(|it| entries_of(it)).collect();
    for copy in &copies {
        let head = copy.lines().next();
        let is_whole = match head.filter(|line| line.starts_with("pool-journal 2 ")) {
            Some(_) => segments.iter().any(|segment| segment.starts_with(copy)),
            None => copy
                .lines()
                .eq(entries[..copy.lines().count()].iter().copied()),
        };
        assert!(is_whole, "{copy}");
    }
    // What was drained stands in the journal in its order, each entry once.
    let mut rest = entries.iter();
    let drained = String::from_utf8(drained).unwrap();
    assert!(drained.lines().all(|line| rest.any(|entry| *entry == line)));
}

fn errors_say_what_happened<const HOOKS: bool>() {
    let error = Error::Make(Broken("it"));
    assert_eq!(error.to_string(), "an object could not be made");
    assert_eq!(
        std::error::Error::source(&error).unwrap().to_string(),
        "it is broken"
    );
    assert_eq!(error.into_manager_error(), Some(Broken("it")));
    assert_eq!(Error::<Broken>::Closed.to_string(), "the pool is closed");
    let unknown = OpenError::from(SettingsError::UnknownKey("a\nb".to_owned()));
    assert_eq!(unknown.to_string(), "settings: unknown key a\\nb");
}
