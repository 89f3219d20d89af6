//! How long borrows wait.

mod common;

use common::managers::{kept, Clock, Numbers};
use common::tasks::{poll, ready, Bell, LONGEST};
use common::{assert_legal, in_time, steps_of};
use std::convert::Infallible;
use std::future::{pending, poll_fn, Future};
use std::sync::atomic::{AtomicBool, AtomicU64, Ordering};
use std::sync::Arc;
use std::task::Poll;
use std::thread;
use std::time::Duration;
use zuphinka::{Async, AsyncManager, Builder, Error, Manager, Pool, Pooled};

/// A pool of one object.
fn pool(change: impl FnOnce(Builder<Numbers<false>>) -> Builder<Numbers<false>>) -> Numbered {
    change(kept().max_total(1)).build(Numbers).unwrap()
}

type Numbered = Pool<Numbers<false>>;

/// What a call comes to that waits until an object is returned, after some time.
fn while_lent<R: Send>(pool: &Numbered, call: impl FnOnce() -> R + Send) -> R {
    let held = pool.get().unwrap();
    thread::scope(|scope| {
        let waiting = scope.spawn(call);
        while pool.waiting() == 0 && !waiting.is_finished() {
            thread::yield_now();
        }
        thread::sleep(Duration::from_millis(30));
        drop(held);
        waiting.join().unwrap()
    })
}

/// Whether a borrow timed out.
fn is_late<M: Manager>(came: Result<Pooled<M>, Error<M::Error>>) -> bool {
    matches!(came, Err(Error::TimedOut(_)))
}

#[test]
fn a_borrow_whose_time_is_over_does_not_queue() {
    let pool = pool(|builder| builder.fair(true));
    let bells = [(); 2].map(|()| Bell::new());
    let held = pool.get().unwrap();
    let (mut first, mut second) = (pool.get_async(), pool.get_async());
    assert!(poll(&mut first, &bells[0]).is_pending());
    drop(held);
    pool.reconfigure("maxTotal = 1\nmaxWaitMillis = 0\n")
        .unwrap();
    // The object is idle, and is for the one that was woken.
    let steps = steps_of(&pool).len();
    assert!(is_late(ready(poll(&mut second, &bells[1]))));
    assert!(is_late(pool.get()));
    assert_eq!(steps_of(&pool).len(), steps);
    assert!(ready(poll(&mut first, &bells[0])).is_ok());
}

/// A clock that returns one time once, and another one from then on.
fn once(first: u64, then: u64) -> impl Fn() -> u64 {
    let next = AtomicU64::new(first);
    move || next.swap(then, Ordering::SeqCst)
}

#[test]
fn a_clock_that_is_set_back_makes_no_wait_longer() {
    for (first, then) in [(0, 0), (1_000_000, 0), (u64::MAX, 5)] {
        let most = Duration::from_millis(20);
        let pool = pool(|builder| builder.max_wait(most).clock(once(first, then)));
        let held = pool.get().unwrap();
        let mut get = pool.get_async();
        assert!(poll(&mut get, &Bell::new()).is_pending());
        let handle = pool.clone();
        assert!(in_time(move || is_late(handle.get())));
        // A task that began before it is over by now, too.
        assert!(is_late(ready(poll(&mut get, &Bell::new()))));
        drop(held);
        assert!(pool.try_get().is_ok());
        assert_legal(&pool);
    }
}

#[test]
fn a_wait_is_over_by_the_clock_of_the_pool() {
    let clock = Clock::default();
    let pool = pool(|builder| builder.max_wait(LONGEST).clock(clock.told()));
    let held = pool.get().unwrap();
    let (mut get, bell) = (pool.get_async(), Bell::new());
    assert!(poll(&mut get, &bell).is_pending());
    clock.set(19_999);
    assert!(poll(&mut get, &bell).is_pending());
    clock.set(20_000);
    assert!(is_late(ready(poll(&mut get, &bell))));
    drop(held);
    assert_legal(&pool);
}

#[test]
fn a_timeout_stands_in_place_of_the_setting() {
    for most in [0, 1] {
        for timeout in [LONGEST, Duration::MAX] {
            let pool = pool(|builder| builder.max_wait(Duration::from_millis(most)));
            let handle = pool.clone();
            let came = while_lent(&pool, move || handle.get_timeout(timeout).map(drop));
            assert_eq!(came, Ok(()), "{timeout:?}");
            assert_legal(&pool);
        }
    }
    let pool = pool(|builder| builder.max_wait(None));
    let held = pool.get().unwrap();
    for millis in [0, 5] {
        assert!(is_late(pool.get_timeout(Duration::from_millis(millis))));
    }
    drop(held);
    assert!(pool.get_timeout(Duration::ZERO).is_ok());
}

#[test]
fn no_timeout_makes_a_borrow_wait_where_none_does() {
    let pool = pool(|builder| builder.block_when_exhausted(false));
    let _held = pool.get().unwrap();
    assert_eq!(pool.get_timeout(LONGEST).err(), Some(Error::Exhausted));
}

/// A limit that is ready once it is set.
fn limit(is_over: &Arc<AtomicBool>) -> impl Future<Output = ()> {
    let is_over = Arc::clone(is_over);
    poll_fn(move |_| match is_over.load(Ordering::SeqCst) {
        true => Poll::Ready(()),
        false => Poll::Pending,
    })
}

/// Makes one number, and never another.
struct Awaited;

impl AsyncManager for Awaited {
    type Object = u64;
    type Error = Infallible;

    async fn make(&self, id: u64) -> Result<u64, Infallible> {
        match id {
            0 => Ok(id),
            _ => pending().await,
        }
    }
}

/// Sees that a borrow ends once its limit is ready, and not sooner, and is counted then.
fn assert_bounded<M: Manager<Object = u64, Error = Infallible> + 'static>(pool: &Pool<M>) {
    let is_over = Arc::new(AtomicBool::new(false));
    let mut get = Box::pin(pool.get_async_until(limit(&is_over)));
    assert!(poll(&mut get, &Bell::new()).is_pending());
    // The time of the settings ends no such borrow.
    thread::sleep(Duration::from_millis(5));
    assert!(poll(&mut get, &Bell::new()).is_pending());
    is_over.store(true, Ordering::SeqCst);
    match ready(poll(&mut get, &Bell::new())) {
        Err(Error::TimedOut(timeout)) => {
            assert_eq!((timeout.limit, timeout.for_sink), (None, false))
        }
        came => panic!("{:?}", came.map(drop)),
    }
    let counted = "\nzuphinka_timeouts_total{pool=\"n\"} 1\n";
    assert!(pool.metrics("n").to_string().contains(counted));
    assert_eq!((pool.waiting(), pool.counts().reserved), (0, 0));
}

#[test]
fn a_task_waits_until_a_limit_of_its_own() {
    let pool = pool(|builder| builder.max_wait(Duration::from_millis(1)));
    let held = pool.get().unwrap();
    assert_bounded(&pool);
    drop(held);
    // What is there is lent, whatever the limit says.
    assert!(ready(poll(
        &mut Box::pin(pool.get_async_until(async {})),
        &Bell::new()
    ))
    .is_ok());
    assert_legal(&pool);
    let builder = kept().max_wait(Duration::from_millis(1));
    let pool = builder.build(Async(Awaited)).unwrap();
    let _held = pool.get().unwrap();
    assert_bounded(&pool);
    assert_legal(&pool);
}
