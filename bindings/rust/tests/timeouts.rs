//! What a borrow tells that has waited for too long.

mod common;

use common::managers::{kept, Clock, Numbers};
use common::tasks::{poll, ready, Bell};
use std::convert::Infallible;
use std::time::Duration;
use zuphinka::{Builder, Error, Pool, Pooled, Timeout};

/// A pool of two objects, and its clock.
fn pool(
    change: fn(Builder<Numbers<true>>) -> Builder<Numbers<true>>,
) -> (Pool<Numbers<true>>, Clock) {
    let clock = Clock::default();
    let builder = kept()
        .max_total(2)
        .max_wait(Duration::from_secs(30))
        .clock(clock.told());
    (change(builder).build(Numbers).unwrap(), clock)
}

fn timeout_of(lent: Result<Pooled<Numbers<true>>, Error<Infallible>>) -> Timeout {
    match lent {
        Err(Error::TimedOut(timeout)) => timeout,
        other => panic!("{other:?}"),
    }
}

#[test]
fn a_timeout_tells_of_the_pool_and_the_wait() {
    let (pool, clock) = pool(|builder| builder.name("orders \"new\""));
    assert_eq!(pool.name(), Some("orders \"new\""));
    let _held = [pool.get().unwrap(), pool.get().unwrap()];
    let bell = Bell::new();
    let (mut late, mut other) = (pool.get_async(), pool.get_async());
    assert!(poll(&mut late, &bell).is_pending());
    clock.set(5);
    assert!(poll(&mut other, &bell).is_pending());
    clock.set(30_001);
    let timeout = timeout_of(ready(poll(&mut late, &bell)));
    assert_eq!(timeout.pool.as_deref(), pool.name());
    assert_eq!(timeout.limit, Some(Duration::from_secs(30)));
    assert_eq!(timeout.waited, Duration::from_millis(30_001));
    assert_eq!((timeout.lent, timeout.idle, timeout.waiting), (2, 0, 1));
    assert_eq!((timeout.max_total, timeout.for_sink), (Some(2), false));
    assert_eq!(
        Error::<Infallible>::TimedOut(timeout).to_string(),
        "timed out waiting for an object of the pool \"orders \\\"new\\\"\" after 30.001s (limit 30s): \
         2 lent, 0 idle, 1 waiting, max_total 2"
    );
}

#[test]
fn a_timeout_has_the_limit_of_its_call() {
    let (pool, _) = pool(|builder| builder);
    assert_eq!(pool.name(), None);
    let _held = [pool.get().unwrap(), pool.get().unwrap()];
    let short = Duration::from_millis(3);
    let timeout = timeout_of(pool.get_timeout(short));
    assert_eq!(
        (timeout.pool.as_deref(), timeout.limit),
        (None, Some(short))
    );
    let text = timeout.to_string();
    let shown = "timed out waiting for an object of the pool after 0ns (limit 3ms): 2 lent, ";
    assert!(text.starts_with(shown), "{text}");
}
