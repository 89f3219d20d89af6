//! Borrows under the runtime tokio: its timeouts, its aborted tasks, its timers in a manager, and its threads.

#[path = "../../bindings/rust/tests/common/mod.rs"]
mod common;

use common::assert_legal;
use common::tasks::LONGEST;
use std::future::Future;
use std::sync::atomic::{AtomicBool, AtomicU64, Ordering};
use std::sync::Arc;
use std::time::Duration;
use tokio::runtime;
use tokio::task::spawn_blocking;
use tokio::time::{sleep, timeout};
use zuphinka::{Async, AsyncManager, Builder, Error, Journal, Pool};

const SHORT: Duration = Duration::from_millis(20);
const FOR_EVER: Duration = Duration::from_secs(3_600);

/// A session with one user.
#[derive(Default)]
struct Session {
    has_user: AtomicBool,
}

/// Each of its calls takes a time of the runtime's.
#[derive(Clone, Default)]
struct Sessions(Arc<Times>);

/// Times in microseconds, and the number of sessions that were destroyed.
#[derive(Default)]
struct Times {
    make: AtomicU64,
    activate: AtomicU64,
    validate: AtomicU64,
    destroyed: AtomicU64,
}

async fn take(time: &AtomicU64) {
    let time = time.load(Ordering::SeqCst);
    if time > 0 {
        sleep(Duration::from_micros(time)).await;
    }
}

fn set(time: &AtomicU64, duration: Duration) {
    time.store(duration.as_micros() as u64, Ordering::SeqCst);
}

impl AsyncManager for Sessions {
    type Object = Session;
    type Error = std::convert::Infallible;

    async fn make(&self, _id: u64) -> Result<Session, Self::Error> {
        take(&self.0.make).await;
        Ok(Session::default())
    }

    async fn activate(&self, _session: &mut Session) -> Result<(), Self::Error> {
        take(&self.0.activate).await;
        Ok(())
    }

    async fn validate(&self, _session: &mut Session) -> bool {
        take(&self.0.validate).await;
        true
    }

    fn destroy(&self, session: Session) {
        drop(session);
        self.0.destroyed.fetch_add(1, Ordering::SeqCst);
    }
}

type Sessioned = Pool<Async<Sessions>>;

fn pool_of(
    objects: u32,
    change: impl FnOnce(Builder<Async<Sessions>>) -> Builder<Async<Sessions>>,
) -> (Sessioned, Sessions) {
    let sessions = Sessions::default();
    let builder = Pool::builder().journal(Journal::Memory(None));
    let builder = change(builder.max_total(objects));
    (builder.build(Async(sessions.clone())).unwrap(), sessions)
}

/// Runs a future on a runtime with one thread.
fn run<F: Future>(future: F) -> F::Output {
    let runtime = runtime::Builder::new_current_thread().enable_time().build();
    runtime.unwrap().block_on(future)
}

/// Runs a future on a runtime with four threads.
fn run_on_four<F: Future>(future: F) -> F::Output {
    let mut builder = runtime::Builder::new_multi_thread();
    let runtime = builder.worker_threads(4).enable_time().build();
    runtime.unwrap().block_on(future)
}

#[test]
fn a_timeout_bounds_a_wait_and_loses_nothing() {
    let (pool, _) = pool_of(1, |builder| builder);
    run(async {
        let held = pool.get_async().await.unwrap();
        assert!(timeout(SHORT, pool.get_async()).await.is_err());
        drop(held);
        let next = timeout(LONGEST, pool.get_async()).await;
        drop(next.unwrap().unwrap());
    });
    assert_eq!(pool.counts().lent, 0);
    assert_legal(&pool);
}

#[test]
fn a_timer_is_the_limit_of_a_borrow() {
    let (pool, _) = pool_of(1, |builder| builder.max_wait(Duration::from_millis(1)));
    run(async {
        let held = pool.get_async().await.unwrap();
        let late = tokio::spawn(pool.get_async_until(sleep(SHORT)));
        assert!(matches!(late.await.unwrap(), Err(Error::TimedOut(_))));
        let in_time = tokio::spawn(pool.get_async_until(sleep(LONGEST)));
        sleep(SHORT).await;
        drop(held);
        assert!(in_time.await.unwrap().is_ok());
    });
    assert_eq!(pool.counts().lent, 0);
    assert_legal(&pool);
}

#[test]
fn a_timeout_in_a_call_of_the_manager_pays_for_the_object() {
    let (pool, sessions) = pool_of(1, |builder| builder.test_on_borrow(true));
    let times = &sessions.0;
    run(async {
        for (slow, was_made) in [(&times.make, 0), (&times.activate, 1), (&times.validate, 1)] {
            set(slow, FOR_EVER);
            assert!(timeout(SHORT, pool.get_async()).await.is_err());
            set(slow, Duration::ZERO);
            assert_eq!(times.destroyed.swap(0, Ordering::SeqCst), was_made);
            assert_eq!(pool.counts().reserved, 0);
        }
        drop(timeout(LONGEST, pool.get_async()).await.unwrap().unwrap());
    });
    let counts = pool.counts();
    assert_eq!((counts.created, counts.destroyed, counts.idle), (4, 3, 1));
    assert_legal(&pool);
}

#[test]
fn an_aborted_task_frees_what_it_had() {
    let (pool, sessions) = pool_of(2, |builder| builder);
    run_on_four(async {
        let held = pool.get_async().await.unwrap();
        set(&sessions.0.make, FOR_EVER);
        let start = || {
            let pool = pool.clone();
            tokio::spawn(async move { pool.get_async().await.map(drop) })
        };
        // One makes an object, and one waits.
        let tasks = [start(), start()];
        while pool.counts().reserved == 0 || !common::journal_of(&pool).contains("wait") {
            sleep(Duration::from_millis(1)).await;
        }
        for task in tasks {
            task.abort();
            assert!(task.await.unwrap_err().is_cancelled());
        }
        assert_eq!(pool.counts().reserved, 0);
        drop(held);
        drop(timeout(LONGEST, pool.get_async()).await.unwrap().unwrap());
    });
    assert_eq!(pool.counts().lent, 0);
    assert_legal(&pool);
}

const TASKS: u64 = 100;
const LOANS: u64 = 20;
const THREADS: u64 = 2;
/// Of this number of borrows one gives up early, at whatever it waits for.
const HASTY_OF: u64 = 5;

/// Uses a session, and lets other tasks run meanwhile.
async fn use_alone(session: &Session) {
    let had_user = session.has_user.swap(true, Ordering::SeqCst);
    assert!(!had_user, "it has two users");
    tokio::task::yield_now().await;
    session.has_user.store(false, Ordering::SeqCst);
}

/// Borrows again and again, and counts the loans of borrows that are not hasty.
async fn borrow_often(pool: Sessioned, number: u64, loans: Arc<AtomicU64>) {
    for loan in 0..LOANS {
        let is_hasty = (number + loan) % HASTY_OF == 0;
        let longest = match is_hasty {
            true => Duration::from_micros(100 * loan),
            false => LONGEST,
        };
        match timeout(longest, pool.get_async()).await {
            Ok(session) => {
                use_alone(&session.unwrap()).await;
                loans.fetch_add(u64::from(!is_hasty), Ordering::SeqCst);
            }
            Err(_) => assert!(is_hasty, "nobody wakes the task"),
        }
    }
}

/// The same on a thread, without haste.
fn borrow_on_thread(pool: &Sessioned, loans: &AtomicU64) {
    for _ in 0..LOANS {
        drop(pool.get_timeout(LONGEST).unwrap());
        loans.fetch_add(1, Ordering::SeqCst);
    }
}

#[test]
fn tasks_and_threads_of_the_runtime_share_a_pool() {
    let (pool, sessions) = pool_of(3, |builder| builder.test_on_borrow(true));
    set(&sessions.0.validate, Duration::from_micros(50));
    let loans = Arc::new(AtomicU64::new(0));
    run_on_four(async {
        let task = |number| tokio::spawn(borrow_often(pool.clone(), number, Arc::clone(&loans)));
        let thread = |_| {
            let (pool, loans) = (pool.clone(), Arc::clone(&loans));
            spawn_blocking(move || borrow_on_thread(&pool, &loans))
        };
        let tasks: Vec<_> = (0..TASKS)
            .map(task)
            .chain((0..THREADS).map(thread))
            .collect();
        for task in tasks {
            task.await.unwrap();
        }
    });
    let of_tasks = TASKS * LOANS * (HASTY_OF - 1) / HASTY_OF;
    assert_eq!(loans.load(Ordering::SeqCst), of_tasks + THREADS * LOANS);
    let counts = pool.counts();
    assert_eq!((counts.lent, counts.reserved), (0, 0));
    assert_eq!(counts.idle + counts.destroyed, counts.created);
    assert_legal(&pool);
}

#[test]
fn a_thread_of_the_runtime_maintains_a_pool() {
    let (pool, sessions) = pool_of(4, |builder| builder.min_idle(2).test_while_idle(true));
    for time in [&sessions.0.make, &sessions.0.activate, &sessions.0.validate] {
        set(time, Duration::from_millis(1));
    }
    run_on_four(async {
        for examined in [0, 2] {
            let pool = pool.clone();
            let maintained = spawn_blocking(move || pool.maintain()).await.unwrap();
            assert_eq!(maintained.unwrap().eviction.examined, examined);
        }
    });
    assert_eq!(pool.counts().idle, 2);
    assert_legal(&pool);
}
