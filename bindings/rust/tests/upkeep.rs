//! What a pool does of its own: it reports failures, ends objects for their age, and has itself maintained.

mod common;
#[path = "common/hooks.rs"]
#[macro_use]
mod hooks;

use common::managers::{pool_with, Broken, Maker};
use common::tasks::{block_on, LONGEST};
use common::{
    assert_legal, in_time, panic_quietly, steps_of, texts_of, times_of, when_due, MemorySink,
    Stored,
};
use std::convert::Infallible;
use std::error::Error as _;
use std::io;
use std::sync::atomic::{AtomicU64, Ordering};
use std::sync::{mpsc, Arc, Mutex};
use std::thread;
use std::time::{Duration, Instant};
use zuphinka::{
    Async, AsyncManager, Builder, Error, Failure, Journal, Manager, Pool, Pooled, Returned,
    Segment, SegmentSink, Touched,
};

with_and_without_hooks! {
    failures_that_no_call_returns_are_reported
    failures_that_a_call_returns_are_not_reported
    failures_of_sinks_are_reported
    a_detached_object_is_its_holders
    an_object_that_is_too_old_ends_at_its_return
    an_object_that_is_too_old_ends_while_it_is_idle
    maintenance_looks_at_the_age_of_each_idle_object
    an_object_of_a_lifetime_is_validated_only_if_that_is_set
    times_never_fall_where_ages_are_looked_at
    an_eviction_run_looks_at_an_age_once
    a_pool_is_maintained_until_it_is_closed
    the_last_handle_ends_the_maintenance
    the_last_handle_waits_for_no_round
    a_pool_is_closed_in_time
    the_last_handle_may_be_dropped_in_the_round
    a_pool_says_whether_it_is_closed
    debug_waits_for_no_lock
}

/// The texts of what was reported.
type Reports = Arc<Mutex<Vec<String>>>;

/// What was reported, and what receives it.
fn reports() -> (Reports, impl Fn(Failure<Broken>) + Send + Sync) {
    let reports = Arc::new(Mutex::new(Vec::new()));
    let received = Arc::clone(&reports);
    let on_error = move |failure: Failure<Broken>| {
        let text = match &failure {
            Failure::Activate { error, .. } | Failure::Passivate { error, .. } => {
                format!("{failure}: {error}")
            }
            Failure::Sink(error) => format!("{failure}: {}", error.kind()),
            Failure::Maintenance(error) => format!("{failure}: {error}"),
            _ => failure.to_string(),
        };
        received.lock().unwrap().push(text);
        panic_quietly();
    };
    (reports, on_error)
}

/// Has something of the manager fail in a call of a pool with one idle object.
type Failing<M> = fn(&Pool<M>, &dyn Fn());

fn borrow_idle<const HOOKS: bool>(pool: &Pool<Maker<HOOKS>>, fail: &dyn Fn()) {
    fail();
    assert_eq!(pool.get().unwrap().id, 1);
}

fn return_broken<const HOOKS: bool>(pool: &Pool<Maker<HOOKS>>, fail: &dyn Fn()) {
    let held = pool.get().unwrap();
    fail();
    assert_eq!(Pooled::give_back(held), Returned::Destroyed);
}

fn evict_broken<const HOOKS: bool>(pool: &Pool<Maker<HOOKS>>, fail: &dyn Fn()) {
    fail();
    assert_eq!(pool.evict().unwrap().destroyed, 1);
}

fn failures_that_no_call_returns_are_reported<const HOOKS: bool>() {
    let activation = "idle object 0 could not be activated: activate is broken";
    let (test, passivation) = (
        "object 0 did not pass its test",
        "object 0 could not be passivated: passivate is broken",
    );
    let cases: [(Failing<Maker<HOOKS>>, &'static str, &str); 7] = [
        (borrow_idle, "activate", activation),
        (borrow_idle, "validate", test),
        (return_broken, "validate", test),
        (return_broken, "passivate", passivation),
        (evict_broken, "activate", activation),
        (evict_broken, "validate", test),
        (evict_broken, "passivate", passivation),
    ];
    let has_call = |name: &str| HOOKS || name == "validate";
    for (act, name, wanted) in cases.into_iter().filter(|case| has_call(case.1)) {
        let (reports, on_error) = reports();
        let (pool, maker, _) = pool_with::<HOOKS>(|builder| {
            let builder = builder.test_on_borrow(true).test_on_return(true);
            builder.test_while_idle(true).on_error(on_error)
        });
        pool.add().unwrap();
        act(&pool, &|| maker.fail(name));
        assert_eq!(*reports.lock().unwrap(), [wanted]);
        assert_legal(&pool);
    }
}

/// What the next test comes to, if it does not pass.
#[derive(Clone, Default)]
struct Verdict(Arc<Mutex<Option<Result<bool, Broken>>>>);

impl Verdict {
    fn set(&self, verdict: Result<bool, Broken>) {
        *self.0.lock().unwrap() = Some(verdict);
    }

    fn take(&self) -> Result<bool, Broken> {
        self.0.lock().unwrap().take().unwrap_or(Ok(true))
    }
}

/// Makes numbers, of which some do not pass their test.
struct Tested(Verdict);

impl Manager for Tested {
    type Object = u64;
    type Error = Broken;

    fn make(&self, id: u64) -> Result<u64, Broken> {
        Ok(id)
    }

    fn try_validate(&self, _: &mut u64) -> Result<bool, Broken> {
        self.0.take()
    }
}

impl AsyncManager for Tested {
    type Object = u64;
    type Error = Broken;

    async fn make(&self, id: u64) -> Result<u64, Broken> {
        Ok(id)
    }

    async fn try_validate(&self, _: &mut u64) -> Result<bool, Broken> {
        self.0.take()
    }
}

/// Calls of a pool with one idle object, in each of which its test fails.
fn failing_calls<M>() -> [Failing<M>; 4]
where
    M: Manager<Object = u64, Error = Broken> + 'static,
{
    [
        |pool, fail| {
            fail();
            assert_eq!(*pool.get().unwrap(), 1);
        },
        |pool, fail| {
            fail();
            assert_eq!(*block_on(pool.get_async()).unwrap(), 1);
        },
        |pool, fail| {
            let held = pool.get().unwrap();
            fail();
            assert_eq!(Pooled::give_back(held), Returned::Destroyed);
        },
        |pool, fail| {
            fail();
            assert_eq!(pool.evict().unwrap().destroyed, 1);
        },
    ]
}

/// Sees that each of these calls reports a failed test, with its reason if there is one.
fn reports_have_reasons<M>(manager_of: impl Fn(Verdict) -> M)
where
    M: Manager<Object = u64, Error = Broken> + 'static,
{
    let told = Broken("its cable");
    for call in failing_calls() {
        for (verdict, wanted) in [(Ok(false), None), (Err(told), Some(told))] {
            let (sender, receiver) = mpsc::channel();
            let on_error = move |failure: Failure<Broken>| {
                let source = failure.source().map(ToString::to_string);
                assert_eq!(failure.to_string(), "object 0 did not pass its test");
                sender.send((failure, source)).unwrap();
            };
            let next = Verdict::default();
            let builder = Pool::builder().test_on_borrow(true).test_on_return(true);
            let builder = builder.test_while_idle(true).on_error(on_error);
            let pool = builder.build(manager_of(next.clone())).unwrap();
            pool.add().unwrap();
            call(&pool, &|| next.set(verdict));
            let (failure, source) = receiver.try_recv().unwrap();
            assert!(matches!(failure, Failure::Test { id: 0, reason } if reason == wanted));
            assert_eq!(source, wanted.map(|reason| reason.to_string()));
            assert!(receiver.try_recv().is_err());
        }
    }
}

#[test]
fn a_failed_test_is_reported_with_its_reason() {
    reports_have_reasons(Tested);
    reports_have_reasons(|verdict| Async(Tested(verdict)));
}

/// A call of a pool whose new objects are tested.
type Call = fn(&Pool<Async<Tested>>) -> Result<(), Error<Broken>>;

#[test]
fn the_reason_of_a_failed_test_is_in_the_error_of_the_call() {
    let calls: [Call; 3] = [
        |pool| pool.get().map(drop),
        |pool| block_on(pool.get_async()).map(drop),
        |pool| pool.add().map(drop),
    ];
    let told = Broken("its cable");
    for (verdict, reason) in [(Ok(false), None), (Err(told), Some(told))] {
        let next = Verdict::default();
        let pool_of = |builder: Builder<_>| builder.build(Async(Tested(next.clone()))).unwrap();
        let on_create = pool_of(Pool::builder().test_on_create(true));
        let on_borrow = pool_of(Pool::builder().test_on_borrow(true));
        let of_create = calls.iter().map(|call| (call, &on_create, true));
        // An addition is no borrow.
        let of_borrow = calls[..2].iter().map(|call| (call, &on_borrow, false));
        for (call, pool, is_create) in of_create.chain(of_borrow) {
            next.set(verdict);
            let error = call(pool).unwrap_err();
            let wanted = match is_create {
                true => Error::CreateTest(reason),
                false => Error::BorrowTest(reason),
            };
            assert_eq!(error, wanted);
            let source = error.source().map(ToString::to_string);
            assert_eq!(source, reason.map(|reason| reason.to_string()));
            assert_eq!(error.into_manager_error(), reason);
        }
        assert_eq!(on_create.counts().destroyed, 3);
    }
}

fn failures_that_a_call_returns_are_not_reported<const HOOKS: bool>() {
    let (reports, on_error) = reports();
    let (pool, maker, _) = pool_with::<HOOKS>(|builder| {
        let builder = builder.test_on_create(true).test_on_borrow(true);
        builder.on_error(on_error)
    });
    maker.fail("make");
    assert!(matches!(pool.get(), Err(Error::Make(_))));
    maker.fail("validate");
    assert!(matches!(pool.get(), Err(Error::CreateTest(None))));
    maker.fail("validate");
    assert!(matches!(pool.add(), Err(Error::CreateTest(None))));
    assert!(reports.lock().unwrap().is_empty());
}

fn failures_of_sinks_are_reported<const HOOKS: bool>() {
    struct Broken;
    impl SegmentSink for Broken {
        fn store(&mut self, _: &Segment<'_>) -> io::Result<()> {
            Err(io::ErrorKind::BrokenPipe.into())
        }
    }
    let (reports, on_error) = reports();
    let (pool, ..) = pool_with::<HOOKS>(|builder| {
        let segments = when_due(Broken).limit(100);
        builder
            .journal(Journal::Segments(segments))
            .on_error(on_error)
    });
    while pool.get().is_ok() {}
    let reported = reports.lock().unwrap().len();
    assert!(reported > 1);
    // What a call returns is not reported.
    assert!(pool.flush_journal().is_err());
    assert_eq!(reports.lock().unwrap().len(), reported);
    drop(pool);
    let reports = reports.lock().unwrap();
    assert!(reports.len() > reported);
    let wanted = format!(
        "a segment of the journal could not be stored: {}",
        io::ErrorKind::BrokenPipe
    );
    assert!(reports.iter().all(|report| *report == wanted));
}

fn a_detached_object_is_its_holders<const HOOKS: bool>() {
    let (pool, maker, _) = pool_with::<HOOKS>(|builder| builder.max_total(1));
    let held = pool.get().unwrap();
    assert_eq!(Pooled::detach(held).id, 0);
    assert_eq!(pool.counts().destroyed, 1);
    assert_eq!(pool.try_get().unwrap().id, 1);
    assert!(!maker.calls().contains(&"destroy 0".to_owned()));
    assert_legal(&pool);
}

/// The steps in which an object ended.
fn ends_of<const HOOKS: bool>(pool: &Pool<Maker<HOOKS>>) -> Vec<String> {
    let mut steps = steps_of(pool);
    steps.retain(|step| step.ends_with(" = destroy"));
    steps
}

fn an_object_that_is_too_old_ends_at_its_return<const HOOKS: bool>() {
    let lifetime = Duration::from_millis(100);
    let (pool, maker, clock) = pool_with::<HOOKS>(|builder| builder.max_lifetime(lifetime));
    clock.set(5);
    let held = pool.get().unwrap();
    clock.set(104);
    assert_eq!(Pooled::give_back(held), Returned::Parked);
    let held = pool.get().unwrap();
    clock.set(105);
    assert_eq!(Pooled::touch(&held).unwrap(), Touched::Noted);
    maker.calls();
    assert_eq!(Pooled::give_back(held), Returned::Destroyed);
    assert_eq!(maker.calls(), ["destroy 0"]);
    assert_eq!(ends_of(&pool), ["invalidate 0 = destroy"]);
    assert_eq!(pool.get().unwrap().id, 1);
    assert_legal(&pool);
}

fn an_object_that_is_too_old_ends_while_it_is_idle<const HOOKS: bool>() {
    let lifetime = Duration::from_millis(100);
    let (pool, maker, clock) =
        pool_with::<HOOKS>(|builder| builder.max_lifetime(lifetime).tests_per_eviction_run(2));
    for id in 0..5 {
        clock.set(10 * id);
        pool.add().unwrap();
    }
    maker.calls();
    clock.set(130);
    let done = pool.maintain().unwrap();
    assert_eq!((done.eviction.destroyed, done.filled), (4, 0));
    assert!(done.eviction.examined >= 5);
    let wanted = ["destroy 0", "destroy 1", "destroy 2", "destroy 3"];
    assert_eq!(maker.calls(), wanted);
    assert_eq!(ends_of(&pool)[0], "tested 0 testfail = destroy");
    assert_eq!(pool.get().unwrap().id, 4);
    assert!(pool.settings().contains("testWhileIdle = true\n"));
    assert_legal(&pool);
}

fn maintenance_looks_at_the_age_of_each_idle_object<const HOOKS: bool>() {
    let lifetime = Duration::from_millis(100);
    for tests in [0, 1, 2, 4, 9, -1, -3, i32::MIN] {
        let (pool, maker, clock) = pool_with::<HOOKS>(|builder| {
            let builder = builder.max_lifetime(lifetime).test_while_idle(true);
            builder.tests_per_eviction_run(tests)
        });
        for id in 0..5 {
            clock.set(10 * id);
            pool.add().unwrap();
        }
        clock.set(99);
        let done = pool.maintain().unwrap().eviction;
        // As many are validated as the settings say, which is what one run examines.
        let calls = maker.calls();
        let validated = calls.iter().filter(|call| call.starts_with("validate"));
        let wanted = match tests {
            0.. => tests.min(5) as u64,
            _ => 5_u64.div_ceil(tests.unsigned_abs().into()),
        };
        assert_eq!(validated.count() as u64, wanted, "{tests} tests");
        // Further runs follow until all were examined, and the last one may go beyond.
        let examined = 5..=5_u64.next_multiple_of(wanted.max(1));
        assert_eq!(
            (done.examined, done.destroyed),
            (*examined.end(), 0),
            "{tests} tests"
        );
        clock.set(130);
        let done = pool.maintain().unwrap().eviction;
        assert!(examined.contains(&done.examined), "{tests} tests");
        assert_eq!(done.destroyed, 4, "{tests} tests");
        assert_eq!(pool.get().unwrap().id, 4);
        assert_legal(&pool);
    }
}

fn an_object_of_a_lifetime_is_validated_only_if_that_is_set<const HOOKS: bool>() {
    let lifetime = Duration::from_millis(100);
    for is_set in [false, true] {
        let (pool, maker, _) = pool_with::<HOOKS>(|builder| {
            let builder = builder.max_lifetime(lifetime).test_while_idle(is_set);
            builder.tests_per_eviction_run(1)
        });
        for _ in 0..3 {
            pool.add().unwrap();
        }
        maker.calls();
        let done = pool.maintain().unwrap();
        assert_eq!((done.eviction.examined, done.eviction.destroyed), (3, 0));
        // Only as many are validated as the settings say.
        let calls = maker.calls();
        let validated = calls.iter().filter(|call| call.starts_with("validate"));
        assert_eq!(validated.count(), usize::from(is_set));
        assert_eq!(calls.is_empty(), !is_set);
        assert_legal(&pool);
    }
}

fn times_never_fall_where_ages_are_looked_at<const HOOKS: bool>() {
    let lifetime = Duration::from_millis(100);
    let (pool, _, clock) =
        pool_with::<HOOKS>(|builder| builder.max_lifetime(lifetime).tests_per_eviction_run(1));
    for _ in 0..3 {
        pool.add().unwrap();
    }
    clock.set(1_000);
    let held = pool.get().unwrap();
    clock.set(500);
    assert_eq!(Pooled::give_back(held), Returned::Destroyed);
    let done = pool.maintain().unwrap().eviction;
    assert_eq!((done.examined, done.destroyed), (2, 2));
    assert!(times_of(&pool).windows(2).all(|two| two[0] <= two[1]));
    assert_legal(&pool);
}

/// The clock falls with each look, so that an object that is too old at one is not at a later one.
fn an_eviction_run_looks_at_an_age_once<const HOOKS: bool>() {
    let lifetime = Duration::from_millis(100);
    let tested: &[&str] = match HOOKS {
        true => &["activate 0", "validate 0", "passivate 0"],
        false => &["validate 0"],
    };
    let runs = (95..110).map(|start| {
        let time = Arc::new(AtomicU64::new(0));
        let told = Arc::clone(&time);
        let fall = |time: u64| Some(time.saturating_sub(1));
        let clock = move || told.fetch_update(Ordering::SeqCst, Ordering::SeqCst, fall);
        let (pool, maker, _) = pool_with::<HOOKS>(|builder| {
            let builder = builder.max_lifetime(lifetime).test_while_idle(true);
            builder.clock(move || clock().unwrap())
        });
        pool.add().unwrap();
        maker.calls();
        time.store(start, Ordering::SeqCst);
        let destroyed = pool.evict().unwrap().destroyed;
        let wanted = if destroyed == 1 {
            &["destroy 0"]
        } else {
            tested
        };
        assert_eq!(maker.calls(), wanted, "from {start}");
        assert_legal(&pool);
        destroyed
    });
    let runs: Vec<_> = runs.collect();
    assert!(runs.contains(&0) && runs.contains(&1), "{runs:?}");
}

/// Waits until something is so.
fn wait_until(is_so: impl Fn() -> bool) {
    let end = Instant::now() + Duration::from_secs(30);
    while !is_so() {
        assert!(Instant::now() < end, "it takes too long");
        thread::sleep(Duration::from_millis(1));
    }
}

fn a_pool_is_maintained_until_it_is_closed<const HOOKS: bool>() {
    let (reports, on_error) = reports();
    let often = Duration::from_millis(1);
    let (pool, maker, _) = pool_with::<HOOKS>(|builder| {
        let builder = builder.min_idle(2).on_error(on_error);
        builder.maintain_every(often)
    });
    wait_until(|| pool.counts().idle == 2);
    maker.fail("make");
    pool.clear().unwrap();
    wait_until(|| pool.counts().idle == 2);
    // One round that failed, and no other; its error depends on whether the fill or the next one came first.
    let reports = reports.lock().unwrap();
    assert_eq!(
        *reports,
        ["the maintenance of the pool ended early: an object could not be made"]
    );
    pool.close();
    assert_legal(&pool);
}

fn the_last_handle_ends_the_maintenance<const HOOKS: bool>() {
    /// Says when its last copy is dropped.
    struct Last(mpsc::Sender<()>);
    impl Drop for Last {
        fn drop(&mut self) {
            let _ = self.0.send(());
        }
    }
    let (last, is_dropped) = mpsc::channel();
    let last = Last(last);
    let rarely = Duration::from_secs(3_600);
    let (pool, ..) = pool_with::<HOOKS>(|builder| {
        let on_error = move |_| drop(last.0.clone());
        builder
            .min_idle(1)
            .maintain_every(rarely)
            .on_error(on_error)
    });
    wait_until(|| pool.counts().idle == 1);
    let start = Instant::now();
    drop(pool);
    is_dropped.recv_timeout(Duration::from_secs(30)).unwrap();
    assert!(start.elapsed() < Duration::from_secs(30));
}

/// Makes numbers. The thread that validates one calls something.
struct Validating<const HOOKS: bool> {
    on_validate: Box<dyn Fn() + Send + Sync>,
    alive: Arc<AtomicU64>,
}

impl<const HOOKS: bool> Manager for Validating<HOOKS> {
    type Object = u64;
    type Error = Infallible;
    const ACTIVATES: bool = HOOKS;
    const PASSIVATES: bool = HOOKS;

    fn make(&self, id: u64) -> Result<u64, Infallible> {
        self.alive.fetch_add(1, Ordering::SeqCst);
        Ok(id)
    }

    fn validate(&self, _: &mut u64) -> bool {
        (self.on_validate)();
        true
    }

    fn destroy(&self, _: u64) {
        self.alive.fetch_sub(1, Ordering::SeqCst);
    }
}

/// A pool that is maintained and stores its journal, what it stores, and the number of objects that exist. It has two idle objects.
fn validating<const HOOKS: bool>(
    on_validate: impl Fn() + Send + Sync + 'static,
) -> (Pool<Validating<HOOKS>>, Stored, Arc<AtomicU64>) {
    let (stored, alive) = (Stored::default(), Arc::new(AtomicU64::new(0)));
    let sink = MemorySink {
        stored: Arc::clone(&stored),
        fails: || false,
    };
    let builder = Pool::builder().min_idle(2).test_while_idle(true);
    let builder = builder.journal(Journal::Segments(when_due(sink)));
    let pool = builder
        .maintain_every(Duration::from_millis(1))
        .build(Validating {
            on_validate: Box::new(on_validate),
            alive: Arc::clone(&alive),
        });
    let pool = pool.unwrap();
    wait_until(|| pool.counts().idle == 2);
    (pool, stored, alive)
}

/// Whether what was stored has the close of a pool, and the end of each object.
fn is_whole(stored: &Stored) -> bool {
    let journal = texts_of(stored).concat();
    let times = |text| journal.matches(text).count();
    times(" close = count ") == 1 && times(" = make ") == times(" = freed")
}

/// The round waits for a lock while the last handle is dropped. It ends, and hands over the rest, once it has the lock.
fn the_last_handle_waits_for_no_round<const HOOKS: bool>() {
    for is_guard in [false, true] {
        let (began, has_begun) = mpsc::channel();
        let (began, lock) = (Mutex::new(began), Arc::new(Mutex::new(())));
        let (wanted, locked) = (Arc::clone(&lock), lock.lock().unwrap());
        let (pool, stored, alive) = validating::<HOOKS>(move || {
            let _ = began.lock().unwrap().send(());
            drop(wanted.lock());
        });
        // What is dropped last while the thread is in its round.
        let held = is_guard.then(|| pool.get().unwrap());
        has_begun.recv().unwrap();
        in_time(move || drop((pool, held)));
        assert!(alive.load(Ordering::SeqCst) > 0 && !is_whole(&stored));
        drop(locked);
        wait_until(|| alive.load(Ordering::SeqCst) == 0 && is_whole(&stored));
    }
}

fn a_pool_is_closed_in_time<const HOOKS: bool>() {
    let (began, has_begun) = mpsc::channel();
    let (let_go, is_let_go) = mpsc::channel::<()>();
    let (began, is_let_go) = (Mutex::new(began), Mutex::new(is_let_go));
    let (pool, stored, alive) = validating::<HOOKS>(move || {
        let _ = began.lock().unwrap().send(());
        let _ = is_let_go.lock().unwrap().recv();
    });
    let short = Duration::from_millis(5);
    let held = pool.get().unwrap();
    has_begun.recv().unwrap();
    assert!(!pool.close_and_wait(short));
    drop(held);
    // Only the thread still has an object, which it validates.
    assert!(!pool.close_and_wait(short));
    assert_eq!(alive.load(Ordering::SeqCst), 1);
    thread::scope(|scope| {
        scope.spawn(|| {
            thread::sleep(Duration::from_millis(20));
            drop(let_go);
        });
        assert!(pool.close_and_wait(LONGEST));
    });
    assert_eq!(alive.load(Ordering::SeqCst), 0);
    assert!(is_whole(&stored), "{:?}", texts_of(&stored));
}

#[test]
fn a_close_waits_for_each_object() {
    let (pool, maker, _) = pool_with::<true>(|builder| builder.test_on_return(true));
    let mut held: Vec<_> = (0..3).map(|_| pool.get().unwrap()).collect();
    Pooled::invalidate(held.pop().unwrap());
    maker.calls();
    thread::scope(|scope| {
        let began = Instant::now();
        let closing = scope.spawn(|| pool.close_and_wait(LONGEST));
        wait_until(|| pool.is_closed());
        for object in held {
            assert!(!closing.is_finished());
            thread::sleep(Duration::from_millis(5));
            drop(object);
        }
        assert!(closing.join().unwrap());
        assert!(began.elapsed() < LONGEST, "nobody wakes the thread");
    });
    let calls = maker.calls();
    let destroyed = calls.iter().filter(|call| call.starts_with("destroy"));
    assert_eq!(destroyed.count(), 2);
    assert_legal(&pool);
}

fn the_last_handle_may_be_dropped_in_the_round<const HOOKS: bool>() {
    let handle = Arc::new(Mutex::new(None::<Pool<Validating<HOOKS>>>));
    let last = Arc::clone(&handle);
    let (pool, stored, alive) = validating::<HOOKS>(move || drop(last.lock().unwrap().take()));
    let weak = pool.downgrade();
    *handle.lock().unwrap() = Some(pool);
    wait_until(|| is_whole(&stored));
    assert_eq!(alive.load(Ordering::SeqCst), 0);
    assert!(weak.upgrade().is_none());
}

fn a_pool_says_whether_it_is_closed<const HOOKS: bool>() {
    let (pool, ..) = pool_with::<HOOKS>(|builder| builder);
    assert!(!pool.is_closed());
    pool.close();
    assert!(pool.is_closed());
}

fn debug_waits_for_no_lock<const HOOKS: bool>() {
    // A clock that shows a pool while it is read under its lock.
    let shown = Arc::new(Mutex::new((None::<Pool<Maker<HOOKS>>>, Vec::new())));
    let told = Arc::clone(&shown);
    let clock = move || {
        if let Ok(mut shown) = told.try_lock() {
            let text = shown.0.as_ref().map(|pool| format!("{pool:?}"));
            shown.1.extend(text);
        }
        0
    };
    let (pool, ..) = pool_with::<HOOKS>(|builder| builder.clock(clock).max_total(1));
    let held = pool.get().unwrap();
    shown.lock().unwrap().0 = Some(pool.clone());
    // A borrow whose time is over before it sleeps reads no clock under the lock.
    wait_until(|| {
        let end = pool.get_timeout(Duration::from_millis(5));
        assert!(matches!(end, Err(Error::TimedOut(_))));
        let shown = shown.lock().unwrap();
        shown.1.iter().any(|text| text.contains("<locked>"))
    });
    drop(held);
    let (handle, texts) = std::mem::take(&mut *shown.lock().unwrap());
    assert!(
        texts.iter().any(|text| text.contains("lent: 1")),
        "{texts:?}"
    );
    drop(handle);
}

#[test]
fn a_wait_has_a_limit_of_30_seconds() {
    let limit_of = |text: Option<&str>| {
        let builder: Builder<Maker<true>> = Pool::builder();
        let builder = match text {
            Some(text) => builder.settings(text).unwrap(),
            None => builder,
        };
        let settings = builder.build(Maker::default()).unwrap().settings();
        let limit = settings
            .lines()
            .find_map(|line| line.strip_prefix("maxWaitMillis = "));
        limit.unwrap().to_owned()
    };
    assert_eq!(limit_of(None), "30000");
    assert_eq!(limit_of(Some("maxTotal = 2\n[abandoned]\n")), "30000");
    assert_eq!(limit_of(Some("maxWaitMillis = -1\n")), "-1");
    assert_eq!(limit_of(Some("maxTotal = 2\nmaxWaitMillis = 5\n")), "5");
}
