//! Managers, clocks and holders that panic, pools that are closed meanwhile, and settings that contradict each other.

mod common;
#[path = "common/hooks.rs"]
#[macro_use]
mod hooks;

use common::managers::{kept, take_out};
use common::tasks::block_on;
use common::{
    assert_legal, panic_quietly, panics, times_of, wait_for_waits, when_due, MemorySink, Stored,
};
use std::convert::Infallible;
use std::panic;
use std::sync::atomic::{AtomicBool, AtomicU64, Ordering};
use std::sync::{mpsc, Arc, Mutex};
use std::thread;
use std::time::Duration;
use zuphinka::{
    Abandoned, Addition, Builder, Contradiction, Error, Journal, Manager, OpenError, Pool, Pooled,
    Returned, WeakPool,
};

with_and_without_hooks! {
    an_object_ends_before_its_place_is_free
    a_close_destroys_all_though_a_destruction_panics
    a_clear_destroys_all_though_a_destruction_panics
    the_last_handle_destroys_all_though_a_destruction_panics
    a_clock_that_panics_stands_still
    a_wake_is_not_lost_by_a_clock_that_panics
    a_closed_pool_with_a_full_journal_is_closed
    a_closed_pool_with_a_full_journal_is_closed_though_borrows_reclaim
    a_closed_pool_whose_sink_fails_is_closed_though_borrows_reclaim
    a_destruction_may_panic_while_its_holder_panics
    a_destruction_may_panic_after_a_test_panicked
    what_a_cleanup_borrows_is_returned
    a_borrow_that_makes_its_object_gets_it_from_a_closed_pool
    a_weak_handle_does_not_keep_a_pool_open
    one_loan_fits_into_the_smallest_journal
}

/// What a manager and its objects share.
#[derive(Default)]
struct Board<const HOOKS: bool> {
    pool: Mutex<Option<WeakPool<Troubled<HOOKS>>>>,
    /// The calls that are to panic, each once.
    panicking: Mutex<Vec<&'static str>>,
    /// The objects that were destroyed, by the manager.
    destroyed: Mutex<Vec<u64>>,
    /// For each object that ended, its number, and how many places were free by then.
    ended: Mutex<Vec<(u64, u64)>>,
}

impl<const HOOKS: bool> Board<HOOKS> {
    /// The next call of this name panics.
    fn panic(&self, name: &'static str) {
        self.panicking.lock().unwrap().push(name);
    }

    fn call(&self, name: &'static str) {
        if take_out(&self.panicking, name) {
            panic_quietly();
        }
    }

    fn pool(&self) -> Option<Pool<Troubled<HOOKS>>> {
        self.pool.lock().unwrap().as_ref()?.upgrade()
    }
}

/// A manager whose calls panic when they are told to.
struct Troubled<const HOOKS: bool>(Arc<Board<HOOKS>>);

struct Object<const HOOKS: bool> {
    id: u64,
    board: Arc<Board<HOOKS>>,
}

impl<const HOOKS: bool> Drop for Object<HOOKS> {
    fn drop(&mut self) {
        let freed = self.board.pool().map_or(0, |pool| pool.counts().destroyed);
        self.board.ended.lock().unwrap().push((self.id, freed));
    }
}

impl<const HOOKS: bool> Manager for Troubled<HOOKS> {
    type Object = Object<HOOKS>;
    type Error = Infallible;
    const ACTIVATES: bool = HOOKS;
    const PASSIVATES: bool = HOOKS;

    fn make(&self, id: u64) -> Result<Object<HOOKS>, Infallible> {
        self.0.call("make");
        let board = Arc::clone(&self.0);
        Ok(Object { id, board })
    }

    fn activate(&self, _: &mut Object<HOOKS>) -> Result<(), Infallible> {
        self.0.call("activate");
        Ok(())
    }

    fn validate(&self, _: &mut Object<HOOKS>) -> bool {
        self.0.call("validate");
        true
    }

    fn passivate(&self, _: &mut Object<HOOKS>) -> Result<(), Infallible> {
        self.0.call("passivate");
        Ok(())
    }

    fn destroy(&self, object: Object<HOOKS>) {
        self.0.destroyed.lock().unwrap().push(object.id);
        self.0.call("destroy");
    }
}

type Opened<const HOOKS: bool> = (Pool<Troubled<HOOKS>>, Arc<Board<HOOKS>>);

fn pool_with<const HOOKS: bool>(
    change: impl FnOnce(Builder<Troubled<HOOKS>>) -> Builder<Troubled<HOOKS>>,
) -> Opened<HOOKS> {
    let board = Arc::new(Board::default());
    let builder = change(kept());
    let pool = builder.build(Troubled(Arc::clone(&board))).unwrap();
    *board.pool.lock().unwrap() = Some(pool.downgrade());
    (pool, board)
}

fn an_object_ends_before_its_place_is_free<const HOOKS: bool>() {
    let tests = |builder: Builder<Troubled<HOOKS>>| {
        let builder = builder.test_on_borrow(true).test_on_return(true);
        builder.test_while_idle(true).max_total(1)
    };
    let (pool, board) = pool_with::<HOOKS>(tests);
    let mut objects = 0;
    for name in ["activate", "validate", "passivate", "destroy"] {
        if !HOOKS && name.ends_with("ivate") {
            continue;
        }
        let calls: [&dyn Fn(); 3] = [
            &|| drop(pool.get()),
            &|| {
                let held = pool.get().unwrap();
                board.panic(name);
                drop(held);
            },
            &|| {
                let _ = pool.evict();
            },
        ];
        for (number, call) in calls.into_iter().enumerate() {
            let is_added = number != 1;
            if is_added {
                assert_eq!(pool.add().unwrap(), Addition::Idle);
                board.panic(name);
            }
            let has_panicked = panics(call);
            let is_left = !board.panicking.lock().unwrap().is_empty();
            board.panicking.lock().unwrap().clear();
            assert_eq!(has_panicked, !is_left, "{name} in call {number}");
            let _ = pool.clear();
            assert_eq!(pool.counts().idle, 0);
            // Its place was not free yet: as many were freed as objects had ended before.
            let ended: Vec<_> = board.ended.lock().unwrap().clone();
            assert_eq!(*ended.last().unwrap(), (objects, objects), "{name}");
            objects += 1;
        }
    }
    assert_eq!(board.destroyed.lock().unwrap().len() as u64, objects);
    assert_legal(&pool);
}

fn fill<const HOOKS: bool>(pool: &Pool<Troubled<HOOKS>>, objects: u64) {
    for _ in 0..objects {
        assert_eq!(pool.add().unwrap(), Addition::Idle);
    }
}

fn a_close_destroys_all_though_a_destruction_panics<const HOOKS: bool>() {
    let (pool, board) = pool_with::<HOOKS>(|builder| builder);
    fill(&pool, 4);
    let held = pool.get().unwrap();
    for _ in 0..2 {
        board.panic("destroy");
    }
    assert!(panics(|| pool.close()));
    assert_eq!(*board.destroyed.lock().unwrap(), [0, 1, 2]);
    assert_eq!(pool.close(), 0);
    assert_eq!(Pooled::give_back(held), Returned::Destroyed);
    assert_eq!(board.ended.lock().unwrap().len(), 4);
    let counts = pool.counts();
    assert_eq!((counts.idle, counts.reserved, counts.destroyed), (0, 0, 4));
    assert_legal(&pool);
}

fn a_clear_destroys_all_though_a_destruction_panics<const HOOKS: bool>() {
    let (pool, board) = pool_with::<HOOKS>(|builder| builder);
    fill(&pool, 4);
    board.panic("destroy");
    assert!(panics(|| pool.clear()));
    assert_eq!(board.ended.lock().unwrap().len(), 4);
    assert_eq!(pool.counts().destroyed, 4);
    assert_legal(&pool);
}

fn the_last_handle_destroys_all_though_a_destruction_panics<const HOOKS: bool>() {
    let (pool, board) = pool_with::<HOOKS>(|builder| builder);
    fill(&pool, 4);
    board.panic("destroy");
    assert!(panics(move || drop(pool)));
    assert_eq!(board.ended.lock().unwrap().len(), 4);

    let (pool, board) = pool_with::<HOOKS>(|builder| builder);
    fill(&pool, 4);
    board.panic("destroy");
    assert!(panics(move || {
        let _pool = pool;
        panic_quietly();
    }));
    assert_eq!(board.ended.lock().unwrap().len(), 4);
}

/// A clock that panics while it is told to.
fn breaking_clock(time: u64) -> (impl Fn() -> u64 + Send + Sync, Arc<AtomicBool>) {
    let is_broken = Arc::new(AtomicBool::new(false));
    let told = Arc::clone(&is_broken);
    let clock = move || match told.load(Ordering::SeqCst) {
        true => panic_quietly(),
        false => time,
    };
    (clock, is_broken)
}

fn a_clock_that_panics_stands_still<const HOOKS: bool>() {
    let (clock, is_broken) = breaking_clock(7);
    let waiting = |builder: Builder<Troubled<HOOKS>>| {
        let builder = builder.clock(clock).max_total(1);
        builder.max_wait(Duration::from_millis(5))
    };
    let (pool, board) = pool_with::<HOOKS>(waiting);
    drop(pool.get().unwrap());
    is_broken.store(true, Ordering::SeqCst);
    let held = pool.get().unwrap();
    let short = Duration::from_millis(1);
    assert!(matches!(pool.get_timeout(short), Err(Error::TimedOut(_))));
    drop(held);
    pool.evict().unwrap();
    pool.close();
    assert_eq!(board.ended.lock().unwrap().len(), 1);
    assert!(times_of(&pool).iter().all(|time| *time == 7));
    assert_legal(&pool);
}

fn a_wake_is_not_lost_by_a_clock_that_panics<const HOOKS: bool>() {
    let (clock, is_broken) = breaking_clock(0);
    let waiting = |builder: Builder<Troubled<HOOKS>>| {
        let builder = builder.clock(clock).max_total(1);
        builder.max_wait(Duration::from_secs(60))
    };
    let (pool, _) = pool_with::<HOOKS>(waiting);
    let held = pool.get().unwrap();
    let lent = thread::scope(|scope| {
        let borrow = || pool.get().map(|object| object.id);
        let waiters = [scope.spawn(borrow), scope.spawn(borrow)];
        wait_for_waits(&pool, 2);
        is_broken.store(true, Ordering::SeqCst);
        drop(held);
        waiters.map(|waiter| waiter.join().unwrap())
    });
    assert!(matches!(lent, [Ok(0), Ok(0)]));
    assert_legal(&pool);
}

/// A closed pool whose journal is full.
fn closed_and_full<const HOOKS: bool>(
    change: impl FnOnce(Builder<Troubled<HOOKS>>) -> Builder<Troubled<HOOKS>>,
) -> Pool<Troubled<HOOKS>> {
    let limited = Journal::Memory(Some(20));
    let (pool, _) = pool_with::<HOOKS>(|builder| change(builder.journal(limited)));
    fill(&pool, 1);
    pool.close();
    while pool.room() > 0 {
        assert_eq!(pool.reclaim().unwrap(), 0);
    }
    assert!(matches!(pool.get(), Err(Error::Closed)));
    assert!(matches!(pool.try_get(), Err(Error::Closed)));
    assert_legal(&pool);
    pool
}

fn a_closed_pool_with_a_full_journal_is_closed<const HOOKS: bool>() {
    let pool = closed_and_full::<HOOKS>(|builder| builder.max_total(3));
    assert!(matches!(pool.add(), Err(Error::Closed)));
    assert!(matches!(pool.evict(), Err(Error::Closed)));
    assert!(matches!(pool.maintain(), Err(Error::Closed)));
    assert!(matches!(pool.fill(), Ok(0)));
    assert_eq!(pool.close(), 0);
    assert_legal(&pool);
}

fn a_closed_pool_with_a_full_journal_is_closed_though_borrows_reclaim<const HOOKS: bool>() {
    let pool = closed_and_full::<HOOKS>(|builder| builder.max_total(1).abandoned(ON_BORROW));
    assert!(matches!(block_on(pool.get_async()), Err(Error::Closed)));
    assert!(matches!(pool.reclaim(), Err(Error::JournalFull)));
    assert_legal(&pool);
}

fn a_closed_pool_whose_sink_fails_is_closed_though_borrows_reclaim<const HOOKS: bool>() {
    let stores = Arc::new(AtomicU64::new(0));
    let counted = Arc::clone(&stores);
    let sink = MemorySink {
        stored: Stored::default(),
        fails: move || {
            counted.fetch_add(1, Ordering::SeqCst);
            true
        },
    };
    let limited = |builder: Builder<Troubled<HOOKS>>| {
        let segments = when_due(sink).limit(20);
        let builder = builder.journal(Journal::Segments(segments)).max_total(1);
        builder.abandoned(ON_BORROW)
    };
    let (pool, _) = pool_with::<HOOKS>(limited);
    pool.close();
    while pool.reclaim().is_ok() {}
    assert_eq!(pool.room(), 0);
    let before = stores.load(Ordering::SeqCst);
    assert!(matches!(pool.get(), Err(Error::Closed)));
    assert!(matches!(block_on(pool.get_async()), Err(Error::Closed)));
    // A borrow that cannot be made asks for no room.
    assert_eq!(stores.load(Ordering::SeqCst), before);
}

fn a_destruction_may_panic_while_its_holder_panics<const HOOKS: bool>() {
    let (pool, board) = pool_with::<HOOKS>(|builder| builder.max_total(1));
    let held = pool.get().unwrap();
    board.panic("destroy");
    assert!(panics(move || {
        let _held = held;
        panic_quietly();
    }));
    assert!(board.panicking.lock().unwrap().is_empty());
    assert_eq!(board.ended.lock().unwrap().len(), 1);
    assert_eq!(pool.try_get().unwrap().id, 1);
    assert_legal(&pool);
}

fn a_destruction_may_panic_after_a_test_panicked<const HOOKS: bool>() {
    let tests = |builder: Builder<Troubled<HOOKS>>| builder.test_on_borrow(true).max_total(1);
    let (pool, board) = pool_with::<HOOKS>(tests);
    fill(&pool, 1);
    board.panic("validate");
    board.panic("destroy");
    assert!(panics(|| pool.get()));
    assert!(board.panicking.lock().unwrap().is_empty());
    assert_eq!(board.ended.lock().unwrap().len(), 1);
    assert_eq!(pool.try_get().unwrap().id, 1);
    assert_legal(&pool);
}

/// Borrows from a pool when it is dropped.
struct Cleanup<'a, const HOOKS: bool>(&'a Pool<Troubled<HOOKS>>, &'a AtomicU64);

impl<const HOOKS: bool> Drop for Cleanup<'_, HOOKS> {
    fn drop(&mut self) {
        let object = self.0.get().unwrap();
        self.1.store(object.id, Ordering::SeqCst);
    }
}

fn what_a_cleanup_borrows_is_returned<const HOOKS: bool>() {
    let (pool, board) = pool_with::<HOOKS>(|builder| builder);
    let id = AtomicU64::new(u64::MAX);
    assert!(panics(|| {
        let _cleanup = Cleanup(&pool, &id);
        panic_quietly();
    }));
    assert_eq!(id.load(Ordering::SeqCst), 0);
    assert_eq!(pool.counts().idle, 1);
    if HOOKS {
        board.panic("passivate");
        assert!(panics(|| {
            let _cleanup = Cleanup(&pool, &id);
            panic_quietly();
        }));
        assert_eq!(pool.counts().destroyed, 1);
    }
    assert_legal(&pool);
}

fn a_borrow_that_makes_its_object_gets_it_from_a_closed_pool<const HOOKS: bool>() {
    /// Makes an object once it may go on.
    struct Slow<const HOOKS: bool>(Mutex<(mpsc::Sender<()>, mpsc::Receiver<()>)>);
    impl<const HOOKS: bool> Manager for Slow<HOOKS> {
        type Object = u64;
        type Error = Infallible;
        const ACTIVATES: bool = HOOKS;
        const PASSIVATES: bool = HOOKS;
        fn make(&self, id: u64) -> Result<u64, Infallible> {
            let both = self.0.lock().unwrap();
            both.0.send(()).unwrap();
            both.1.recv().unwrap();
            Ok(id)
        }
    }
    let (called, is_called) = mpsc::channel();
    let (go_on, may_go_on) = mpsc::channel();
    let pool = kept()
        .build(Slow::<HOOKS>(Mutex::new((called, may_go_on))))
        .unwrap();
    let returned = thread::scope(|scope| {
        let borrowing = scope.spawn(|| pool.get().map(Pooled::give_back));
        is_called.recv().unwrap();
        assert_eq!(pool.close(), 0);
        assert_eq!(pool.get().map(drop), Err(Error::Closed));
        go_on.send(()).unwrap();
        borrowing.join().unwrap()
    });
    assert_eq!(returned, Ok(Returned::Destroyed));
    assert_legal(&pool);
}

fn a_weak_handle_does_not_keep_a_pool_open<const HOOKS: bool>() {
    let (pool, board) = pool_with::<HOOKS>(|builder| builder);
    let weak = pool.downgrade();
    fill(&pool, 2);
    let held = weak.upgrade().unwrap().get().unwrap();
    drop(pool);
    assert!(board.ended.lock().unwrap().is_empty());
    assert!(weak.clone().upgrade().is_some());
    drop(held);
    assert_eq!(board.ended.lock().unwrap().len(), 2);
    assert!(weak.upgrade().is_none());
}

const ON_BORROW: Abandoned = Abandoned::new().on_borrow(true);

#[test]
fn contradictions_open_nothing() {
    type Change = fn(Builder<Troubled<true>>) -> Builder<Troubled<true>>;
    let found = |change: Change| {
        let manager = Troubled(Arc::new(Board::default()));
        match change(Pool::builder()).build(manager) {
            Ok(_) => None,
            Err(OpenError::Contradiction(found)) => Some(found),
            Err(error) => panic!("{error}"),
        }
    };
    let cases: [(Change, Contradiction); 11] = [
        (
            |it| it.max_total(0).max_wait(None),
            Contradiction::NothingToWaitFor,
        ),
        (
            |it| it.max_total(3).min_idle(4),
            Contradiction::MinIdleAboveMaxTotal,
        ),
        (|it| it.min_idle(9), Contradiction::MinIdleAboveMaxTotal),
        (
            |it| it.max_total(None).max_idle(3).min_idle(4),
            Contradiction::MinIdleAboveMaxIdle,
        ),
        (
            |it| {
                it.block_when_exhausted(false)
                    .max_wait(Duration::from_secs(1))
            },
            Contradiction::WaitWithoutBlocking,
        ),
        (
            |it| it.abandoned(Abandoned::default()),
            Contradiction::NeverReclaimed,
        ),
        (
            |it| it.journal(Journal::Memory(Some(48))),
            Contradiction::JournalTooSmall,
        ),
        (
            |it| it.max_total(1).journal(Journal::Memory(Some(6))),
            Contradiction::JournalTooSmall,
        ),
        (
            |it| it.max_total(None).journal(Journal::Memory(Some(6))),
            Contradiction::JournalTooSmall,
        ),
        (
            |it| it.max_total(166_667).journal(Journal::Memory(None)),
            Contradiction::JournalTooSmall,
        ),
        (
            |it| {
                let it = it.max_total(1).journal(Journal::Memory(Some(7)));
                it.abandoned(ON_BORROW)
            },
            Contradiction::JournalTooSmall,
        ),
    ];
    for (change, contradiction) in cases {
        assert_eq!(found(change), Some(contradiction));
    }
    let lawful: [Change; 10] = [
        |it| it.max_total(0).max_wait(Duration::from_secs(1)),
        |it| it.max_total(0).block_when_exhausted(false),
        |it| it.max_total(None).max_idle(None).min_idle(100),
        |it| it.block_when_exhausted(false),
        |it| it.journal_limit(6),
        |it| it.journal(Journal::Memory(Some(49))),
        |it| it.max_total(166_666).journal(Journal::Memory(None)),
        |it| it.max_total(None).journal(Journal::Memory(Some(7))),
        |it| {
            let it = it.max_total(0).block_when_exhausted(false);
            it.journal(Journal::Memory(Some(1)))
        },
        |it| {
            let it = it.max_total(1).journal(Journal::Memory(Some(8)));
            it.abandoned(ON_BORROW)
        },
    ];
    for change in lawful {
        assert_eq!(found(change), None);
    }
    // A text is taken as the program takes it.
    let text = "maxTotal = 0\nminIdle = 9\nblockWhenExhausted = false\nmaxWaitMillis = 5\njournalLimit = 1\n[abandoned]\n";
    let builder = Pool::builder().settings(text).unwrap();
    let builder = builder.journal(Journal::Memory(None));
    assert!(builder
        .build(Troubled(Arc::new(Board::<true>::default())))
        .is_ok());
}

fn one_loan_fits_into_the_smallest_journal<const HOOKS: bool>() {
    for (limit, abandoned) in [(7, None), (8, Some(ON_BORROW))] {
        let small = |builder: Builder<Troubled<HOOKS>>| {
            let builder = builder.journal(Journal::Memory(Some(limit)));
            builder.max_total(1).abandoned(abandoned)
        };
        let (pool, _) = pool_with::<HOOKS>(small);
        assert_eq!(Pooled::give_back(pool.get().unwrap()), Returned::Parked);
        assert_eq!(pool.close(), 1);
        assert_eq!(pool.counts().steps, limit);
        assert_legal(&pool);
    }
}
