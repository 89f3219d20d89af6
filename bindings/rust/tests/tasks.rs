//! Borrows by tasks: how they wait, are woken and are cancelled, and what they ask of a manager.

mod common;

use common::managers::{kept, Broken, Clock};
use common::tasks::{block_on, poll, poll_with, ready, run_all, unique, yield_now, Bell, LONGEST};
use common::{assert_legal, journal_of, panics, steps_of, wait_for_waits, while_waiting};
use std::future::{poll_fn, Future};
use std::pin::Pin;
use std::sync::atomic::{AtomicBool, AtomicU64, Ordering};
use std::sync::{Arc, Mutex};
use std::task::{Poll, Wake, Waker};
use std::thread;
use std::time::Duration;
use zuphinka::{
    caller_number, Abandoned, Async, AsyncManager, Builder, Error, Failure, Get, Journal, Manager,
    Pool, Pooled, Returned,
};

/// What the next call of a name does.
#[derive(Clone, Copy, Debug, PartialEq)]
enum Event {
    Fails,
    Panics,
    /// It waits until the maker is let go, and then succeeds.
    Waits,
}

#[derive(Default)]
struct Notes {
    calls: Vec<String>,
    events: Vec<(&'static str, Event)>,
    dropped: Vec<u64>,
    /// The task that waits in a call.
    held: Option<Waker>,
    is_let_go: bool,
}

/// Makes widgets, which know their ids. It writes down its calls, and fails, panics or waits as it was told.
#[derive(Clone, Default)]
struct Maker(Arc<Mutex<Notes>>);

struct Widget {
    id: u64,
    maker: Maker,
    has_holder: AtomicBool,
}

impl Drop for Widget {
    fn drop(&mut self) {
        self.maker.0.lock().unwrap().dropped.push(self.id);
    }
}

impl Maker {
    /// The next call of this name does this.
    fn expect(&self, name: &'static str, event: Event) {
        self.0.lock().unwrap().events.push((name, event));
    }

    /// Returns the calls since it was asked last.
    fn calls(&self) -> Vec<String> {
        std::mem::take(&mut self.0.lock().unwrap().calls)
    }

    /// Returns the widgets that were dropped since it was asked last.
    fn dropped(&self) -> Vec<u64> {
        std::mem::take(&mut self.0.lock().unwrap().dropped)
    }

    /// Lets a call go that waits.
    fn let_go(&self) {
        let mut notes = self.0.lock().unwrap();
        notes.is_let_go = true;
        if let Some(waker) = notes.held.take() {
            drop(notes);
            waker.wake();
        }
    }

    /// Writes a call down. Returns whether it waits.
    fn call(&self, name: &'static str, id: u64) -> Result<bool, Broken> {
        let mut notes = self.0.lock().unwrap();
        notes.calls.push(format!("{name} {id}"));
        let expected = notes.events.iter().position(|event| event.0 == name);
        let event = expected.map(|position| notes.events.remove(position).1);
        drop(notes);
        match event {
            None => Ok(false),
            Some(Event::Waits) => Ok(true),
            Some(Event::Fails) => Err(Broken(name)),
            Some(Event::Panics) => panic!("{name} panics"),
        }
    }

    async fn call_async(&self, name: &'static str, id: u64) -> Result<(), Broken> {
        if self.call(name, id)? {
            poll_fn(|context| {
                let mut notes = self.0.lock().unwrap();
                if std::mem::take(&mut notes.is_let_go) {
                    return Poll::Ready(());
                }
                notes.held = Some(context.waker().clone());
                Poll::Pending
            })
            .await;
        }
        Ok(())
    }

    fn widget(&self, id: u64) -> Widget {
        Widget {
            id,
            maker: self.clone(),
            has_holder: AtomicBool::new(false),
        }
    }
}

impl AsyncManager for Maker {
    type Object = Widget;
    type Error = Broken;

    async fn make(&self, id: u64) -> Result<Widget, Broken> {
        self.call_async("make", id).await?;
        Ok(self.widget(id))
    }

    async fn activate(&self, widget: &mut Widget) -> Result<(), Broken> {
        self.call_async("activate", widget.id).await
    }

    async fn validate(&self, widget: &mut Widget) -> bool {
        self.call_async("validate", widget.id).await.is_ok()
    }

    fn passivate(&self, widget: &mut Widget) -> Result<(), Broken> {
        self.call("passivate", widget.id).map(|_| ())
    }

    fn destroy(&self, widget: Widget) {
        self.call("destroy", widget.id).unwrap();
    }
}

/// The same as a manager that is not awaited.
struct Plain<const HOOKS: bool>(Maker);

impl<const HOOKS: bool> Manager for Plain<HOOKS> {
    type Object = Widget;
    type Error = Broken;
    const ACTIVATES: bool = HOOKS;
    const PASSIVATES: bool = HOOKS;

    fn make(&self, id: u64) -> Result<Widget, Broken> {
        self.0.call("make", id)?;
        Ok(self.0.widget(id))
    }

    fn activate(&self, widget: &mut Widget) -> Result<(), Broken> {
        self.0.call("activate", widget.id).map(|_| ())
    }

    fn validate(&self, widget: &mut Widget) -> bool {
        self.0.call("validate", widget.id).is_ok()
    }

    fn passivate(&self, widget: &mut Widget) -> Result<(), Broken> {
        self.0.call("passivate", widget.id).map(|_| ())
    }

    fn destroy(&self, widget: Widget) {
        self.0.call("destroy", widget.id).unwrap();
    }
}

/// A pool of one object over a manager that is awaited, with a clock that stands still.
fn awaited(
    change: impl FnOnce(Builder<Async<Maker>>) -> Builder<Async<Maker>>,
) -> (Pool<Async<Maker>>, Maker) {
    let maker = Maker::default();
    let builder = change(kept().max_total(1).clock(|| 0));
    (builder.build(Async(maker.clone())).unwrap(), maker)
}

/// A pool of one object over a manager without hooks, with a clock that stands still.
fn plain() -> Pool<Plain<false>> {
    let builder = kept().max_total(1).clock(|| 0);
    builder.build(Plain(Maker::default())).unwrap()
}

/// A future that has begun to wait.
fn waiting<M: Manager + 'static>(pool: &Pool<M>, bell: &Arc<Bell>) -> Get<M> {
    let mut get = pool.get_async();
    assert!(poll(&mut get, bell).is_pending());
    get
}

/// The object that a future lends.
fn lent<M: Manager + 'static>(get: &mut Get<M>, bell: &Arc<Bell>) -> Pooled<M> {
    match ready(poll(get, bell)) {
        Ok(object) => object,
        Err(_) => panic!("the borrow fails"),
    }
}

fn error<M: Manager + 'static>(
    polled: Poll<Result<Pooled<M>, Error<M::Error>>>,
) -> Error<M::Error> {
    match ready(polled) {
        Ok(_) => panic!("an object is lent"),
        Err(error) => error,
    }
}

fn is_send<T: Send>(_: &T) {}

#[test]
fn a_borrow_may_go_to_another_thread() {
    let pool = plain();
    let get = pool.get_async();
    is_send(&get);
    let (awaited, _) = awaited(|builder| builder);
    is_send(&awaited.get_async());
    let object = thread::spawn(move || block_on(get).map(|object| object.id));
    assert_eq!(object.join().unwrap(), Ok(0));
}

#[test]
fn nothing_happens_before_the_first_poll() {
    let pool = plain();
    drop(pool.get_async());
    assert_eq!(pool.counts().steps, 0);
    let bell = Bell::new();
    drop(lent(&mut pool.get_async(), &bell));
    assert_eq!(
        steps_of(&pool),
        [
            "borrow 0 = make 0",
            "ready 0 good = lent",
            "return 0 = check",
            "park 0 good = parked"
        ]
    );
    assert_eq!(bell.rings(), 0);
    assert_legal(&pool);
}

#[test]
fn a_task_waits_for_an_object() {
    let (pool, bell) = (plain(), Bell::new());
    let held = pool.get().unwrap();
    let mut get = waiting(&pool, &bell);
    assert_eq!(bell.rings(), 0);
    drop(held);
    assert_eq!(bell.rings(), 1);
    assert_eq!(lent(&mut get, &bell).id, 0);
    assert_eq!(
        steps_of(&pool)[2..6],
        [
            "borrow 0 = wait",
            "return 0 = check",
            "park 0 good = parked",
            "borrow 0 = take 0"
        ]
    );
    assert_legal(&pool);
}

#[test]
fn a_task_waits_for_a_place() {
    let (pool, bell) = (plain(), Bell::new());
    let held = pool.get().unwrap();
    let mut get = waiting(&pool, &bell);
    assert_eq!(Pooled::invalidate(held), Returned::Destroyed);
    assert_eq!(bell.rings(), 1);
    assert_eq!(lent(&mut get, &bell).id, 1);
    assert_legal(&pool);
}

#[test]
fn a_poll_that_finds_nothing_makes_no_entry_and_changes_the_waker() {
    let (pool, first, second) = (plain(), Bell::new(), Bell::new());
    let held = pool.get().unwrap();
    let mut get = waiting(&pool, &first);
    let steps = pool.counts().steps;
    for _ in 0..3 {
        assert!(poll(&mut get, &second).is_pending());
    }
    assert_eq!(pool.counts().steps, steps);
    drop(held);
    assert_eq!((first.rings(), second.rings()), (0, 1));
    // Another is faster.
    let held = pool.get().unwrap();
    let steps = pool.counts().steps;
    assert!(poll(&mut get, &first).is_pending());
    assert_eq!(pool.counts().steps, steps);
    drop(held);
    assert_eq!((first.rings(), second.rings()), (1, 0));
    drop(lent(&mut get, &first));
    assert_legal(&pool);
}

#[test]
fn settings_end_a_wait_at_the_first_poll_after_its_time() {
    let now = Arc::new(AtomicU64::new(0));
    let told = Arc::clone(&now);
    let builder = kept()
        .max_total(1)
        .max_wait(LONGEST)
        .clock(move || told.load(Ordering::SeqCst));
    let pool = builder.build(Plain::<true>(Maker::default())).unwrap();
    let (held, bell) = (pool.get().unwrap(), Bell::new());
    now.store(5, Ordering::SeqCst);
    let mut get = waiting(&pool, &bell);
    now.store(20_004, Ordering::SeqCst);
    assert!(poll(&mut get, &bell).is_pending());
    now.store(20_005, Ordering::SeqCst);
    assert!(matches!(error(poll(&mut get, &bell)), Error::TimedOut(_)));
    assert_eq!(
        steps_of(&pool)[2..],
        ["borrow 5 = wait", "borrow 5 = timeout"]
    );
    // One whose time is over takes what there is.
    let mut get = waiting(&pool, &bell);
    drop(held);
    now.store(50_000, Ordering::SeqCst);
    assert_eq!(lent(&mut get, &bell).id, 0);
    assert_legal(&pool);
}

#[test]
fn a_clock_that_goes_back_ends_no_wait() {
    let clock = Clock::default();
    let builder = kept().max_total(1).clock(clock.told());
    let builder = builder.max_wait(LONGEST);
    let pool = builder.build(Plain::<true>(Maker::default())).unwrap();
    let bell = Bell::new();
    clock.set(1_000);
    let held = pool.get().unwrap();
    clock.set(500);
    let mut get = waiting(&pool, &bell);
    clock.set(20_999);
    assert!(poll(&mut get, &bell).is_pending());
    clock.set(21_000);
    assert!(matches!(error(poll(&mut get, &bell)), Error::TimedOut(_)));
    assert_eq!(
        steps_of(&pool)[2..],
        ["borrow 1000 = wait", "borrow 1000 = timeout"]
    );
    drop(held);
    assert_legal(&pool);
}

#[test]
fn a_task_is_refused_where_nobody_waits() {
    let (pool, _) = awaited(|builder| builder.block_when_exhausted(false));
    let held = pool.get().unwrap();
    let bell = Bell::new();
    assert_eq!(error(poll(&mut pool.get_async(), &bell)), Error::Exhausted);
    drop(held);
    assert_legal(&pool);
}

#[test]
fn a_borrow_begins_with_a_removal_where_that_is_set() {
    let abandoned = Abandoned::new().on_borrow(true).timeout(Duration::ZERO);
    let now = AtomicU64::new(0);
    let (pool, _) = awaited(|builder| {
        let ticking = move || now.fetch_add(1, Ordering::SeqCst);
        builder.clock(ticking).abandoned(abandoned)
    });
    let held = pool.get().unwrap();
    assert_eq!(lent(&mut pool.get_async(), &Bell::new()).id, 1);
    assert_eq!(Pooled::give_back(held), Returned::Gone);
    assert_legal(&pool);
}

#[test]
fn who_comes_first_is_served_first() {
    let (pool, bells) = (plain(), [(); 3].map(|()| Bell::new()));
    let held = pool.get().unwrap();
    let mut first = waiting(&pool, &bells[0]);
    let served = AtomicU64::new(0);
    let turn = || served.fetch_add(1, Ordering::SeqCst);
    let (mut third, mut held) = (None, Some(held));
    let thread = || {
        let object = pool.get_timeout(LONGEST).unwrap();
        let turn = turn();
        drop(object);
        turn
    };
    let second = while_waiting(&pool, thread, || {
        third = Some(waiting(&pool, &bells[2]));
        drop(held.take());
        assert_eq!(bells[2].rings(), 0);
        assert_eq!(bells[0].rings(), 1);
        let object = lent(&mut first, &bells[0]);
        assert_eq!(turn(), 0);
        drop(object);
    });
    assert_eq!(second, 1);
    assert_eq!(bells[2].rings(), 1);
    drop(lent(&mut third.unwrap(), &bells[2]));
    assert_legal(&pool);
}

#[test]
fn a_task_that_is_dropped_hands_its_wake_to_the_next_task() {
    let (pool, first_bell, second_bell) = (plain(), Bell::new(), Bell::new());
    let held = pool.get().unwrap();
    let first = waiting(&pool, &first_bell);
    let mut second = waiting(&pool, &second_bell);
    drop(held);
    assert_eq!((first_bell.rings(), second_bell.rings()), (1, 0));
    drop(first);
    assert_eq!((first_bell.rings(), second_bell.rings()), (0, 1));
    drop(lent(&mut second, &second_bell));
    assert_legal(&pool);
}

#[test]
fn a_task_that_is_dropped_hands_its_wake_to_a_thread() {
    let (pool, bell) = (plain(), Bell::new());
    let mut held = Some(pool.get().unwrap());
    let mut first = Some(waiting(&pool, &bell));
    let thread = || pool.get_timeout(LONGEST).map(|object| object.id);
    let came = while_waiting(&pool, thread, || {
        drop(held.take());
        assert_eq!(bell.rings(), 1);
        drop(first.take());
    });
    assert_eq!(came, Ok(0));
    assert_legal(&pool);
}

#[test]
fn a_task_that_is_dropped_unwoken_leaves_the_others_their_turns() {
    let (pool, bells) = (plain(), [(); 3].map(|()| Bell::new()));
    let held = pool.get().unwrap();
    let [first, mut second, third] = [0, 1, 2].map(|number| waiting(&pool, &bells[number]));
    drop(first);
    drop(third);
    let rings = || [0, 1, 2].map(|number| bells[number].rings());
    assert_eq!(rings(), [0, 0, 0]);
    drop(held);
    assert_eq!(rings(), [0, 1, 0]);
    drop(lent(&mut second, &bells[1]));
    assert_eq!(pool.counts().lent, 0);
    assert_legal(&pool);
}

#[test]
fn what_was_taken_meanwhile_is_not_handed_on() {
    let (pool, bells) = (plain(), [(); 2].map(|()| Bell::new()));
    let held = pool.get().unwrap();
    let first = waiting(&pool, &bells[0]);
    let mut second = waiting(&pool, &bells[1]);
    drop(held);
    let held = pool.get().unwrap();
    drop(first);
    assert_eq!((bells[0].rings(), bells[1].rings()), (1, 0));
    drop(held);
    assert_eq!(bells[1].rings(), 1);
    drop(lent(&mut second, &bells[1]));
}

/// A waker that panics.
struct Broke;

impl Wake for Broke {
    fn wake(self: Arc<Self>) {
        panic!("the waker panics");
    }
}

#[test]
fn a_waker_that_panics_costs_nothing() {
    let (pool, bell) = (plain(), Bell::new());
    let broken = Waker::from(Arc::new(Broke));
    let mut held = Some(pool.get().unwrap());
    let mut gets = [(); 2].map(|()| pool.get_async());
    for get in &mut gets {
        assert!(poll_with(get, &broken).is_pending());
    }
    let mut last = waiting(&pool, &bell);
    drop(held.take());
    assert_eq!(bell.rings(), 1);
    let object = lent(&mut last, &bell);
    // The others may be polled again, and wait in their turns.
    for get in &mut gets {
        assert!(poll(get, &bell).is_pending());
    }
    drop(object);
    assert_eq!(bell.rings(), 1);
    drop(lent(&mut gets[0], &bell));
    assert_eq!(bell.rings(), 1);
    drop(lent(&mut gets[1], &bell));
    assert_eq!(pool.counts().lent, 0);
    assert_legal(&pool);
}

/// A waker that lets its task go on, and panics then.
struct GoesOn(Mutex<Option<Get<Async<Maker>>>>, Arc<Bell>);

impl Wake for GoesOn {
    fn wake(self: Arc<Self>) {
        let mut task = self.0.lock().unwrap();
        assert!(poll(task.as_mut().unwrap(), &self.1).is_pending());
        drop(task);
        panic!("the waker panics");
    }
}

#[test]
fn a_waker_that_panics_behind_its_task_costs_it_nothing() {
    let (pool, maker) = awaited(|builder| builder);
    let bell = Bell::new();
    let held = pool.get().unwrap();
    let waker = Arc::new(GoesOn(
        Mutex::new(Some(pool.get_async())),
        Arc::clone(&bell),
    ));
    let polled = poll_with(
        waker.0.lock().unwrap().as_mut().unwrap(),
        &Waker::from(Arc::clone(&waker)),
    );
    assert!(polled.is_pending());
    maker.expect("activate", Event::Waits);
    drop(held);
    maker.let_go();
    let mut get = waker.0.lock().unwrap().take().unwrap();
    assert_eq!(lent(&mut get, &bell).id, 0);
}

#[test]
fn a_waker_that_panics_hands_its_wake_to_a_thread() {
    let pool = plain();
    let mut held = Some(pool.get().unwrap());
    let mut get = pool.get_async();
    let broken = Waker::from(Arc::new(Broke));
    assert!(poll_with(&mut get, &broken).is_pending());
    let thread = || pool.get_timeout(LONGEST).map(|object| object.id);
    assert_eq!(while_waiting(&pool, thread, || drop(held.take())), Ok(0));
}

#[test]
fn a_close_wakes_all_though_a_waker_panics() {
    let (pool, bells) = (plain(), [(); 2].map(|()| Bell::new()));
    let held = pool.get().unwrap();
    let mut first = waiting(&pool, &bells[0]);
    let mut broken = pool.get_async();
    assert!(poll_with(&mut broken, &Waker::from(Arc::new(Broke))).is_pending());
    let mut last = waiting(&pool, &bells[1]);
    let thread = || pool.get_timeout(LONGEST).map(|object| object.id);
    let came = while_waiting(&pool, thread, || assert_eq!(pool.close(), 0));
    assert_eq!(came, Err(Error::Closed));
    assert_eq!((bells[0].rings(), bells[1].rings()), (1, 1));
    for get in [&mut first, &mut broken, &mut last] {
        assert_eq!(error(poll(get, &bells[0])), Error::Closed);
    }
    assert_eq!(Pooled::give_back(held), Returned::Destroyed);
    assert_legal(&pool);
}

/// A waker whose drop panics.
struct Explosive;

impl Wake for Explosive {
    fn wake(self: Arc<Self>) {}
}

impl Drop for Explosive {
    fn drop(&mut self) {
        panic!("the waker is dropped");
    }
}

#[test]
fn a_waker_whose_drop_panics_costs_nothing() {
    let (pool, bell) = (plain(), Bell::new());
    let held = pool.get().unwrap();
    let mut first = waiting(&pool, &bell);
    let mut second = pool.get_async();
    let waker = Waker::from(Arc::new(Explosive));
    assert!(poll_with(&mut second, &waker).is_pending());
    // The pool has the last one.
    drop(waker);
    drop(held);
    assert_eq!(bell.rings(), 1);
    // It looks unasked, and its waker is dropped.
    assert!(poll(&mut second, &bell).is_pending());
    let object = lent(&mut first, &bell);
    assert_eq!(object.id, 0);
    drop(object);
    assert_eq!(bell.rings(), 1);
    drop(lent(&mut second, &bell));
    assert_eq!(pool.counts().lent, 0);
    assert_legal(&pool);
}

/// A waker that polls its future at once, and returns the object.
struct Eager(Mutex<Option<Get<Plain<false>>>>);

impl Wake for Eager {
    fn wake(self: Arc<Self>) {
        let get = self.0.lock().unwrap().take();
        if let Some(mut get) = get {
            drop(lent(&mut get, &Bell::new()));
        }
    }
}

#[test]
fn a_waker_may_call_the_pool() {
    let (pool, bell) = (plain(), Bell::new());
    let held = pool.get().unwrap();
    let mut get = pool.get_async();
    let eager = Arc::new(Eager(Mutex::new(None)));
    assert!(poll_with(&mut get, &Waker::from(Arc::clone(&eager))).is_pending());
    *eager.0.lock().unwrap() = Some(get);
    let mut last = waiting(&pool, &bell);
    drop(held);
    assert_eq!(bell.rings(), 1);
    assert_eq!(lent(&mut last, &bell).id, 0);
    assert_legal(&pool);
}

#[test]
fn a_pool_counts_the_threads_and_the_tasks_that_wait() {
    let pool = kept().max_total(1).build(Plain::<false>(Maker::default()));
    let pool = pool.unwrap();
    let held = pool.get().unwrap();
    assert_eq!(pool.waiting(), 0);
    thread::scope(|scope| {
        for _ in 0..2 {
            scope.spawn(|| drop(pool.get().unwrap()));
        }
        wait_for_waits(&pool, 2);
        assert_eq!(pool.waiting(), 2);
        let bell = Bell::new();
        let task = waiting(&pool, &bell);
        assert_eq!(pool.waiting(), 3);
        drop(task);
        assert_eq!(pool.waiting(), 2);
        drop(held);
    });
    assert_eq!(pool.waiting(), 0);
}

#[test]
fn all_who_wait_hear_of_a_full_journal() {
    let builder = kept().max_total(1).clock(|| 0);
    let builder = builder.journal(Journal::Memory(Some(40)));
    let pool = builder.build(Plain::<false>(Maker::default())).unwrap();
    let bells = [(); 2].map(|()| Bell::new());
    let held = pool.get().unwrap();
    let mut gets = [0, 1].map(|number| waiting(&pool, &bells[number]));
    while pool.room() > 0 {
        assert_eq!(pool.reclaim(), Ok(0));
    }
    drop(held);
    for number in 0..2 {
        assert_eq!(bells[number].rings(), 1);
        assert_eq!(
            error(poll(&mut gets[number], &bells[number])),
            Error::JournalFull
        );
    }
    assert_legal(&pool);
}

#[test]
fn a_borrow_stands_under_the_number_of_the_thread_that_polls_first() {
    let (pool, maker) = awaited(|builder| builder.test_on_borrow(true));
    let (held, bell) = (pool.get().unwrap(), Bell::new());
    maker.expect("validate", Event::Waits);
    let first = thread::scope(|scope| {
        let first = scope.spawn(|| (waiting(&pool, &bell), caller_number()));
        first.join().unwrap()
    });
    let (mut get, caller) = first;
    assert_ne!(caller, caller_number());
    drop(held);
    assert!(poll(&mut get, &bell).is_pending());
    maker.let_go();
    let object = lent(&mut get, &bell);
    let (journal, own) = (journal_of(&pool), format!("{caller} 0 "));
    let steps = journal.lines().filter_map(|line| line.strip_prefix(&own));
    assert_eq!(
        steps.collect::<Vec<_>>(),
        [
            "borrow 0 = wait",
            "borrow 0 = take 0",
            "ready 0 good = lent"
        ]
    );
    drop(object);
    assert_legal(&pool);
}

#[test]
fn a_task_awaits_its_manager() {
    let all_tests = |builder: Builder<_>| builder.test_on_create(true).test_on_borrow(true);
    let (pool, maker) = awaited(all_tests);
    let bell = Bell::new();
    let mut get = pool.get_async();
    for name in ["make", "validate", "activate", "validate"] {
        maker.expect(name, Event::Waits);
    }
    for _ in 0..4 {
        assert!(poll(&mut get, &bell).is_pending());
        assert!(poll(&mut get, &bell).is_pending());
        assert_eq!(pool.counts().reserved, 1);
        maker.let_go();
        assert_eq!(bell.rings(), 1);
    }
    let object = lent(&mut get, &bell);
    assert_eq!(
        maker.calls(),
        ["make 0", "validate 0", "activate 0", "validate 0"]
    );
    drop(object);
    assert_eq!(maker.calls(), ["passivate 0"]);
    assert_legal(&pool);
}

/// A borrow that was woken for its object, new or idle, while another waits behind it.
struct Borrow {
    pool: Pool<Async<Maker>>,
    maker: Maker,
    get: Get<Async<Maker>>,
    next: Get<Async<Maker>>,
    bell: Arc<Bell>,
    id: u64,
}

/// The calls of the manager in a borrow with both tests, each with what the core is told if it fails: for a new object, and for an idle one.
const OF_NEW: [(&str, &str); 4] = [
    ("make", "makefail = freed"),
    ("validate", "createfail = destroy"),
    ("activate", "activatefail = destroy"),
    ("validate", "testfail = destroy"),
];
const OF_IDLE: [(&str, &str); 2] = [
    ("activate", "activatefail = destroy"),
    ("validate", "testfail = destroy"),
];

impl Borrow {
    fn new(is_new: bool) -> Borrow {
        let (pool, maker) = awaited(|builder| builder.test_on_create(true).test_on_borrow(true));
        let (held, bell) = (pool.get().unwrap(), Bell::new());
        let get = waiting(&pool, &bell);
        let next = waiting(&pool, &bell);
        match is_new {
            true => drop(Pooled::invalidate(held)),
            false => drop(held),
        }
        assert_eq!(bell.rings(), 1);
        maker.calls();
        maker.dropped();
        let id = u64::from(is_new);
        Borrow {
            pool,
            maker,
            get,
            next,
            bell,
            id,
        }
    }

    /// Polls the borrow up to one of the calls, which then does something.
    fn advance_to(&mut self, calls: &[(&'static str, &str)], place: usize, event: Event) {
        for call in &calls[..place] {
            self.maker.expect(call.0, Event::Waits);
        }
        self.maker.expect(calls[place].0, event);
        for _ in 0..place {
            assert!(poll(&mut self.get, &Bell::new()).is_pending());
            self.maker.let_go();
        }
    }

    /// Drops the borrow, and sees that its object is paid for: it was destroyed if it was made, then its place was freed, and then the next
    /// task was woken for the place.
    fn assert_paid_for(self, failure: &str) {
        let Borrow {
            pool,
            maker,
            get,
            mut next,
            bell,
            id,
        } = self;
        drop(get);
        let was_made = !failure.starts_with("makefail");
        let destroyed = format!("destroy {id}");
        let destroyed = maker
            .calls()
            .iter()
            .filter(|call| **call == destroyed)
            .count();
        assert_eq!(destroyed, usize::from(was_made), "{failure}");
        assert_eq!(maker.dropped().len(), usize::from(was_made), "{failure}");
        let mut wanted = vec![format!("ready {id} {failure}")];
        if was_made {
            wanted.push(format!("destroyed {id} = freed"));
        }
        let steps = steps_of(&pool);
        assert_eq!(steps[steps.len() - wanted.len()..], wanted);
        let counts = pool.counts();
        assert_eq!((counts.idle, counts.lent, counts.reserved), (0, 0, 0));
        assert_eq!(bell.rings(), 1, "{failure}");
        assert_eq!(lent(&mut next, &bell).id, id + 1);
        assert_legal(&pool);
    }
}

#[test]
fn a_borrow_is_cancelled_at_each_await() {
    for (is_new, calls) in [(true, &OF_NEW[..]), (false, &OF_IDLE[..])] {
        for (place, call) in calls.iter().enumerate() {
            let mut borrow = Borrow::new(is_new);
            borrow.advance_to(calls, place, Event::Waits);
            assert!(poll(&mut borrow.get, &Bell::new()).is_pending());
            borrow.assert_paid_for(call.1);
        }
    }
}

#[test]
fn a_manager_that_panics_in_a_poll_costs_its_object_only() {
    for (is_new, calls) in [(true, &OF_NEW[..]), (false, &OF_IDLE[..])] {
        for (place, call) in calls.iter().enumerate() {
            let mut borrow = Borrow::new(is_new);
            borrow.advance_to(calls, place, Event::Panics);
            assert!(panics(|| poll(&mut borrow.get, &Bell::new())));
            borrow.assert_paid_for(call.1);
        }
    }
}

#[test]
fn a_new_object_that_fails_ends_its_borrow() {
    let errors = [
        Error::Make(Broken("make")),
        Error::CreateTest(None),
        Error::Activate(Broken("activate")),
        Error::BorrowTest(None),
    ];
    for (place, wanted) in errors.into_iter().enumerate() {
        let mut borrow = Borrow::new(true);
        borrow.advance_to(&OF_NEW, place, Event::Fails);
        assert_eq!(error(poll(&mut borrow.get, &Bell::new())), wanted);
        borrow.assert_paid_for(OF_NEW[place].1);
    }
}

#[test]
fn an_idle_object_that_fails_makes_way_for_another() {
    for place in 0..OF_IDLE.len() {
        let mut borrow = Borrow::new(false);
        borrow.advance_to(&OF_IDLE, place, Event::Fails);
        let object = lent(&mut borrow.get, &borrow.bell);
        assert_eq!(object.id, 1);
        assert_eq!(borrow.maker.dropped(), [0]);
        // It took the place that it had freed, so the next task was not woken.
        assert_eq!(borrow.bell.rings(), 0);
        assert!(poll(&mut borrow.next, &borrow.bell).is_pending());
        drop(object);
        assert_eq!(lent(&mut borrow.next, &borrow.bell).id, 1);
        assert_legal(&borrow.pool);
    }
}

#[test]
fn an_idle_object_that_fails_is_reported() {
    let reports = Arc::new(Mutex::new(Vec::new()));
    let receiver = Arc::clone(&reports);
    let (pool, maker) = awaited(|builder| {
        let receive =
            move |failure: Failure<_>| receiver.lock().unwrap().push(format!("{failure:?}"));
        builder.test_on_borrow(true).on_error(receive)
    });
    let wanted = [
        "Activate { id: 0, error: Broken(\"activate\") }",
        "Test { id: 1, reason: None }",
    ];
    for (name, _) in OF_IDLE {
        drop(pool.get().unwrap());
        maker.expect(name, Event::Fails);
        drop(lent(&mut pool.get_async(), &Bell::new()));
    }
    assert_eq!(*reports.lock().unwrap(), wanted);
    assert_legal(&pool);
}

/// A pool whose manager is called in the poll, and that is woken for its object while another task waits.
fn plain_borrow(maker: &Maker) -> (Pool<Plain<true>>, [Get<Plain<true>>; 2], Arc<Bell>) {
    let builder = kept().max_total(1).clock(|| 0);
    let builder = builder.test_on_create(true).test_on_borrow(true);
    let pool = builder.build(Plain::<true>(maker.clone())).unwrap();
    let (held, bell) = (pool.get().unwrap(), Bell::new());
    let gets = [(); 2].map(|()| waiting(&pool, &bell));
    Pooled::invalidate(held);
    assert_eq!(bell.rings(), 1);
    (pool, gets, bell)
}

#[test]
fn a_manager_that_is_not_awaited_is_called_in_the_poll() {
    let maker = Maker::default();
    for name in ["make", "validate", "activate"] {
        let (pool, [mut first, mut second], bell) = plain_borrow(&maker);
        maker.expect(name, Event::Panics);
        assert!(panics(|| poll(&mut first, &bell)));
        assert!(panics(|| poll(&mut first, &bell)), "it has ended");
        let counts = pool.counts();
        assert_eq!((counts.idle, counts.lent, counts.reserved), (0, 0, 0));
        assert_eq!(bell.rings(), 1, "{name}");
        maker.calls();
        drop(lent(&mut second, &bell));
        let wanted = [
            "make 2",
            "validate 2",
            "activate 2",
            "validate 2",
            "passivate 2",
        ];
        assert_eq!(maker.calls(), wanted);
        assert_legal(&pool);
    }
    let (pool, [mut first, mut second], bell) = plain_borrow(&maker);
    maker.expect("make", Event::Fails);
    assert_eq!(error(poll(&mut first, &bell)), Error::Make(Broken("make")));
    assert_eq!(bell.rings(), 1);
    assert_eq!(lent(&mut second, &bell).id, 2);
    assert_legal(&pool);
}

#[test]
fn a_waker_whose_clone_panics_costs_nothing() {
    for (is_new, calls) in [(true, &OF_NEW[..]), (false, &OF_IDLE[..])] {
        for place in 0..calls.len() {
            let mut borrow = Borrow::new(is_new);
            borrow.advance_to(calls, place, Event::Waits);
            assert!(panics(|| poll_with(&mut borrow.get, &unique())));
            assert!(poll(&mut borrow.get, &Bell::new()).is_pending());
            borrow.maker.let_go();
            assert!(panics(|| poll_with(&mut borrow.get, &unique())));
            let object = lent(&mut borrow.get, &borrow.bell);
            assert_eq!(object.id, borrow.id);
            assert_eq!(borrow.bell.rings(), 0);
            drop(object);
            assert_eq!(borrow.bell.rings(), 1);
            drop(lent(&mut borrow.next, &borrow.bell));
            assert!(borrow.maker.dropped().is_empty());
            assert_legal(&borrow.pool);
        }
    }
}

#[test]
fn a_waker_whose_clone_panics_costs_nothing_in_a_poll_that_calls_the_manager() {
    let maker = Maker::default();
    let (pool, [mut first, mut second], bell) = plain_borrow(&maker);
    assert!(panics(|| poll_with(&mut first, &unique())));
    let object = lent(&mut first, &bell);
    assert_eq!(object.id, 1);
    let mut third = pool.get_async();
    assert!(panics(|| poll_with(&mut third, &unique())));
    assert!(poll(&mut third, &bell).is_pending());
    drop(object);
    assert_eq!(bell.rings(), 1);
    assert!(panics(|| poll_with(&mut second, &unique())));
    drop(second);
    assert_eq!(bell.rings(), 1);
    drop(lent(&mut third, &bell));
    assert_eq!(pool.counts().idle, 1);
    assert_legal(&pool);
}

#[test]
fn a_borrow_that_has_ended_is_not_polled_again() {
    let (pool, bell) = (plain(), Bell::new());
    let mut get = pool.get_async();
    drop(lent(&mut get, &bell));
    assert!(panics(|| poll(&mut get, &bell)));
    drop(get);
    assert_eq!(pool.counts().idle, 1);
}

#[test]
fn threads_run_what_tasks_await() {
    let (pool, maker) = awaited(|builder| builder.min_idle(1).test_while_idle(true));
    let done = AtomicBool::new(false);
    thread::scope(|scope| {
        // Lets go whatever waits, until all is done.
        scope.spawn(|| {
            while !done.load(Ordering::SeqCst) {
                maker.let_go();
                thread::yield_now();
            }
        });
        for name in ["make", "activate", "validate", "activate"] {
            maker.expect(name, Event::Waits);
        }
        assert_eq!(pool.fill(), Ok(1));
        let evicted = pool.maintain().unwrap().eviction;
        assert_eq!((evicted.examined, evicted.destroyed), (1, 0));
        drop(pool.get().unwrap());
        done.store(true, Ordering::SeqCst);
    });
    let wanted = [
        "make 0",
        "passivate 0",
        "activate 0",
        "validate 0",
        "passivate 0",
        "activate 0",
        "passivate 0",
    ];
    assert_eq!(maker.calls(), wanted);
    assert_legal(&pool);
}

#[test]
fn the_pool_lives_as_long_as_its_borrows() {
    let (pool, maker) = awaited(|builder| builder);
    let get = pool.get_async();
    drop(pool);
    let object = block_on(get).map_err(|_| ()).unwrap();
    assert_eq!(maker.dropped(), []);
    drop(object);
    assert_eq!(maker.dropped(), [0]);
}

const TASKS: u64 = 60;
const LOANS: u64 = 20;
const THREADS: u64 = 2;
/// Of this number of borrows a task looks once for one, and drops it a little later.
const DROPS_OF: u64 = 7;

/// Uses an object that it alone has. The count grows by one.
async fn use_alone(object: &Widget, loans: &AtomicU64) {
    let had_holder = object.has_holder.swap(true, Ordering::SeqCst);
    assert!(!had_holder, "two hold it");
    yield_now().await;
    object.has_holder.store(false, Ordering::SeqCst);
    loans.fetch_add(1, Ordering::SeqCst);
}

/// Polls a borrow once, and drops it a little later.
async fn look_and_drop<M: Manager + 'static>(mut get: Get<M>)
where
    M::Error: Send,
{
    let looked = poll_fn(|context| Poll::Ready(Pin::new(&mut get).poll(context))).await;
    yield_now().await;
    drop((looked, get));
}

/// Borrows again and again.
async fn borrow_often<M: Manager<Object = Widget> + 'static>(
    pool: Pool<M>,
    number: u64,
    loans: Arc<AtomicU64>,
) where
    M::Error: Send,
{
    for loan in 0..LOANS {
        let get = pool.get_async();
        if (number + loan) % DROPS_OF == 0 {
            look_and_drop(get).await;
        } else {
            match get.await {
                Ok(object) => use_alone(&object, &loans).await,
                Err(_) => panic!("a borrow fails"),
            }
        }
    }
}

/// Lets tasks on two threads and other threads share two objects. Returns the number of loans, but for those of borrows that are dropped.
fn share<M: Manager<Object = Widget> + 'static>(pool: &Pool<M>) -> u64
where
    M::Error: Send,
{
    let loans = Arc::new(AtomicU64::new(0));
    thread::scope(|scope| {
        for _ in 0..THREADS {
            scope.spawn(|| {
                for _ in 0..LOANS {
                    match pool.get_timeout(LONGEST) {
                        Ok(object) => block_on(use_alone(&object, &loans)),
                        Err(_) => panic!("a borrow fails"),
                    }
                }
            });
        }
        let task = |number| borrow_often(pool.clone(), number, Arc::clone(&loans));
        run_all(2, (0..TASKS).map(task));
    });
    loans.load(Ordering::SeqCst)
}

#[test]
fn tasks_and_threads_share_a_pool() {
    let of_tasks = (0..TASKS * LOANS).filter(|at| (at / LOANS + at % LOANS) % DROPS_OF != 0);
    let wanted = of_tasks.count() as u64 + THREADS * LOANS;
    let maker = Maker::default();
    let builder = kept().max_total(2).test_on_borrow(true);
    let pool = builder.build(Async(maker.clone())).unwrap();
    assert_eq!(share(&pool), wanted);
    assert_eq!(pool.counts().lent, 0);
    assert_eq!(pool.close(), pool.counts().created);
    assert_legal(&pool);

    let builder = kept().max_total(2);
    let pool = builder.build(Plain::<false>(maker)).unwrap();
    assert_eq!(share(&pool), wanted);
    assert_eq!(pool.counts().lent, 0);
    assert_legal(&pool);
}
