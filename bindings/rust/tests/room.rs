//! The journal room that each call needs, as `Pool::room` says.

#[path = "common/hooks.rs"]
#[macro_use]
mod hooks;
mod common;

use common::managers::{Broken, Maker};
use common::{assert_legal, when_due, MemorySink, Stored};
use std::sync::atomic::{AtomicU64, Ordering};
use std::time::Duration;
use zuphinka::{
    Abandoned, Builder, Contradiction, Error, Journal, OpenError, Pool, Pooled, Returned,
};

with_and_without_hooks! {
    each_call_needs_its_room
    a_journal_is_low_if_it_has_too_little_room_for_a_borrow
    the_smallest_journal_that_opens_lends_all_objects_at_a_time
}

type Change<const HOOKS: bool> = fn(Builder<Maker<HOOKS>>) -> Builder<Maker<HOOKS>>;
type Held<const HOOKS: bool> = Option<Pooled<Maker<HOOKS>>>;
type Prepare<const HOOKS: bool> = fn(&Pool<Maker<HOOKS>>) -> Held<HOOKS>;
type Call<const HOOKS: bool> = fn(&Pool<Maker<HOOKS>>, Held<HOOKS>) -> Result<(), Error<Broken>>;

/// A call of a pool, and the room that it needs.
struct Case<const HOOKS: bool> {
    change: Change<HOOKS>,
    prepare: Prepare<HOOKS>,
    call: Call<HOOKS>,
    needs: u64,
}

/// A pool of one object whose journal has a limit, which may be too small for a loan.
fn open<const HOOKS: bool>(limit: u64, change: Change<HOOKS>) -> Pool<Maker<HOOKS>> {
    let text = format!("journalLimit = {limit}\nmaxTotal = 1\n");
    let builder = Pool::builder().settings(&text).unwrap();
    let builder = change(builder.journal(Journal::Memory(None)).clock(|| 0));
    builder.build(Maker::default()).unwrap()
}

impl<const HOOKS: bool> Case<HOOKS> {
    /// Makes the call in a journal with this room. Returns whether that was enough, and the pool.
    fn fits(&self, room: u64) -> (bool, Pool<Maker<HOOKS>>) {
        const LARGE: u64 = 1_000;
        let large = open(LARGE, self.change);
        let held = (self.prepare)(&large);
        let limit = LARGE - large.room() + room;
        drop(held);
        let pool = open(limit, self.change);
        let held = (self.prepare)(&pool);
        assert_eq!(pool.room(), room);
        let came = (self.call)(&pool, held);
        (came != Err(Error::JournalFull), pool)
    }
}

fn nothing<const HOOKS: bool>(_: &Pool<Maker<HOOKS>>) -> Held<HOOKS> {
    None
}

fn one_idle<const HOOKS: bool>(pool: &Pool<Maker<HOOKS>>) -> Held<HOOKS> {
    pool.add().unwrap();
    None
}

fn one_lent<const HOOKS: bool>(pool: &Pool<Maker<HOOKS>>) -> Held<HOOKS> {
    Some(pool.get().unwrap())
}

fn borrow<const HOOKS: bool>(
    pool: &Pool<Maker<HOOKS>>,
    _held: Held<HOOKS>,
) -> Result<(), Error<Broken>> {
    pool.get().map(drop)
}

fn add<const HOOKS: bool>(
    pool: &Pool<Maker<HOOKS>>,
    _held: Held<HOOKS>,
) -> Result<(), Error<Broken>> {
    pool.add().map(drop)
}

fn evict<const HOOKS: bool>(
    pool: &Pool<Maker<HOOKS>>,
    _held: Held<HOOKS>,
) -> Result<(), Error<Broken>> {
    pool.evict().map(drop)
}

fn give_back<const HOOKS: bool>(
    _pool: &Pool<Maker<HOOKS>>,
    held: Held<HOOKS>,
) -> Result<(), Error<Broken>> {
    assert_eq!(Pooled::give_back(held.unwrap()), Returned::Parked);
    Ok(())
}

fn invalidate<const HOOKS: bool>(
    _pool: &Pool<Maker<HOOKS>>,
    held: Held<HOOKS>,
) -> Result<(), Error<Broken>> {
    assert_eq!(Pooled::invalidate(held.unwrap()), Returned::Destroyed);
    Ok(())
}

fn detach<const HOOKS: bool>(
    _pool: &Pool<Maker<HOOKS>>,
    held: Held<HOOKS>,
) -> Result<(), Error<Broken>> {
    assert_eq!(Pooled::detach(held.unwrap()).id, 0);
    Ok(())
}

fn close<const HOOKS: bool>(
    pool: &Pool<Maker<HOOKS>>,
    _held: Held<HOOKS>,
) -> Result<(), Error<Broken>> {
    assert_eq!(pool.close(), 1);
    Ok(())
}

fn same<const HOOKS: bool>(builder: Builder<Maker<HOOKS>>) -> Builder<Maker<HOOKS>> {
    builder
}

/// A pool in which no borrow waits.
fn hasty<const HOOKS: bool>(builder: Builder<Maker<HOOKS>>) -> Builder<Maker<HOOKS>> {
    builder.block_when_exhausted(false)
}

/// A pool whose borrows first reclaim abandoned objects.
fn reclaiming<const HOOKS: bool>(builder: Builder<Maker<HOOKS>>) -> Builder<Maker<HOOKS>> {
    builder.abandoned(Abandoned::new().on_borrow(true))
}

/// A pool in which each idle object is idle for too long.
fn impatient<const HOOKS: bool>(builder: Builder<Maker<HOOKS>>) -> Builder<Maker<HOOKS>> {
    let time = AtomicU64::new(0);
    builder
        .clock(move || time.fetch_add(100, Ordering::SeqCst))
        .min_evictable_idle(Duration::from_millis(50))
}

fn each_call_needs_its_room<const HOOKS: bool>() {
    let case = |change: Change<HOOKS>, prepare: Prepare<HOOKS>, call: Call<HOOKS>, needs| Case {
        change,
        prepare,
        call,
        needs,
    };
    let cases = [
        case(same, nothing, borrow, 6),
        case(same, one_idle, borrow, 4),
        case(hasty, one_lent, borrow, 1),
        case(reclaiming, nothing, borrow, 7),
        case(reclaiming, one_idle, borrow, 5),
        case(same, nothing, add, 4),
        case(hasty, one_idle, add, 1),
        case(|it| it.min_idle(1), nothing, |it, _| it.fill().map(drop), 5),
        case(same, nothing, |it, _| it.fill().map(drop), 1),
        case(same, one_idle, evict, 2),
        case(|it| it.test_while_idle(true), one_idle, evict, 3),
        case(impatient, one_idle, evict, 1),
        case(same, nothing, |it, _| it.reclaim().map(drop), 1),
        case(same, one_idle, |it, _| it.clear().map(drop), 1),
        case(
            same,
            one_lent,
            |_, held| Pooled::touch(&held.unwrap()).map(drop),
            1,
        ),
        case(same, one_lent, give_back, 0),
        case(same, one_lent, invalidate, 0),
        case(same, one_lent, detach, 0),
        case(same, one_idle, close, 0),
    ];
    for (number, case) in cases.iter().enumerate() {
        let fits: Vec<u64> = (0..9).filter(|&room| case.fits(room).0).collect();
        assert_eq!(fits, Vec::from_iter(case.needs..9), "case {number}");
        let pool = case.fits(case.needs).1;
        pool.close();
        assert_legal(&pool);
    }
}

fn a_journal_is_low_if_it_has_too_little_room_for_a_borrow<const HOOKS: bool>() {
    for (change, least) in [(same as Change<HOOKS>, 6), (reclaiming, 7)] {
        let pool = open(20, change);
        while pool.room() > 0 {
            assert_eq!(pool.is_low(), pool.room() < least, "{}", pool.room());
            pool.reclaim().unwrap();
        }
        assert!(pool.is_low());
    }
    let pool = open::<HOOKS>(400, same);
    while pool.room() > 50 {
        assert_eq!(pool.is_low(), pool.room() < 100, "{}", pool.room());
        pool.reclaim().unwrap();
    }
}

/// A journal that is kept, and one that is handed to a sink.
const KINDS: [fn() -> Journal; 2] = [
    || Journal::Memory(None),
    || {
        let (stored, fails) = (Stored::default(), || false);
        Journal::Segments(when_due(MemorySink { stored, fails }))
    },
];

/// The number of objects that a pool lends at a time before its journal is full.
fn most_lent<const HOOKS: bool>(pool: &Pool<Maker<HOOKS>>) -> usize {
    let borrowed = std::iter::repeat_with(|| pool.try_get());
    let lent: Vec<_> = borrowed.map_while(Result::ok).collect();
    lent.len()
}

fn the_smallest_journal_that_opens_lends_all_objects_at_a_time<const HOOKS: bool>() {
    // For each kind, without and with a reclaim in each borrow: what each loan takes, and what remains.
    let needs: [(Change<HOOKS>, [(u64, u64); 2]); 2] =
        [(same, [(6, 1), (4, 3)]), (reclaiming, [(7, 1), (4, 4)])];
    for (change, of_kinds) in needs {
        for (journal, (each, rest)) in KINDS.into_iter().zip(of_kinds) {
            for objects in [1, 2, 3, 8, 50] {
                let least = each * objects + rest;
                let with = |limit| {
                    let builder = change(Pool::builder()).journal(journal());
                    let builder = builder.max_total(objects as u32).journal_limit(limit);
                    builder.build(Maker::<HOOKS>::default())
                };
                let refused = with(least - 1).map(drop);
                let too_small = OpenError::Contradiction(Contradiction::JournalTooSmall);
                assert_eq!(refused, Err(too_small), "{objects} objects in {least}");
                assert_eq!(most_lent(&with(least).unwrap()), objects as usize);
            }
        }
    }
}

#[test]
fn a_smaller_journal_lends_fewer_objects() {
    for (journal, (each, rest)) in KINDS.into_iter().zip([(6, 1), (4, 3)]) {
        for objects in [1, 2, 8, 50] {
            let limit = each * objects + rest - 1;
            // What a text says is not held against itself.
            let text = format!("journalLimit = {limit}\nmaxTotal = {objects}\n");
            let builder = Pool::builder().settings(&text).unwrap();
            let pool = builder.journal(journal()).build(Maker::<true>::default());
            assert_eq!(most_lent(&pool.unwrap()), objects as usize - 1);
        }
    }
}
