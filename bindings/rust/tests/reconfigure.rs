//! Settings that change while a pool is open: what holds from then on, what stays, and what becomes of the journal.

mod common;
#[path = "common/hooks.rs"]
#[macro_use]
mod hooks;

use common::managers::{kept, pair, pool_with, Clock, Maker, Numbers};
use common::tasks::{poll, ready, Bell, LONGEST};
use common::{
    assert_start_legal, cut_off, entries_of, in_folder_when_due, journal_of, judge_segments,
    new_folder, start_in, when_due,
};
use std::convert::Infallible;
use std::io::{self, Write};
use std::path::Path;
use std::sync::atomic::{AtomicBool, Ordering};
use std::sync::{Arc, Mutex};
use std::task::Poll;
use std::time::Duration;
use std::{error, fs, thread};
use zuphinka::{
    Abandoned, Addition, Builder, Contradiction, Error, Failure, Journal, Manager, Pool, Pooled,
    ReconfigureError, Returned, Segment, SegmentSink, SettingsError, SinkFailure, Touched,
    WeakPool,
};

with_and_without_hooks! {
    more_places_serve_threads_that_wait
    more_places_serve_as_many_tasks
    fewer_places_take_no_object_away
    tests_are_made_as_they_are_set_now
    as_many_are_idle_as_may_be_now
    the_last_or_the_first_is_lent_as_is_set_now
    objects_of_a_lifetime_are_validated_as_is_set_now
    a_wait_that_is_over_goes_on_by_the_new_limit
    what_is_refused_changes_nothing
    a_limit_of_the_journal_itself_stays
    a_journal_that_is_dropped_needs_no_cut
    a_journal_in_memory_keeps_what_was_before
    segments_have_the_settings_of_their_entries
    segments_are_as_long_as_the_new_limit_says
    a_folder_has_each_settings_before_their_segments
    settings_that_are_gone_are_stored_again
    a_segment_that_is_not_stored_keeps_its_settings
    a_segment_that_is_dropped_leaves_a_gap
    who_writes_a_segment_changes_nothing
    a_closed_pool_stays_closed
    what_was_reclaimed_is_gone_whatever_is_set_now
}

const ONE: &str = "maxTotal = 1\nblockWhenExhausted = false\n";
const TWO: &str = "maxTotal = 2\nblockWhenExhausted = false\n";

/// The settings that a pool has by a text, if its journal has the limit of the settings.
fn settings_of(text: &str) -> String {
    let builder = kept().settings(text).unwrap();
    builder.build(Numbers::<false>).unwrap().settings()
}

/// A builder with settings from a text, for a pool whose journal is kept.
fn with<M: Manager>(text: &str) -> Builder<M> {
    kept().settings(text).unwrap()
}

fn change<M: Manager>(pool: &Pool<M>, text: &str) -> u64 {
    pool.reconfigure(text).unwrap()
}

fn more_places_serve_threads_that_wait<const HOOKS: bool>() {
    const WAITING: u64 = 3;
    let pool = with("maxTotal = 1\n").build(Numbers::<HOOKS>).unwrap();
    let held = pool.get().unwrap();
    let lent: Vec<_> = thread::scope(|scope| {
        let borrow = || pool.get_timeout(LONGEST);
        let threads: Vec<_> = (0..WAITING).map(|_| scope.spawn(borrow)).collect();
        while pool.waiting() < WAITING {
            thread::yield_now();
        }
        change(&pool, "maxTotal = 4\n");
        let lent = threads.into_iter().map(|thread| thread.join().unwrap());
        lent.map(Result::unwrap).collect()
    });
    assert_eq!(pool.counts().lent, WAITING + 1);
    assert_eq!(pool.try_get().unwrap_err(), Error::Exhausted);
    drop((held, lent));
    assert_eq!(pool.counts().idle, WAITING + 1);
}

fn more_places_serve_as_many_tasks<const HOOKS: bool>() {
    let stored = when_due(Keeper::default());
    for journal in [
        Journal::Off,
        Journal::Memory(None),
        Journal::Segments(stored),
    ] {
        let builder = with("maxTotal = 1\n").journal(journal);
        let pool = builder.build(Numbers::<HOOKS>).unwrap();
        let held = pool.get().unwrap();
        let bells = [(); 3].map(|()| Bell::new());
        let mut gets = [(); 3].map(|()| pool.get_async());
        for (get, bell) in gets.iter_mut().zip(&bells) {
            assert!(poll(get, bell).is_pending());
        }
        change(&pool, "maxTotal = 3\n");
        let rings: Vec<_> = bells.iter().map(|bell| bell.rings()).collect();
        assert_eq!(rings, [1, 1, 0]);
        let [first, second, third] = &mut gets;
        let lent = [first, second].map(|get| ready(poll(get, &bells[0])).unwrap());
        assert!(poll(third, &bells[2]).is_pending());
        assert_eq!((pool.counts().lent, pool.waiting()), (3, 1));
        drop(held);
        assert_eq!(bells[2].rings(), 1);
        assert_eq!(*ready(poll(third, &bells[2])).unwrap(), 0);
        drop(lent);
    }
}

fn fewer_places_take_no_object_away<const HOOKS: bool>() {
    let text = "maxTotal = 3\nblockWhenExhausted = false\n";
    let pool = with(text).build(Numbers::<HOOKS>).unwrap();
    let [first, second, third] = [(); 3].map(|()| pool.get().unwrap());
    change(&pool, TWO);
    assert_eq!(pool.max_total(), Some(2));
    assert_eq!((pool.counts().lent, pool.counts().destroyed), (3, 0));
    assert_eq!(pool.get().unwrap_err(), Error::Exhausted);
    // One that is idle is lent, and no other is made while two are present.
    drop(first);
    let first = pool.get().unwrap();
    assert_eq!((*first, pool.counts().created), (0, 3));
    assert_eq!(Pooled::invalidate(first), Returned::Destroyed);
    assert_eq!(pool.get().unwrap_err(), Error::Exhausted);
    assert_eq!(pool.add(), Ok(Addition::NoPlace));
    assert_eq!(Pooled::invalidate(second), Returned::Destroyed);
    let fourth = pool.get().unwrap();
    assert_eq!((*fourth, pool.counts().created), (3, 4));
    assert_eq!(pool.get().unwrap_err(), Error::Exhausted);
    drop((third, fourth));
    assert_eq!(pool.counts().idle, 2);
}

/// The calls of a maker since it was asked last, without those of hooks.
fn calls_of<const HOOKS: bool>(maker: &Maker<HOOKS>) -> Vec<String> {
    let mut calls = maker.calls();
    let has_hooks = calls.iter().any(|call| call.contains("ivate"));
    assert!(HOOKS || !has_hooks);
    calls.retain(|call| !call.contains("ivate"));
    calls
}

fn dropped<const HOOKS: bool>(builder: Builder<Maker<HOOKS>>) -> Builder<Maker<HOOKS>> {
    builder.journal(Journal::Off)
}

fn what_was_reclaimed_is_gone_whatever_is_set_now<const HOOKS: bool>() {
    let abandoned = Abandoned::new().on_maintenance(true);
    let abandoned = abandoned.timeout(Duration::from_millis(10));
    let (pool, maker, clock) = pool_with::<HOOKS>(|builder| {
        let builder = dropped(builder).abandoned(abandoned);
        builder.max_lifetime(Duration::from_millis(100))
    });
    let [used, returned, too_old] = [(); 3].map(|()| pool.get().unwrap());
    clock.set(10);
    assert_eq!(pool.reclaim().unwrap(), 3);
    change(&pool, "");
    maker.calls();
    assert_eq!(Pooled::touch(&used).unwrap(), Touched::Gone);
    assert_eq!(Pooled::give_back(returned), Returned::Gone);
    clock.set(100);
    assert_eq!(Pooled::give_back(too_old), Returned::Gone);
    assert_eq!(Pooled::invalidate(used), Returned::Gone);
    assert_eq!(maker.calls(), ["destroy 1", "destroy 2", "destroy 0"]);
}

fn tests_are_made_as_they_are_set_now<const HOOKS: bool>() {
    let (pool, maker, _) = pool_with::<HOOKS>(dropped);
    let none: [&str; 0] = [];
    drop(pool.get().unwrap());
    drop(pool.get().unwrap());
    assert_eq!(pool.evict().unwrap().examined, 1);
    assert_eq!(calls_of(&maker), ["make 0"]);

    change(&pool, "testOnBorrow = true\n");
    assert!(pool.test_on_borrow() && !pool.test_on_return());
    let held = pool.get().unwrap();
    assert_eq!(calls_of(&maker), ["validate 0"]);
    let mut get = pool.get_async();
    let other = ready(poll(&mut get, &Bell::new())).unwrap();
    assert_eq!(calls_of(&maker), ["make 1", "validate 1"]);
    drop(other);
    let mut get = pool.get_async();
    drop(ready(poll(&mut get, &Bell::new())).unwrap());
    assert_eq!(calls_of(&maker), ["validate 1"]);

    change(&pool, "testOnReturn = true\ntestOnCreate = true\n");
    maker.fail("validate");
    assert_eq!(Pooled::give_back(held), Returned::Destroyed);
    assert_eq!(calls_of(&maker), ["validate 0", "destroy 0"]);
    assert_eq!(pool.add(), Ok(Addition::Idle));
    assert_eq!(calls_of(&maker), ["make 2", "validate 2"]);

    change(&pool, "testWhileIdle = true\n");
    assert_eq!(pool.evict().unwrap().examined, 2);
    assert_eq!(calls_of(&maker), ["validate 1", "validate 2"]);
    change(&pool, "");
    drop(pool.get().unwrap());
    assert_eq!(pool.evict().unwrap().examined, 2);
    assert_eq!(calls_of(&maker), none);
}

fn as_many_are_idle_as_may_be_now<const HOOKS: bool>() {
    let (pool, maker, clock) = pool_with::<HOOKS>(dropped);
    let held = [(); 4].map(|()| pool.get().unwrap());
    change(&pool, "maxIdle = 1\n");
    drop(held);
    assert_eq!((pool.counts().idle, pool.counts().destroyed), (1, 3));
    assert_eq!(pool.fill(), Ok(0));
    change(&pool, "minIdle = 3\nminEvictableIdleMillis = 5\n");
    assert_eq!((pool.min_idle(), pool.max_idle()), (3, Some(8)));
    assert_eq!(pool.fill(), Ok(2));
    assert_eq!(maker.dropped().len(), 3);
    clock.set(6);
    assert_eq!(pool.evict().unwrap().destroyed, 3);
}

fn the_last_or_the_first_is_lent_as_is_set_now<const HOOKS: bool>() {
    let (pool, _, _) = pool_with::<HOOKS>(dropped);
    let held = [(); 3].map(|()| pool.get().unwrap());
    // They are dropped in their order.
    drop(held);
    let last = pool.get().unwrap();
    change(&pool, "lifo = false\n");
    let first = pool.get().unwrap();
    assert_eq!((last.id, first.id), (2, 0));
}

fn objects_of_a_lifetime_are_validated_as_is_set_now<const HOOKS: bool>() {
    let lifetime = Duration::from_millis(10);
    let (pool, maker, clock) =
        pool_with::<HOOKS>(|builder| dropped(builder).max_lifetime(lifetime));
    pool.add().unwrap();
    for is_set in [false, true, false] {
        change(&pool, &format!("testWhileIdle = {is_set}\n"));
        assert_eq!(pool.test_while_idle(), is_set);
        assert!(pool.settings().contains("\ntestWhileIdle = true\n"));
        assert_eq!(pool.max_lifetime(), Some(lifetime));
        maker.calls();
        assert_eq!(pool.maintain().unwrap().eviction.destroyed, 0);
        let validated = maker.calls().iter().any(|call| call == "validate 0");
        assert_eq!(validated, is_set);
    }
    clock.set(10);
    assert_eq!(pool.maintain().unwrap().eviction.destroyed, 1);
}

fn a_wait_that_is_over_goes_on_by_the_new_limit<const HOOKS: bool>() {
    let clock = Clock::default();
    let builder = with("maxTotal = 1\nmaxWaitMillis = 10000\n").clock(clock.told());
    let pool = builder.build(Numbers::<HOOKS>).unwrap();
    let _held = pool.get().unwrap();
    let (mut get, bell) = (pool.get_async(), Bell::new());
    assert!(poll(&mut get, &bell).is_pending());
    change(&pool, "maxTotal = 1\nmaxWaitMillis = 100000\n");
    assert_eq!(pool.max_wait(), Some(Duration::from_secs(100)));
    for (time, is_over) in [(10_000, false), (99_999, false), (100_000, true)] {
        clock.set(time);
        match poll(&mut get, &bell) {
            Poll::Pending => assert!(!is_over),
            Poll::Ready(lent) => {
                assert!(is_over);
                assert!(matches!(lent.unwrap_err(), Error::TimedOut(_)));
            }
        }
    }
    // A text that does not name it has the crate's own.
    cut_off(&pool);
    change(&pool, "");
    assert_eq!(pool.max_wait(), Some(Duration::from_secs(30)));
}

/// Changes a pool in vain. Returns why, after it was seen that nothing has changed.
fn refused<M: Manager>(pool: &Pool<M>, text: &str) -> ReconfigureError {
    let look = || {
        (
            pool.settings(),
            pool.counts(),
            pool.room(),
            journal_of(pool),
        )
    };
    let before = look();
    let error = pool.reconfigure(text).unwrap_err();
    assert_eq!(look(), before, "{text}");
    error
}

fn what_is_refused_changes_nothing<const HOOKS: bool>() {
    let pool = with(ONE).build(Numbers::<HOOKS>).unwrap();
    let held = pool.get().unwrap();
    let key = |key: &str| key.to_owned();
    let long = "#".repeat(1 << 20) + "\n";
    let texts = [
        ("maxTotal = 2\nmaxIdle = ", SettingsError::NotToml(2)),
        ("maxTotl = 2", SettingsError::UnknownKey(key("maxTotl"))),
        ("maxTotal = true", SettingsError::WrongType(key("maxTotal"))),
        (
            "maxIdle = -9000000000",
            SettingsError::OutOfRange(key("maxIdle")),
        ),
        (&long, SettingsError::TooLong),
    ];
    for (text, wanted) in texts {
        match refused(&pool, text) {
            ReconfigureError::Settings(error) => assert_eq!(error, wanted),
            error => panic!("{error}"),
        }
    }
    // Five entries free the place and close the pool.
    let small = format!("{TWO}journalLimit = 4\n");
    let error = refused(&pool, &small);
    assert!(matches!(error, ReconfigureError::NoRoom), "{error}");
    assert_eq!(pool.get().unwrap_err(), Error::Exhausted);

    let first = change(&pool, &small.replace('4', "5"));
    assert_eq!((first, pool.room(), pool.journal_limit()), (3, 0, 5));
    assert_eq!(pool.get().unwrap_err(), Error::JournalFull);
    drop(held);
    assert_eq!(pool.close(), 1);
}

fn a_limit_of_the_journal_itself_stays<const HOOKS: bool>() {
    let builder = Pool::builder().journal(Journal::Memory(Some(60)));
    let pool = builder.max_total(2).build(Numbers::<HOOKS>).unwrap();
    assert_eq!(change(&pool, "journalLimit = 4\n"), 0);
    assert_eq!(pool.journal_limit(), 60);
    match refused(&pool, "maxTotal = 100\n") {
        ReconfigureError::Contradiction(found) => {
            assert_eq!(found, Contradiction::JournalTooSmall);
        }
        error => panic!("{error}"),
    }
    assert_eq!(pool.max_total(), Some(8));
}

fn a_journal_that_is_dropped_needs_no_cut<const HOOKS: bool>() {
    let builder = Pool::builder().settings(ONE).unwrap();
    let pool = builder.build(Numbers::<HOOKS>).unwrap();
    for (text, limit) in [(TWO, 2), (ONE, 1), (TWO, 2)] {
        pair(&pool);
        assert_eq!(
            change(&pool, &format!("{text}journalLimit = 5\n")),
            pool.counts().steps
        );
        assert_eq!(
            journal_of(&pool)
                .lines()
                .filter(|line| line.contains(" = "))
                .count(),
            0
        );
        assert_eq!(
            (pool.max_total(), pool.journal_limit()),
            (Some(limit), 1 << 32)
        );
    }
    let held = [(); 2].map(|()| pool.get().unwrap());
    assert_eq!(pool.get().unwrap_err(), Error::Exhausted);
    drop(held);
}

fn a_journal_in_memory_keeps_what_was_before<const HOOKS: bool>() {
    let pool = with(ONE).build(Numbers::<HOOKS>).unwrap();
    // No entries, no segment.
    for text in [TWO, ONE] {
        assert_eq!(change(&pool, text), 0);
    }
    let old = pool.settings();
    let held = pool.get().unwrap();
    assert_eq!(pool.get().unwrap_err(), Error::Exhausted);
    assert_eq!(change(&pool, TWO), 3);
    assert_eq!(entries_of(&journal_of(&pool)).count(), 0);
    let second = pool.get().unwrap();
    let error = refused(&pool, ONE);
    assert!(matches!(error, ReconfigureError::Unwritten), "{error}");
    let before = cut_off(&pool);
    assert!(before.starts_with("pool-journal 2 0 ") && before.ends_with(" = exhausted\n"));
    assert_eq!(judge_segments(&old, &[&before]), "legal 3\n");

    assert_eq!(pool.settings(), settings_of(TWO));
    assert_eq!(change(&pool, ONE), 5);
    let after = cut_off(&pool);
    assert!(after.starts_with("pool-journal 2 3 "));
    assert_eq!(entries_of(&after).count(), 2);
    drop((held, second));
    assert_eq!(entries_of(&journal_of(&pool)).count(), 4);
}

/// Segments that a sink stored: the position, the settings and the text of each.
type Parts = Arc<Mutex<Vec<(u64, String, String)>>>;

/// Stores segments with their settings, unless it is told to fail.
#[derive(Clone, Default)]
struct Keeper {
    stored: Parts,
    is_broken: Arc<AtomicBool>,
}

impl SegmentSink for Keeper {
    fn store(&mut self, segment: &Segment<'_>) -> io::Result<()> {
        if self.is_broken.load(Ordering::SeqCst) {
            return Err(io::ErrorKind::BrokenPipe.into());
        }
        let text = String::from_utf8(segment.text.to_vec()).unwrap();
        assert_eq!(segment.entries, entries_of(&text).count() as u64);
        let settings = segment.settings.to_owned();
        let mut stored = self.stored.lock().unwrap();
        stored.push((segment.position, settings, text));
        Ok(())
    }
}

impl Keeper {
    /// The position, the number of entries and the settings of each segment.
    fn parts(&self) -> Vec<(u64, usize, String)> {
        let stored = self.stored.lock().unwrap();
        let part = |(position, settings, text): &(u64, String, String)| {
            (*position, entries_of(text).count(), settings.clone())
        };
        stored.iter().map(part).collect()
    }

    fn set_broken(&self, is_broken: bool) {
        self.is_broken.store(is_broken, Ordering::SeqCst);
    }
}

/// A pool whose segments are stored by a keeper, with what was reported.
fn stored<const HOOKS: bool>(
    on_failure: SinkFailure,
) -> (Pool<Numbers<HOOKS>>, Keeper, Arc<Mutex<Vec<String>>>) {
    let (keeper, reports) = (Keeper::default(), Arc::new(Mutex::new(Vec::new())));
    let received = Arc::clone(&reports);
    let segments = when_due(keeper.clone()).on_failure(on_failure);
    let builder = with(ONE).journal(Journal::Segments(segments)).on_error(
        move |failure: Failure<Infallible>| received.lock().unwrap().push(failure.to_string()),
    );
    (builder.build(Numbers).unwrap(), keeper, reports)
}

fn segments_have_the_settings_of_their_entries<const HOOKS: bool>() {
    let (pool, keeper, _) = stored::<HOOKS>(SinkFailure::Stop);
    let (one, two) = (settings_of(ONE), settings_of(TWO));
    let held = pool.get().unwrap();
    assert_eq!(change(&pool, TWO), 2);
    assert_eq!(change(&pool, ONE), 2);
    assert_eq!(change(&pool, TWO), 2);
    assert_eq!(keeper.parts(), [(0, 2, one.clone())]);
    pair(&pool);
    assert_eq!(pool.flush_journal().unwrap(), 4);
    pair(&pool);
    assert_eq!(change(&pool, ONE), 10);
    drop(held);
    drop(pool);
    let parts = [(0, 2, &one), (2, 4, &two), (6, 4, &two), (10, 7, &one)];
    let wanted = parts.map(|(position, entries, settings)| (position, entries, settings.clone()));
    assert_eq!(keeper.parts(), wanted);
    let first = keeper.stored.lock().unwrap()[0].2.clone();
    assert_eq!(judge_segments(&one, &[first]), "legal 2\n");
}

fn segments_are_as_long_as_the_new_limit_says<const HOOKS: bool>() {
    let (pool, keeper, _) = stored::<HOOKS>(SinkFailure::Stop);
    change(&pool, "journalLimit = 200\n");
    (0..100).for_each(|_| pair(&pool));
    let lengths: Vec<_> = keeper.parts().iter().map(|part| part.1).collect();
    // Half of the room is used up then.
    assert!((3..5).contains(&lengths.len()), "{lengths:?}");
    assert!(lengths.iter().all(|length| (90..110).contains(length)));
}

/// The files of a folder, by name.
fn files_in(folder: &Path) -> Vec<(String, String)> {
    let read = |entry: io::Result<fs::DirEntry>| {
        let entry = entry.unwrap();
        let text = fs::read_to_string(entry.path()).unwrap();
        (entry.file_name().into_string().unwrap(), text)
    };
    let mut files: Vec<_> = fs::read_dir(folder).unwrap().map(read).collect();
    files.sort();
    files
}

fn a_folder_has_each_settings_before_their_segments<const HOOKS: bool>() {
    let folder = new_folder();
    let path = folder.join("journal");
    let segments = in_folder_when_due(&path);
    let builder = with(ONE).journal(Journal::Segments(segments));
    let pool = builder.build(Numbers::<HOOKS>).unwrap();
    pair(&pool);
    // No segment has the second of these.
    for text in [TWO, "", TWO] {
        change(&pool, text);
    }
    pair(&pool);
    pool.flush_journal().unwrap();
    pair(&pool);
    change(&pool, ONE);
    drop(pool);

    let start = start_in(&path);
    let files = files_in(&start);
    let segment = |position: u64| format!("segment-{position:020}");
    let settings = |position: u64| format!("settings-{position:020}.toml");
    let (one, two) = (settings_of(ONE), settings_of(TWO));
    let stored = [
        (settings(4), two),
        (settings(12), one.clone()),
        ("settings.toml".to_owned(), one),
    ];
    let names: Vec<_> = files.iter().map(|file| file.0.clone()).collect();
    // The entries of the second flush are in the file of the first.
    assert_eq!(names[1..4], [0, 4, 12].map(segment));
    assert_eq!(files[4..7], stored);
    assert_start_legal(&start, 15);
    fs::remove_dir_all(folder).unwrap();
}

fn settings_that_are_gone_are_stored_again<const HOOKS: bool>() {
    let folder = new_folder();
    let segments = in_folder_when_due(&folder);
    let builder = with(ONE).journal(Journal::Segments(segments));
    let pool = builder.build(Numbers::<HOOKS>).unwrap();
    pair(&pool);
    assert_eq!(change(&pool, TWO), 4);
    pair(&pool);
    assert_eq!(pool.flush_journal().unwrap(), 4);
    let start = start_in(&folder);
    let changed = format!("settings-{:020}.toml", 4);
    let names = ["settings.toml", &changed, "start.toml"];
    let texts = names.map(|name| fs::read_to_string(start.join(name)).unwrap());
    assert_eq!(texts[..2], [settings_of(ONE), settings_of(TWO)]);
    // A program moves them to an archive.
    for name in names {
        fs::remove_file(start.join(name)).unwrap();
    }
    pair(&pool);
    drop(pool);
    let again = names.map(|name| fs::read_to_string(start.join(name)).unwrap());
    assert_eq!(again, texts);
    assert_start_legal(&start, 15);
    fs::remove_dir_all(folder).unwrap();
}

fn a_segment_that_is_not_stored_keeps_its_settings<const HOOKS: bool>() {
    let (pool, keeper, reports) = stored::<HOOKS>(SinkFailure::Stop);
    let (one, two) = (settings_of(ONE), settings_of(TWO));
    let held = pool.get().unwrap();
    keeper.set_broken(true);
    assert_eq!(change(&pool, TWO), 2);
    let failed = ["a segment of the journal could not be stored"];
    assert_eq!(*reports.lock().unwrap(), failed);
    assert_eq!(pool.settings(), two);
    let other = pool.get().unwrap();
    let error = refused(&pool, "");
    let source = error::Error::source(&error).unwrap();
    let kind = source.downcast_ref::<io::Error>().unwrap().kind();
    assert_eq!(kind, io::ErrorKind::BrokenPipe);
    assert_eq!(*reports.lock().unwrap(), failed);
    assert_eq!(pool.get().unwrap_err(), Error::Exhausted);

    keeper.set_broken(false);
    assert_eq!(change(&pool, ONE), 5);
    assert_eq!(keeper.parts(), [(0, 2, one), (2, 3, two)]);
    drop((held, other));
}

fn a_segment_that_is_dropped_leaves_a_gap<const HOOKS: bool>() {
    let (pool, keeper, reports) = stored::<HOOKS>(SinkFailure::Drop);
    let one = settings_of(ONE);
    pair(&pool);
    keeper.set_broken(true);
    assert_eq!(change(&pool, TWO), 4);
    pair(&pool);
    assert_eq!(change(&pool, ONE), 8);
    assert_eq!(reports.lock().unwrap().len(), 2);
    keeper.set_broken(false);
    pair(&pool);
    assert_eq!(pool.flush_journal().unwrap(), 4);
    assert_eq!(keeper.parts(), [(8, 4, one)]);
}

/// A sink and a writer that change the settings of their pool in vain.
#[derive(Clone)]
struct Meddler<const HOOKS: bool> {
    pool: Arc<Mutex<Option<Pool<Numbers<HOOKS>>>>>,
}

impl<const HOOKS: bool> Meddler<HOOKS> {
    fn meddle(&self) {
        let pool = self.pool.lock().unwrap().clone();
        let error = pool.map(|pool| pool.reconfigure(TWO).unwrap_err());
        assert!(matches!(error, None | Some(ReconfigureError::FromWriter)));
    }
}

impl<const HOOKS: bool> SegmentSink for Meddler<HOOKS> {
    fn store(&mut self, _segment: &Segment<'_>) -> io::Result<()> {
        self.meddle();
        Ok(())
    }
}

impl<const HOOKS: bool> Write for Meddler<HOOKS> {
    fn write(&mut self, bytes: &[u8]) -> io::Result<usize> {
        self.meddle();
        Ok(bytes.len())
    }

    fn flush(&mut self) -> io::Result<()> {
        Ok(())
    }
}

fn who_writes_a_segment_changes_nothing<const HOOKS: bool>() {
    for is_stored in [true, false] {
        let meddler = Meddler::<HOOKS> {
            pool: Arc::default(),
        };
        let journal = match is_stored {
            true => Journal::Segments(when_due(meddler.clone())),
            false => Journal::Memory(None),
        };
        let pool = with(ONE).journal(journal).build(Numbers).unwrap();
        *meddler.pool.lock().unwrap() = Some(pool.clone());
        pair(&pool);
        let written = match is_stored {
            true => pool.flush_journal(),
            false => pool.cut(meddler.clone()),
        };
        assert_eq!(written.unwrap(), 4);
        assert_eq!(pool.settings(), settings_of(ONE));
        if is_stored {
            pair(&pool);
            assert_eq!(change(&pool, ""), 8);
        }
        *meddler.pool.lock().unwrap() = None;
    }
}

fn a_closed_pool_stays_closed<const HOOKS: bool>() {
    let pool = with(ONE).build(Numbers::<HOOKS>).unwrap();
    let held = pool.get().unwrap();
    pool.close();
    change(&pool, TWO);
    assert!(pool.is_closed());
    assert_eq!(pool.get().unwrap_err(), Error::Closed);
    assert_eq!(Pooled::give_back(held), Returned::Destroyed);
}

/// A manager that writes down its calls, and changes the settings of its pool when it activates an object, if it has a text.
#[derive(Default)]
struct Changing {
    pool: Mutex<Option<WeakPool<Changing>>>,
    text: Mutex<Option<&'static str>>,
    calls: Mutex<Vec<&'static str>>,
}

impl Changing {
    fn call(&self, name: &'static str) {
        self.calls.lock().unwrap().push(name);
    }
}

impl Manager for Changing {
    type Object = u64;
    type Error = Infallible;

    fn make(&self, id: u64) -> Result<u64, Infallible> {
        Ok(id)
    }

    fn activate(&self, _number: &mut u64) -> Result<(), Infallible> {
        self.call("activate");
        let text = self.text.lock().unwrap().take();
        let pool = self
            .pool
            .lock()
            .unwrap()
            .as_ref()
            .and_then(WeakPool::upgrade);
        if let (Some(text), Some(pool)) = (text, pool) {
            change(&pool, text);
        }
        Ok(())
    }

    fn validate(&self, _number: &mut u64) -> bool {
        self.call("validate");
        true
    }

    fn passivate(&self, _number: &mut u64) -> Result<(), Infallible> {
        self.call("passivate");
        Ok(())
    }
}

/// Returns the calls of the manager in a call of its pool, in which it may change the settings.
fn calls_while(
    pool: &Pool<Changing>,
    text: Option<&'static str>,
    call: fn(&Pool<Changing>),
) -> Vec<&'static str> {
    let manager = pool.manager();
    *manager.text.lock().unwrap() = text;
    manager.calls.lock().unwrap().clear();
    call(pool);
    manager.calls.lock().unwrap().clone()
}

#[test]
fn calls_in_progress_go_on_as_they_began() {
    let builder = Pool::builder().settings("testOnBorrow = true\n").unwrap();
    let builder = builder.max_lifetime(Duration::from_secs(3_600));
    let pool = builder.build(Changing::default()).unwrap();
    *pool.manager().pool.lock().unwrap() = Some(pool.downgrade());
    pool.add().unwrap();
    let borrow = |pool: &Pool<Changing>| drop(pool.get().unwrap());
    let evict = |pool: &Pool<Changing>| assert_eq!(pool.evict().unwrap().examined, 1);
    let (all, untested) = (
        ["activate", "validate", "passivate"],
        ["activate", "passivate"],
    );
    assert_eq!(calls_while(&pool, Some(""), borrow), all);
    let tested = "testOnBorrow = true\ntestWhileIdle = true\n";
    assert_eq!(calls_while(&pool, Some(tested), borrow), untested);
    assert_eq!(calls_while(&pool, None, borrow), all);
    // An eviction run that validates an object passivates it too.
    assert_eq!(calls_while(&pool, Some(""), evict), all);
    assert!(calls_while(&pool, None, evict).is_empty());
}
