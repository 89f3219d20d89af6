//! The settings of a pool to be opened, one call for each, and its opening.

use crate::clock::{Clock, GivenClock};
use crate::contradictions::Chosen;
use crate::error::{OpenError, SettingsError};
use crate::failure::Failure;
use crate::handle::Handle;
use crate::journal::Journal;
use crate::leaks::LeakDetection;
use crate::locked_pool::LockedPool;
use crate::maintenance::{Maintainer, Start};
use crate::manager::Manager;
use crate::outlet::Outlet;
use crate::pool::Pool;
use crate::proved_core::{Core, OpenFault};
use crate::reports::{OnError, Reports};
use crate::segments::Segments;
use crate::settings::{millis, Abandoned, Settings, Setup, DEFAULT_WAIT_MILLIS};
use crate::shared::{Policy, Shared};
use crate::start::Start as PoolStart;
use crate::stored_journal::Mode;
use crate::storing::Storer;
use crate::sys;
use std::fmt;
use std::io;
use std::sync::Arc;
use std::time::Duration;

/// The settings of a pool to be opened. The brackets have the name of the property, in settings files and in `docs/settings.md`, and its
/// default, which is that of Commons Pool 2 unless the text says otherwise.
///
/// A time is rounded up to whole milliseconds.
#[must_use = "a builder does nothing until `build` is called"]
pub struct Builder<M: Manager> {
    settings: Settings,
    /// Whether some of the settings were set.
    is_set: bool,
    chosen: Chosen,
    journal: Journal,
    clock: Option<GivenClock>,
    max_lifetime: Option<Duration>,
    on_error: Option<OnError<M>>,
    overtake_time: Duration,
    max_overtakes: u32,
    maintenance: Option<(Start<M>, Duration)>,
    name: Option<Arc<str>>,
    leak_detection: Option<LeakDetection>,
}

/// Returns a number of objects, or -1 for no limit.
fn limit(number: Option<u32>) -> i64 {
    number.map_or(-1, i64::from)
}

/// Returns a time in milliseconds, or -1 for no limit.
fn limit_in_millis(time: Option<Duration>) -> i64 {
    time.map_or(-1, millis)
}

impl<M: Manager> Builder<M> {
    pub(crate) fn new() -> Builder<M> {
        Builder {
            settings: Settings {
                max_wait_millis: DEFAULT_WAIT_MILLIS,
                ..Settings::default()
            },
            is_set: false,
            chosen: Chosen::default(),
            journal: Journal::default(),
            clock: None,
            max_lifetime: None,
            on_error: None,
            overtake_time: DEFAULT_OVERTAKE_TIME,
            max_overtakes: DEFAULT_OVERTAKES,
            maintenance: None,
            name: None,
            leak_detection: None,
        }
    }

    /// Returns the settings, of which one is set.
    fn own(&mut self) -> &mut Settings {
        self.is_set = true;
        &mut self.settings
    }

    /// Takes all settings from a text in TOML, like that of a settings file. Settings that it does not name have their defaults. So the wait has a
    /// limit of 30 seconds unless the text names `maxWaitMillis`. Call it before the methods that set one each, which then change what the text says.
    ///
    /// ```
    /// # use zuphinka::{Manager, Pool, SettingsError};
    /// # struct Numbers;
    /// # impl Manager for Numbers {
    /// #     type Object = u64;
    /// #     type Error = std::convert::Infallible;
    /// #     fn make(&self, id: u64) -> Result<u64, Self::Error> { Ok(id) }
    /// # }
    /// let pool = Pool::builder().settings("maxTotal = 1\nblockWhenExhausted = false\n")?.build(Numbers).unwrap();
    /// let refused = Pool::<Numbers>::builder().settings("maxTotl = 4").unwrap_err();
    /// assert_eq!(refused, SettingsError::UnknownKey("maxTotl".to_owned()));
    /// # Ok::<(), SettingsError>(())
    /// ```
    ///
    /// # Errors
    ///
    /// The text is not TOML, or one of its keys or values is invalid. [`SettingsError::NotFirst`]: settings were set before, which the text would
    /// replace.
    pub fn settings(mut self, toml: &str) -> Result<Builder<M>, SettingsError> {
        if self.is_set {
            return Err(SettingsError::NotFirst);
        }
        *self.own() = Settings::of_pool(toml)?;
        Ok(self)
    }

    /// Sets the most objects at one time, lent ones included, up to 2^31 - 1; `None`: no limit (`maxTotal`, 8).
    pub fn max_total(mut self, objects: impl Into<Option<u32>>) -> Builder<M> {
        self.own().max_total = limit(objects.into());
        self.chosen.max_total = true;
        self
    }

    /// Sets the most idle objects, up to 2^31 - 1: an object that is returned when this many are idle is destroyed; `None`: no limit (`maxIdle`, 8).
    pub fn max_idle(mut self, objects: impl Into<Option<u32>>) -> Builder<M> {
        self.own().max_idle = limit(objects.into());
        self.chosen.max_idle = true;
        self
    }

    /// Sets how many idle objects [`fill`](Pool::fill) and [`maintain`](Pool::maintain) keep ready, up to 2^31 - 1 (`minIdle`, 0).
    pub fn min_idle(mut self, objects: u32) -> Builder<M> {
        self.own().min_idle = objects.into();
        self.chosen.min_idle = true;
        self
    }

    /// Sets whether the object that was returned last is lent next, instead of the one that was idle longest (`lifo`, true).
    pub fn lifo(mut self, is_set: bool) -> Builder<M> {
        self.own().lifo = is_set;
        self
    }

    /// Sets whether [`get`](Pool::get) waits for an object if all are lent (`blockWhenExhausted`, true).
    pub fn block_when_exhausted(mut self, is_set: bool) -> Builder<M> {
        self.own().block_when_exhausted = is_set;
        self.chosen.blocking = true;
        self
    }

    /// Sets how long a borrow waits at most, up to 2^53 milliseconds; `None`: no limit (`maxWaitMillis`, 30 seconds; in Commons Pool 2 there is
    /// no limit).
    pub fn max_wait(mut self, time: impl Into<Option<Duration>>) -> Builder<M> {
        self.own().max_wait_millis = limit_in_millis(time.into());
        self.chosen.max_wait = true;
        self
    }

    /// Sets whether a new object is validated (`testOnCreate`, false).
    pub fn test_on_create(mut self, is_set: bool) -> Builder<M> {
        self.own().test_on_create = is_set;
        self
    }

    /// Sets whether an object is validated before it is lent (`testOnBorrow`, false).
    pub fn test_on_borrow(mut self, is_set: bool) -> Builder<M> {
        self.own().test_on_borrow = is_set;
        self
    }

    /// Sets whether an object is validated at its return (`testOnReturn`, false).
    pub fn test_on_return(mut self, is_set: bool) -> Builder<M> {
        self.own().test_on_return = is_set;
        self
    }

    /// Sets whether an eviction run validates the objects that it does not evict (`testWhileIdle`, false).
    pub fn test_while_idle(mut self, is_set: bool) -> Builder<M> {
        self.own().test_while_idle = is_set;
        self
    }

    /// Sets how long an object may be idle, up to 2^53 milliseconds: an eviction run destroys it after that; `None` or no time: for ever
    /// (`minEvictableIdleMillis`, 30 minutes).
    pub fn min_evictable_idle(mut self, time: impl Into<Option<Duration>>) -> Builder<M> {
        self.own().min_evictable_idle_millis = limit_in_millis(time.into());
        self
    }

    /// Sets the same for a pool in which more than `minIdle` objects are idle (`softMinEvictableIdleMillis`, none).
    pub fn soft_min_evictable_idle(mut self, time: impl Into<Option<Duration>>) -> Builder<M> {
        self.own().soft_min_evictable_idle_millis = limit_in_millis(time.into());
        self
    }

    /// Sets how many objects an eviction run examines; `-n`: one *n*-th of the idle ones, rounded up (`numTestsPerEvictionRun`, 3).
    pub fn tests_per_eviction_run(mut self, tests: i32) -> Builder<M> {
        self.own().num_tests_per_eviction_run = tests.into();
        self
    }

    /// Sets how long a borrow waits, by the pool's clock, while any number of later borrows may overtake it (5 milliseconds).
    ///
    /// A later borrow overtakes those who wait if it takes an object or a place, and no more are there than borrows that wait. Overtaking costs no
    /// sleep, so a long time lends more objects per second where many wait. A short one makes the longest wait shorter.
    pub fn overtake_time(mut self, time: Duration) -> Builder<M> {
        self.overtake_time = time;
        self
    }

    /// Sets how often a borrow is overtaken at most once it has waited for [`overtake_time`](Builder::overtake_time), from 0 to 2^32 - 1 (64; in
    /// Commons Pool 2 there is no limit unless `fairness` is set). With 0 and no time the pool is fair.
    ///
    /// Once the oldest was overtaken so often, or has waited for that time and one was woken and found nothing, later borrows queue behind those who
    /// wait, until one has its object or leaves. A borrow that does not wait then fails as if nothing were there.
    ///
    /// From 2^31 - 1 on there is no limit, as in Commons Pool 2, and no borrow queues while there is an object or a place.
    pub fn max_overtakes(mut self, times: u32) -> Builder<M> {
        self.max_overtakes = times;
        self
    }

    /// Sets whether those who wait are served in the order of arrival and nobody overtakes them (false), as `fairness` does in Commons Pool 2. It
    /// sets [`overtake_time`](Builder::overtake_time) and [`max_overtakes`](Builder::max_overtakes): to 0 if the pool is fair, and otherwise to their
    /// defaults.
    pub fn fair(self, is_fair: bool) -> Builder<M> {
        match is_fair {
            true => self.overtake_time(Duration::ZERO).max_overtakes(0),
            false => self
                .overtake_time(DEFAULT_OVERTAKE_TIME)
                .max_overtakes(DEFAULT_OVERTAKES),
        }
    }

    /// Sets what becomes of the journal. The default is [`Journal::Off`].
    pub fn journal(mut self, journal: Journal) -> Builder<M> {
        self.journal = journal;
        self
    }

    /// Sets how many entries the journal has at most in memory, from 1 to 2^32 (`journalLimit`, 1,000,000). It applies to
    /// [`Journal::Memory`] and [`Journal::Segments`], if these have no limit of their own. With [`Journal::Off`] it has no effect.
    pub fn journal_limit(mut self, entries: u64) -> Builder<M> {
        self.own().journal_limit = i64::try_from(entries).unwrap_or(i64::MAX);
        self.chosen.journal_limit = true;
        self
    }

    /// Sets when lent objects count as abandoned and lose their places; `None`: never (`[abandoned]`, none).
    pub fn abandoned(mut self, abandoned: impl Into<Option<Abandoned>>) -> Builder<M> {
        self.own().abandoned = abandoned.into();
        self.chosen.abandoned = true;
        self
    }

    /// Sets a clock that returns times in milliseconds, instead of the time since the pool was opened. It may be read under the pool's
    /// lock, and must not call the pool.
    ///
    /// Times in the journal never decrease: a time before that of the last entry counts as that one, also the time at which a borrow begins. If
    /// the clock panics, the time of the last entry is taken. What it panicked with is dropped then, and must not call the pool either.
    ///
    /// A borrow that waits does so up to [`max_wait`](Builder::max_wait) by this clock, and no longer than that by the system's: it ends also if this
    /// clock is set back or stands still, and makes no entry then.
    ///
    /// ```
    /// # use std::sync::{Arc, atomic::{AtomicU64, Ordering}};
    /// # use zuphinka::{Manager, Pool};
    /// # struct Numbers;
    /// # impl Manager for Numbers {
    /// #     type Object = u64;
    /// #     type Error = std::convert::Infallible;
    /// #     fn make(&self, id: u64) -> Result<u64, Self::Error> { Ok(id) }
    /// # }
    /// let now = Arc::new(AtomicU64::new(0));
    /// let told = Arc::clone(&now);
    /// let pool = Pool::builder().clock(move || told.load(Ordering::Relaxed)).build(Numbers)?;
    /// drop(pool.get().unwrap());
    /// now.store(1_800_001, Ordering::Relaxed);
    /// assert_eq!(pool.evict().unwrap().destroyed, 1);
    /// # Ok::<(), zuphinka::OpenError>(())
    /// ```
    pub fn clock(mut self, clock: impl Fn() -> u64 + Send + Sync + 'static) -> Builder<M> {
        self.clock = Some(Box::new(clock));
        self
    }

    /// Sets the age at which objects are destroyed; `None`: none is destroyed for its age, which is the default. An object is destroyed at its
    /// return, or by [`maintain`](Pool::maintain) and [`evict`](Pool::evict) while it is idle; no object is taken from its holder.
    ///
    /// Eviction runs then test each object that they examine (`testWhileIdle` is set in [`Pool::settings`], and `numTestsPerEvictionRun` to 1 if it
    /// is 0), but validate it only if you set [`test_while_idle`](Builder::test_while_idle), and not for 0. In the journal the age is a failed test, and the return of an object that is too old is an
    /// invalidation.
    pub fn max_lifetime(mut self, time: impl Into<Option<Duration>>) -> Builder<M> {
        self.max_lifetime = time.into();
        self
    }

    /// Sets what receives the [failures](Failure) that no call returns: of objects that are not passivated, of idle ones that are not activated or
    /// do not pass a test, of sinks, and of the maintenance thread. It is called without the pool's lock, by the thread in whose call
    /// it happened. A panic of it is ignored. Without it these failures are ignored.
    ///
    /// It may call the pool. Failures that happen in its own calls of the pool are not passed to it. The crate itself writes to no log: call
    /// your logger here.
    ///
    /// ```
    /// # use zuphinka::{Manager, Pool};
    /// # struct Numbers;
    /// # impl Manager for Numbers {
    /// #     type Object = u64;
    /// #     type Error = std::io::Error;
    /// #     fn make(&self, id: u64) -> std::io::Result<u64> { Ok(id) }
    /// # }
    /// let pool = Pool::builder().on_error(|failure| eprintln!("pool: {failure}")).build(Numbers)?;
    /// # Ok::<(), zuphinka::OpenError>(())
    /// ```
    pub fn on_error(
        mut self,
        on_error: impl Fn(Failure<M::Error>) + Send + Sync + 'static,
    ) -> Builder<M> {
        self.on_error = Some(Box::new(on_error));
        self
    }

    /// Sets a name of the pool, which the messages of [`Timeout`](crate::Timeout) have; any text. Without it they have none.
    pub fn name(mut self, name: impl Into<Arc<str>>) -> Builder<M> {
        self.name = Some(name.into());
        self
    }

    /// Has a closure told of each loan that lasts too long; `None`: of none, which is the default. See [`LeakDetection`].
    pub fn leak_detection(mut self, detection: impl Into<Option<LeakDetection>>) -> Builder<M> {
        self.leak_detection = detection.into();
        self
    }

    /// Opens a pool with these settings. It makes no object yet.
    ///
    /// # Errors
    ///
    /// A number or a time is out of its range, settings contradict each other, there is no memory, or the pool's own thread cannot be started.
    pub fn build(mut self, manager: M) -> Result<Pool<M>, OpenError> {
        check_ranges(&self.settings, "journal_limit")?;
        let clock = match self.clock.take() {
            Some(clock) => Clock::Given(clock),
            None => Clock::since_now(),
        };
        let (mode, journal_limit, stored) = self.take_journal();
        let store_every = stored.as_ref().and_then(|segments| segments.store_every);
        let outlet = stored.map(|segments| {
            let time = clock.read().map(|at| at.millis);
            Outlet::new(segments, PoolStart::now(time))
        });
        let mut policy = self.take_policy(journal_limit);
        self.chosen.journal_limit |= journal_limit.is_some();
        let setup = policy.setup(self.settings);
        let limits = match mode {
            Mode::Segments => "Segments::limit",
            Mode::Memory | Mode::Off => "Journal::Memory",
        };
        check_ranges(&setup.settings, limits)?;
        if let Some(found) = self.chosen.contradiction(&setup.settings, mode) {
            return Err(OpenError::Contradiction(found));
        }
        let options = sys::Options {
            pool: 0,
            max_overtakes: policy.max_overtakes.into(),
            overtake_millis: policy.overtake_millis,
            activates: M::ACTIVATES,
            validates: true,
            passivates: M::PASSIVATES,
            drops_journal: mode == Mode::Off,
        };
        let state = LockedPool::new(open_core(&setup, &options)?, mode, setup);
        let leaks = self.leak_detection.map(LeakDetection::start).transpose();
        policy.leaks = leaks.map_err(no_thread)?;
        let mut pool = Arc::new(Shared::new(state, clock, outlet, manager, policy));
        start_threads(&pool, store_every, self.maintenance).map_err(|error| {
            // Nobody has had the pool, so its end stores nothing.
            drop(Arc::get_mut(&mut pool).map(|pool| pool.outlet.take()));
            no_thread(error)
        })?;
        let has_threads = store_every.is_some() || self.maintenance.is_some();
        Ok(Pool::of(Handle::new(pool, has_threads)))
    }

    /// Returns what the pool does of its own, with a limit of its journal, if that has one.
    fn take_policy(&mut self, journal_limit: Option<u64>) -> Policy<M> {
        Policy {
            max_lifetime: self.max_lifetime.map(|time| millis(time).unsigned_abs()),
            journal_limit,
            overtake_millis: millis(self.overtake_time).unsigned_abs(),
            max_overtakes: self.max_overtakes,
            reports: Reports::new(self.on_error.take()),
            name: self.name.take(),
            leaks: None,
        }
    }

    /// Returns what becomes of the journal, and the limit that it has whatever the settings say.
    fn take_journal(&mut self) -> (Mode, Option<u64>, Option<Segments>) {
        match std::mem::take(&mut self.journal) {
            Journal::Off => (Mode::Off, Some(GREATEST_LIMIT), None),
            Journal::Memory(limit) => (Mode::Memory, limit, None),
            Journal::Segments(segments) => (Mode::Segments, segments.limit, Some(segments)),
        }
    }
}

/// The keys of the settings that may be out of their ranges, and the methods that set them.
const METHODS: [(&str, &str); 7] = [
    ("maxIdle", "max_idle"),
    ("maxTotal", "max_total"),
    ("maxWaitMillis", "max_wait"),
    ("minEvictableIdleMillis", "min_evictable_idle"),
    ("minIdle", "min_idle"),
    ("softMinEvictableIdleMillis", "soft_min_evictable_idle"),
    (
        "abandoned.removeAbandonedTimeoutMillis",
        "Abandoned::timeout",
    ),
];

/// Fails if a setting is out of its range, with the method that sets it. The limit of the journal has its method here.
fn check_ranges(settings: &Settings, of_journal: &'static str) -> Result<(), OpenError> {
    match Settings::from_toml(&settings.to_string()) {
        Ok(_) => Ok(()),
        Err(SettingsError::OutOfRange(key)) => {
            let method = METHODS.iter().find(|pair| pair.0 == key);
            Err(OpenError::OutOfRange(
                method.map_or(of_journal, |pair| pair.1),
            ))
        }
        Err(error) => Err(error.into()),
    }
}

fn no_thread(error: io::Error) -> OpenError {
    OpenError::Thread(error.kind())
}

/// Starts the threads that store the journal and maintain the pool, if they are asked for. If one cannot be started, the pool stores nothing.
fn start_threads<M: Manager>(
    pool: &Arc<Shared<M>>,
    store_every: Option<Duration>,
    maintenance: Option<(Start<M>, Duration)>,
) -> io::Result<()> {
    let storer = store_every.map(Storer::start).transpose()?;
    if let Some((start, time)) = maintenance {
        *pool.maintainer() = Some(start(pool, time)?);
    }
    if let Some(storer) = storer {
        storer.serve(pool);
    }
    Ok(())
}

/// Opens a core with valid settings.
fn open_core(setup: &Setup, options: &sys::Options) -> Result<Core, OpenError> {
    Core::open(&setup.text, options).map_err(|fault| match fault {
        OpenFault::OutOfMemory => OpenError::OutOfMemory,
        OpenFault::Settings(status) => {
            unreachable!("the core refuses its settings with status {status}")
        }
    })
}

impl<M: Manager + 'static> Builder<M> {
    /// Starts a thread of the pool's own that calls [`maintain`](Pool::maintain): at once, and then this long after each round, at least one
    /// millisecond. Its errors go to [`on_error`](Builder::on_error). The thread ends when the pool is closed, once it has done its round, or when
    /// the last handle and the last lent object are gone. Their drop does not wait for the round, which may need what this thread has: a lock, or its
    /// runtime. What the round still does then is stored at its end, as the rest of the journal. [`close_and_wait`](Pool::close_and_wait) waits for it.
    pub fn maintain_every(mut self, time: Duration) -> Builder<M> {
        self.maintenance = Some((Maintainer::start, time));
        self
    }
}

/// For how long a waiter is overtaken without a limit, if nothing else is set.
const DEFAULT_OVERTAKE_TIME: Duration = Duration::from_millis(5);

/// How often a waiter is overtaken at most after that, if nothing else is set.
const DEFAULT_OVERTAKES: u32 = 64;

/// The greatest `journalLimit`.
const GREATEST_LIMIT: u64 = 1 << 32;

impl<M: Manager> fmt::Debug for Builder<M> {
    fn fmt(&self, f: &mut fmt::Formatter<'_>) -> fmt::Result {
        f.debug_struct("Builder")
            .field("settings", &self.settings)
            .finish_non_exhaustive()
    }
}
