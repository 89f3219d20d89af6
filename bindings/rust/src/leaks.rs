//! Loans that last too long.

use crate::callers::{caller_number, name_of_this_thread};
use crate::panics::unless_it_panics;
use std::backtrace::Backtrace;
use std::collections::HashMap;
use std::fmt::{self, Debug, Display, Formatter};
use std::sync::{Arc, Condvar, Mutex, MutexGuard, PoisonError};
use std::time::{Duration, Instant};
use std::{io, thread};

/// A loan that lasts longer than the limit of a [`LeakDetection`].
#[derive(Debug)]
#[non_exhaustive]
pub struct Leak {
    /// The id of the object in the journal.
    pub object: u64,
    /// The number of the caller in the journal, as [`caller_number`](crate::caller_number) returns it.
    pub caller: u32,
    /// The name of the caller's thread. A thread may have none, and so has a task that another thread has polled since.
    pub thread: Option<String>,
    /// How long the object has been lent.
    pub lent_for: Duration,
    /// Where it was lent, if [`LeakDetection::with_backtraces`] asked for that.
    pub backtrace: Option<Backtrace>,
}

/// Writes one line, without the backtrace.
impl Display for Leak {
    fn fmt(&self, f: &mut Formatter<'_>) -> fmt::Result {
        let (object, caller) = (self.object, self.caller);
        write!(
            f,
            "object {object} has been lent for {:?} to caller {caller}",
            self.lent_for
        )?;
        match &self.thread {
            Some(name) => write!(f, ", thread {name:?}"),
            None => Ok(()),
        }
    }
}

/// What is told of a leak.
type OnLeak = Box<dyn Fn(Leak) + Send + Sync>;

/// Finds loans that last too long, for [`Builder::leak_detection`](crate::Builder::leak_detection).
///
/// A thread of the pool's own tells a closure of each such loan, once, soon after the limit is over, though its object may still be returned later. A
/// guard that is forgotten ([`std::mem::forget`]) is told of, and so is an object that was reclaimed and whose holder still has it.
///
/// Each loan then costs a lock of its own, and the copy of a thread's name. **Backtraces cost far more**: several microseconds for each loan, in
/// which the stack is walked. Their symbols are found only when one is written.
///
/// ```
/// # use std::time::Duration;
/// # use zuphinka::{LeakDetection, Manager, Pool};
/// # struct Numbers;
/// # impl Manager for Numbers {
/// #     type Object = u64;
/// #     type Error = std::convert::Infallible;
/// #     fn make(&self, id: u64) -> Result<u64, Self::Error> { Ok(id) }
/// # }
/// let detection = LeakDetection::new(Duration::from_secs(60), |leak| eprintln!("pool: {leak}"));
/// let pool = Pool::builder().leak_detection(detection).build(Numbers)?;
/// # Ok::<(), zuphinka::OpenError>(())
/// ```
pub struct LeakDetection {
    limit: Duration,
    on_leak: OnLeak,
    has_backtraces: bool,
}

impl LeakDetection {
    /// Tells a closure of loans that last longer than a limit, by the system's clock. It is called without the pool's lock, and may call the pool. A
    /// panic of it is ignored.
    pub fn new(limit: Duration, on_leak: impl Fn(Leak) + Send + Sync + 'static) -> LeakDetection {
        LeakDetection {
            limit,
            on_leak: Box::new(on_leak),
            has_backtraces: false,
        }
    }

    /// Notes for each loan where it is lent.
    #[must_use = "the detection has backtraces only if this one is used"]
    pub fn with_backtraces(mut self) -> LeakDetection {
        self.has_backtraces = true;
        self
    }

    /// Starts the thread that finds the loans of a pool.
    pub(crate) fn start(self) -> io::Result<LeakWatch> {
        let loans = Arc::new(Loans {
            detection: self,
            watched: Mutex::default(),
            ended: Condvar::new(),
        });
        let own = Arc::clone(&loans);
        let named = thread::Builder::new().name("zuphinka-leaks".to_owned());
        named.spawn(move || own.watch())?;
        Ok(LeakWatch { loans })
    }
}

impl Debug for LeakDetection {
    fn fmt(&self, f: &mut Formatter<'_>) -> fmt::Result {
        f.debug_struct("LeakDetection")
            .field("limit", &self.limit)
            .field("has_backtraces", &self.has_backtraces)
            .finish_non_exhaustive()
    }
}

/// A loan that is watched.
struct WatchedLoan {
    begin: Instant,
    caller: u32,
    thread: Option<String>,
    backtrace: Option<Backtrace>,
}

/// The loans of a pool by the ids of their objects, except those that were told of.
#[derive(Default)]
struct Watched {
    is_over: bool,
    loans: HashMap<u64, WatchedLoan>,
}

struct Loans {
    detection: LeakDetection,
    watched: Mutex<Watched>,
    ended: Condvar,
}

impl Loans {
    fn watched(&self) -> MutexGuard<'_, Watched> {
        self.watched.lock().unwrap_or_else(PoisonError::into_inner)
    }

    /// Tells of loans until the pool is gone.
    fn watch(&self) {
        while let Some(leaks) = self.wait_for_leaks() {
            for leak in leaks {
                unless_it_panics(|| (self.detection.on_leak)(leak));
            }
        }
    }

    /// Waits until loans have lasted too long. Returns none if the pool is gone.
    fn wait_for_leaks(&self) -> Option<Vec<Leak>> {
        let limit = self.detection.limit;
        let mut watched = self.watched();
        while !watched.is_over {
            let now = Instant::now();
            let is_late = |loan: &WatchedLoan| now.saturating_duration_since(loan.begin) > limit;
            let late = watched.loans.iter().filter(|(_, loan)| is_late(loan));
            let late: Vec<u64> = late.map(|(object, _)| *object).collect();
            if !late.is_empty() {
                let leaks = late
                    .into_iter()
                    .filter_map(|object| watched.take_leak(object, now));
                let mut leaks: Vec<_> = leaks.collect();
                leaks.sort_by_key(|leak| std::cmp::Reverse(leak.lent_for));
                return Some(leaks);
            }
            // A loan that begins meanwhile is not late before.
            let first = watched.loans.values().map(|loan| loan.begin).min();
            let waited = first.map_or(Duration::ZERO, |first| now.saturating_duration_since(first));
            let left = limit
                .saturating_sub(waited)
                .saturating_add(Duration::from_millis(1));
            let woken = self.ended.wait_timeout(watched, left);
            watched = woken.unwrap_or_else(PoisonError::into_inner).0;
        }
        None
    }
}

impl Watched {
    /// Takes a loan that lasts too long.
    fn take_leak(&mut self, object: u64, now: Instant) -> Option<Leak> {
        let loan = self.loans.remove(&object)?;
        Some(Leak {
            object,
            caller: loan.caller,
            thread: loan.thread,
            lent_for: now.saturating_duration_since(loan.begin),
            backtrace: loan.backtrace,
        })
    }
}

/// The loans of a pool, whose thread ends with this.
pub(crate) struct LeakWatch {
    loans: Arc<Loans>,
}

impl LeakWatch {
    /// A loan begins. If there is no memory to note it, it is not watched.
    pub fn begin(&self, object: u64, caller: u32) {
        let is_callers = caller == caller_number();
        let loan = WatchedLoan {
            begin: Instant::now(),
            caller,
            thread: is_callers.then(name_of_this_thread).flatten(),
            backtrace: (self.loans.detection.has_backtraces).then(Backtrace::force_capture),
        };
        let mut watched = self.loans.watched();
        if watched.loans.try_reserve(1).is_ok() {
            watched.loans.insert(object, loan);
        }
    }

    /// A loan ends.
    pub fn end(&self, object: u64) {
        let ended = self.loans.watched().loans.remove(&object);
        drop(ended);
    }
}

impl Drop for LeakWatch {
    fn drop(&mut self) {
        self.loans.watched().is_over = true;
        self.loans.ended.notify_all();
    }
}
