//! An object pool for threads and tasks, over the proved core of Zuphinka.
//!
//! **Proved** is each step of the core: its answer, the entry that it appends to the journal, and that a completing step never fails. In every
//! legal journal no object is made beyond `maxTotal`, none is lent to two at once, and none that was made is lost. Proved is also what a
//! call asks for next, of the core and of the manager, and which of the calls that wait is woken. **Tested, not proved** is this crate: its lock,
//! the sleep of threads and tasks, the values of the objects, their ages ([`Builder::max_lifetime`]), and the binding of the C library. But
//! **the journal of a run can be checked**: `pool check SETTINGS JOURNAL` says whether the answers in this very run were the expected ones.
//!
//! A [`Manager`] makes objects; a [`Pool`] lends them, as [`Pooled`] guards that return them when they are dropped.
//! Tasks borrow with [`Pool::get_async`], over a [`Manager`] or an [`AsyncManager`].
//!
//! ```
//! use zuphinka::{Manager, Pool};
//!
//! struct Buffers;
//!
//! impl Manager for Buffers {
//!     type Object = Vec<u8>;
//!     type Error = std::convert::Infallible;
//!
//!     fn make(&self, _id: u64) -> Result<Vec<u8>, Self::Error> {
//!         Ok(Vec::with_capacity(1 << 16))
//!     }
//!
//!     fn passivate(&self, buffer: &mut Vec<u8>) -> Result<(), Self::Error> {
//!         buffer.clear();
//!         Ok(())
//!     }
//! }
//!
//! let pool = Pool::builder().max_total(4).build(Buffers)?;
//! std::thread::scope(|scope| {
//!     for text in ["one", "two", "three"] {
//!         let pool = &pool;
//!         scope.spawn(move || pool.get().unwrap().extend_from_slice(text.as_bytes()));
//!     }
//! });
//! assert_eq!(pool.counts().lent, 0);
//! # Ok::<(), Box<dyn std::error::Error>>(())
//! ```
//!
//! A borrow that finds nothing waits. Threads and tasks wait in one order, that of arrival, and are woken in it, one for each object or place.
//! But a borrow that finds an idle object takes it at once, even if others wait: this costs no sleep. One that finds its object taken keeps
//! its turn and waits again. One that has waited for 5 ms ([`Builder::overtake_time`]) is overtaken 64 times more at most
//! ([`Builder::max_overtakes`]); then later borrows queue behind it.
//! A thread that waits, for an object or for the pool's lock, pauses for up to 25 µs before it sleeps, if a processor is left for it beside the
//! threads that it waits for.
//!
//! A pool never stops lending because its journal is full: by default it drops the entries, a thousand or more at a time. [`Builder::journal`] keeps
//! them in memory ([`Journal::Memory`]), or stores them in segments ([`Journal::Segments`]), which `pool check` checks as one journal. A thread of the
//! journal's own stores one every second, and the call that finds one due before stores it at its end, also a return, unless it lends an object: then
//! the next call does. If the journal is full, calls wait for the thread that stores one.
//!
//! A loan that never ends is told to a closure ([`Builder::leak_detection`]), and its entries are in the stored journal.
//!
//! The settings of a pool may change while it is in use ([`Pool::reconfigure`]).
//!
//! **A forked child** that does not `exec` has copies of its parent's pools. It may drop their handles, and nothing else: a thread of the parent may
//! have held a lock. Such a drop calls neither the manager nor the sink, and leaks the idle objects, which are the parent's. Forget guards there
//! ([`std::mem::forget`]), since their drop is a call. [`std::process::Command`] does `exec`, so it needs no care.
//!
//! Build the C library first, by `python3 tools/build.py zuphinka`; `build.rs` says where else it may be.
#![warn(missing_docs)]
#![deny(unsafe_op_in_unsafe_fn)]

#[cfg(not(all(
    target_os = "linux",
    target_arch = "x86_64",
    target_pointer_width = "64"
)))]
compile_error!("zuphinka needs Linux on x86-64: its core is a static library for it");

mod appended;
mod async_manager;
mod borrow_return;
mod builder;
mod call;
mod caller_names;
mod callers;
mod clock;
mod contradictions;
mod counts;
mod course;
mod ending;
mod error;
mod escaped;
mod exits;
mod failure;
mod get;
mod getters;
mod handle;
mod in_progress;
mod journal;
mod leaks;
mod locked;
mod locked_pool;
mod maintenance;
mod maintenance_calls;
mod manager;
mod metrics;
mod outlet;
mod panics;
mod pauses;
mod pool;
mod pooled;
mod proved_core;
mod reconfiguring;
mod reports;
mod room;
mod room_waits;
mod segment_folder;
mod segments;
mod settings;
mod settling;
mod shared;
mod sleepers;
mod start;
mod stored_journal;
mod storing;
mod sys;
mod timeouts;
mod values;
mod waits;
mod woken;
mod work;
mod writing;

pub use async_manager::{Async, AsyncManager};
pub use borrow_return::{Returned, Touched};
pub use builder::Builder;
pub use caller_names::CallerName;
pub use callers::caller_number;
pub use counts::Counts;
pub use error::{Contradiction, Error, OpenError, ReconfigureError, SettingsError};
pub use failure::Failure;
pub use get::Get;
pub use journal::Journal;
pub use leaks::{Leak, LeakDetection};
pub use maintenance_calls::{Addition, Eviction, Maintenance};
pub use manager::Manager;
pub use metrics::Metrics;
pub use pool::{Pool, WeakPool};
pub use pooled::Pooled;
pub use segment_folder::SegmentFolder;
pub use segments::{Segment, SegmentSink, Segments, SinkFailure};
pub use settings::Abandoned;
pub use start::Start;
pub use timeouts::Timeout;

// The tests in `src` share what those in `tests` do, which name this crate.
#[cfg(test)]
extern crate self as zuphinka;

/// The compiler rejects a loan that nobody keeps:
///
/// ```compile_fail
/// #![deny(unused_must_use)]
/// fn lend<M: zuphinka::Manager>(pool: &zuphinka::Pool<M>) -> Option<zuphinka::Pooled<M>> {
///     pool.get().ok()
/// }
///
/// fn lose<M: zuphinka::Manager>(pool: &zuphinka::Pool<M>) {
///     lend(pool).unwrap();
/// }
/// ```
///
/// And a detached object that nobody keeps, and settings that nobody has:
///
/// ```compile_fail
/// #![deny(unused_must_use)]
/// fn lose<M: zuphinka::Manager>(held: zuphinka::Pooled<M>) {
///     zuphinka::Pooled::detach(held);
/// }
/// ```
///
/// ```compile_fail
/// #![deny(unused_must_use)]
/// zuphinka::Abandoned::new().on_borrow(true);
/// ```
///
/// ```compile_fail
/// #![deny(unused_must_use)]
/// fn set(segments: zuphinka::Segments) {
///     segments.limit(100);
/// }
/// ```
///
/// And a manager whose error is none of std's:
///
/// ```compile_fail
/// struct Numbers;
///
/// impl zuphinka::Manager for Numbers {
///     type Object = u64;
///     type Error = ();
///
///     fn make(&self, id: u64) -> Result<u64, ()> {
///         Ok(id)
///     }
/// }
/// ```
///
/// And a literal of a struct that may get more fields:
///
/// ```compile_fail
/// let _ = zuphinka::Abandoned { on_borrow: true, ..zuphinka::Abandoned::new() };
/// ```
#[cfg(doctest)]
struct Rejected;

/// The code that the README shows.
#[cfg(doctest)]
#[doc = include_str!("../README.md")]
struct Readme;
