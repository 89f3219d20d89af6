//! The end of the program, at which the journals of all open pools are stored.

use crate::panics::unless_it_panics;
use crate::storing::Orders;
use std::cell::Cell;
use std::ffi::c_int;
use std::process;
use std::ptr;
use std::sync::atomic::{AtomicBool, AtomicPtr, Ordering};
use std::sync::{Arc, Mutex, PoisonError, Weak};
use std::time::{Duration, Instant};

extern "C" {
    fn atexit(function: extern "C" fn()) -> c_int;
}

/// For how long the end of the program waits for all sinks together.
const LONGEST: Duration = Duration::from_secs(5);

/// The threads that store journals, in one process.
struct Journals {
    process: u32,
    threads: Mutex<Vec<Weak<Orders>>>,
}

/// A forked child makes one of its own: its parent's lock may have been held by a thread that it does not have.
static JOURNALS: AtomicPtr<Journals> = AtomicPtr::new(ptr::null_mut());

/// Whether the C library calls `at_exit`. It does so in forked children, too.
static IS_CALLED: AtomicBool = AtomicBool::new(false);

thread_local! {
    static STORES: Cell<bool> = const { Cell::new(false) };
}

/// Returns the journals of this process, if it has any.
fn journals() -> Option<&'static Journals> {
    // SAFETY: it is null, or points to a value that is never freed.
    let found = unsafe { JOURNALS.load(Ordering::Acquire).as_ref() };
    found.filter(|journals| journals.process == process::id())
}

/// Returns the journals of this process, whose first caller makes them.
fn own_journals() -> &'static Journals {
    loop {
        if let Some(own) = journals() {
            return own;
        }
        let before = JOURNALS.load(Ordering::Acquire);
        let own = Box::into_raw(Box::new(Journals {
            process: process::id(),
            threads: Mutex::default(),
        }));
        let set = JOURNALS.compare_exchange(before, own, Ordering::AcqRel, Ordering::Acquire);
        if set.is_err() {
            // SAFETY: it is this function's own, and nobody else has its address.
            drop(unsafe { Box::from_raw(own) });
        }
    }
}

/// A thread that stores a journal is told of the end of the program from now on, until its orders are gone.
pub(crate) fn register(thread: &Arc<Orders>) {
    let mut threads = own_journals()
        .threads
        .lock()
        .unwrap_or_else(PoisonError::into_inner);
    threads.retain(|thread| thread.strong_count() > 0);
    threads.push(Arc::downgrade(thread));
    drop(threads);
    if !IS_CALLED.swap(true, Ordering::AcqRel) {
        // SAFETY: the function takes and returns nothing, and does not unwind. If there is no memory for it, nothing is stored at the end.
        unsafe { atexit(at_exit) };
    }
}

/// This thread stores a journal. If it ends the program, in a sink, nothing waits for it.
pub(crate) fn mark_storing_thread() {
    STORES.set(true);
}

/// Has all journals of this process stored, as far as their sinks are quick. It may be called by a thread whose local values are gone.
extern "C" fn at_exit() {
    if STORES.get() {
        return;
    }
    if let Some(journals) = journals() {
        unless_it_panics(|| store_all(journals));
    }
}

fn store_all(journals: &Journals) {
    let end = Instant::now() + LONGEST;
    let threads = journals
        .threads
        .lock()
        .unwrap_or_else(PoisonError::into_inner);
    let threads: Vec<_> = threads.iter().filter_map(Weak::upgrade).collect();
    let asked: Vec<_> = threads.iter().map(|thread| thread.ask()).collect();
    for (thread, order) in threads.iter().zip(asked) {
        thread.wait_until_done(order, end);
    }
}
