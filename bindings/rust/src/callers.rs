//! The numbers of threads in journals.

use crate::panics::unless_it_panics;
use std::sync::atomic::{AtomicU32, Ordering};
use std::thread;

static NEXT: AtomicU32 = AtomicU32::new(0);

thread_local! {
    static NUMBER: u32 = NEXT.fetch_add(1, Ordering::Relaxed);
}

/// Returns the number of this thread in the journals of all pools.
///
/// Threads are numbered from 0, in the order in which they first call a pool or this function. After 2^32 threads the numbers begin again.
#[inline]
pub fn caller_number() -> u32 {
    NUMBER.with(|number| *number)
}

/// Returns the name of this thread, if it has one and there is memory for it. A thread that ends may have none any more.
pub(crate) fn name_of_this_thread() -> Option<String> {
    let this = unless_it_panics(thread::current)?;
    let (name, mut copy) = (this.name()?, String::new());
    copy.try_reserve_exact(name.len()).ok()?;
    copy.push_str(name);
    Some(copy)
}
