//! A pool of r2d2, for benchmarks. A connection is the number of its uses, and the manager does nothing.

use std::convert::Infallible;
use std::sync::atomic::{AtomicU64, Ordering};
use std::time::Duration;

/// No thread of a benchmark waits as long for a connection.
const LONGEST_WAIT: Duration = Duration::from_secs(600);

/// How many connections were made.
pub static CREATED: AtomicU64 = AtomicU64::new(0);

pub struct Counters;

impl r2d2::ManageConnection for Counters {
    type Connection = u64;
    type Error = Infallible;

    fn connect(&self) -> Result<u64, Infallible> {
        CREATED.fetch_add(1, Ordering::Relaxed);
        Ok(0)
    }

    fn is_valid(&self, _: &mut u64) -> Result<(), Infallible> {
        Ok(())
    }

    fn has_broken(&self, _: &mut u64) -> bool {
        false
    }
}

/// Returns a pool of a number of connections.
pub fn pool_of(objects: u32) -> r2d2::Pool<Counters> {
    r2d2::Pool::builder()
        .max_size(objects)
        .test_on_check_out(false)
        .max_lifetime(None)
        .idle_timeout(None)
        .connection_timeout(LONGEST_WAIT)
        .build(Counters)
        .expect("connections cannot fail")
}
