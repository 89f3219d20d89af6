//! A pool of one object over the crate, for `bench/longest_waits`.

use std::convert::Infallible;
use std::time::Duration;
use zuphinka::{Manager, Pool};

/// No thread of the benchmark waits as long for the object.
const LONGEST_WAIT: Duration = Duration::from_secs(600);

/// The value of an object is its id.
pub struct Ids;

impl Manager for Ids {
    type Object = u64;
    type Error = Infallible;
    const ACTIVATES: bool = false;
    const PASSIVATES: bool = false;

    fn make(&self, id: u64) -> Result<u64, Infallible> {
        Ok(id)
    }
}

/// Returns a pool of one object.
pub fn pool_of_one() -> Pool<Ids> {
    let builder = Pool::builder().max_total(1).max_wait(LONGEST_WAIT);
    builder.build(Ids).expect("the settings are valid")
}
