//! Two threads that borrow from a pool of the crate, for `bench/longest_waits`.

mod ids;
mod waits;

use std::process::ExitCode;

fn main() -> ExitCode {
    let pool = ids::pool_of_one();
    waits::play(|| pool.get().expect("the object is returned in time"))
}
