//! Two threads that borrow from r2d2's pool, for `bench/longest_waits`.

mod connections;
#[path = "../waits_rust/waits.rs"]
mod waits;

use std::process::ExitCode;

fn main() -> ExitCode {
    let pool = connections::pool_of(1);
    waits::play(|| pool.get().expect("the connection is returned in time"))
}
