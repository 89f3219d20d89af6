//! Workers that transfer money between accounts in PostgreSQL over a pool of four connections, for `bench/database`: `database KIND SERVER`.
//!
//! KIND is one of `crate`, `r2d2`, `crate-tasks` and `semaphore-tasks`. SERVER is a connection string, such as `host=localhost user=me`. The
//! standard input has a line for each turn: its workers, and its milliseconds. Each turn has a pool of its own, which has all its connections
//! when the turn begins. Prints a line for each turn, when its pool is closed: its transfers, its time, and the longest wait for a connection.
//! Ends with an error as soon as a transfer fails.

mod tasks;
mod threads;
mod transfers;
mod turns;

use std::{env, io};
use tokio_postgres::Config;
use turns::{Failure, Report, Turn};

const USAGE: &str =
    "usage: database crate|r2d2|crate-tasks|semaphore-tasks SERVER, with lines `WORKERS MILLISECONDS`";

/// Plays a turn over a new pool of a kind.
fn played(kind: &str, server: &Config, turn: &Turn) -> Result<Report, Failure> {
    match kind {
        "crate" => threads::over_crate(server, turn),
        "r2d2" => threads::over_r2d2(server, turn),
        "crate-tasks" => tasks::over_crate(server, turn),
        "semaphore-tasks" => tasks::over_semaphore(server, turn),
        _ => Err(USAGE.into()),
    }
}

fn main() -> Result<(), Failure> {
    let words: Vec<String> = env::args().skip(1).collect();
    let [kind, server] = words.as_slice() else {
        return Err(USAGE.into());
    };
    let server: Config = server.parse()?;
    for line in io::stdin().lines() {
        let turn = Turn::parse(&line?).ok_or(USAGE)?;
        println!("{}", played(kind, &server, &turn)?);
    }
    Ok(())
}
