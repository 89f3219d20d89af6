//! Borrows a session from a pool, uses it and returns it. The journal of the pool goes to a new folder.
//!
//!     cargo run --offline --example first_loan -- first.journal
//!     ../../pool check first.journal/*/settings.toml first.journal/*/segment-*

use std::{convert::Infallible, env, error::Error};
use zuphinka::{Journal, Manager, Pool, Segments};

struct Maker;

impl Manager for Maker {
    type Object = String;
    type Error = Infallible;

    fn make(&self, id: u64) -> Result<String, Infallible> {
        Ok(format!("session {id}")) // connect to your server here
    }
}

fn main() -> Result<(), Box<dyn Error>> {
    let folder = env::args_os().nth(1).ok_or("which folder?")?;
    let journal = Journal::Segments(Segments::in_folder(folder)?);
    let pool = Pool::builder().max_total(2).journal(journal).build(Maker)?;
    let session = pool.get()?; // in any thread; it is returned when it is dropped
    println!("{}", *session);
    Ok(())
}
