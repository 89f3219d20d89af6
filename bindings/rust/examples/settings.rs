//! Writes all settings of a settings file, those that it leaves out with their defaults, of a pool that keeps its journal in memory.
//!
//!     cargo run --offline --example settings -- ../../examples/patient.toml

use std::convert::Infallible;
use std::error::Error;
use std::{env, fs};
use zuphinka::{Journal, Manager, Pool};

/// A manager that is never asked for an object.
struct Nothing;

impl Manager for Nothing {
    type Object = ();
    type Error = Infallible;

    fn make(&self, _id: u64) -> Result<(), Infallible> {
        Ok(())
    }
}

fn main() -> Result<(), Box<dyn Error>> {
    let path = env::args_os().nth(1).ok_or("which settings file?")?;
    let pool = Pool::builder()
        .journal(Journal::Memory(None))
        .settings(&fs::read_to_string(path)?)?
        .build(Nothing)?;
    print!("{}", pool.settings());
    Ok(())
}
