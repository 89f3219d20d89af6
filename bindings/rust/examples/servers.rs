//! Four servers answer requests over a pool of three connections, while a keeper maintains it. The pool's journal is stored in a new
//! folder, in segments, so that the servers could run for years.
//!
//!     cargo run --offline --example servers -- servers.journal
//!     ../../pool check servers.journal/*/settings.toml servers.journal/*/segment-*

use std::env;
use std::error::Error;
use std::io;
use std::sync::atomic::{AtomicBool, Ordering};
use std::thread;
use std::time::Duration;
use zuphinka::{Journal, Manager, Pool, Segments};

const SETTINGS: &str = include_str!("servers.toml");
const SERVERS: u64 = 4;
const REQUESTS: u64 = 50;

/// A connection to something that answers.
struct Connection {
    is_broken: bool,
}

impl Connection {
    /// Each tenth request breaks the connection over which it goes.
    fn ask(&mut self, request: u64) -> Result<u64, Broken> {
        self.is_broken = request % 10 == 9;
        if self.is_broken {
            Err(Broken)
        } else {
            Ok(request * request)
        }
    }
}

#[derive(Debug)]
struct Broken;

/// Makes connections, which takes a while.
struct Connector;

impl Manager for Connector {
    type Object = Connection;
    type Error = io::Error;

    fn make(&self, _id: u64) -> io::Result<Connection> {
        thread::sleep(Duration::from_millis(2));
        Ok(Connection { is_broken: false })
    }

    fn validate(&self, connection: &mut Connection) -> bool {
        !connection.is_broken
    }
}

/// How many requests were answered. A connection that broke is destroyed when it comes back, by the test of `testOnReturn`.
fn serve(pool: &Pool<Connector>) -> u64 {
    let mut answered = 0;
    for request in 0..REQUESTS {
        match pool.get_timeout(Duration::from_secs(5)) {
            Ok(mut connection) => answered += u64::from(connection.ask(request).is_ok()),
            Err(error) => eprintln!("request {request}: {error}"),
        }
    }
    answered
}

fn main() -> Result<(), Box<dyn Error>> {
    let folder = env::args_os()
        .nth(1)
        .ok_or("which folder for the journal?")?;
    let journal = Journal::Segments(Segments::in_folder(folder)?);
    let pool = Pool::builder()
        .settings(SETTINGS)?
        .journal(journal)
        .build(Connector)?;
    let is_over = AtomicBool::new(false);
    let answered: u64 = thread::scope(|scope| {
        scope.spawn(|| {
            while !is_over.load(Ordering::Relaxed) {
                if let Err(error) = pool.maintain() {
                    eprintln!("maintenance: {error}");
                }
                thread::sleep(Duration::from_millis(5));
            }
        });
        let servers: Vec<_> = (0..SERVERS).map(|_| scope.spawn(|| serve(&pool))).collect();
        let answered = servers
            .into_iter()
            .map(|server| server.join().unwrap())
            .sum();
        is_over.store(true, Ordering::Relaxed);
        answered
    });
    pool.close();
    let counts = pool.counts();
    eprintln!(
        "{answered} requests were answered over {} connections",
        counts.created
    );
    pool.flush_journal()?;
    Ok(())
}
