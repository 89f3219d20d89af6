//! Threads over a pool of the crate, and over one of r2d2. Both have the same connections, and test each before it is lent.

use crate::transfers::{test, transfer};
use crate::turns::{Failure, Report, Turn, Work, CONNECTIONS, LONGEST_WAIT};
use std::ops::DerefMut;
use std::sync::Barrier;
use std::thread;
use std::time::Instant;
use tokio::runtime::{Builder, Runtime};
use tokio_postgres::{Client, Config, Error, NoTls};

/// A connection for threads. It is served in the calls of its holder, as one of the crate `postgres` is.
struct Connection {
    client: Client,
    runtime: Runtime,
}

impl Connection {
    fn open(server: &Config) -> Result<Connection, Error> {
        let runtime = Builder::new_current_thread()
            .enable_io()
            .build()
            .expect("the system gives an event loop");
        let (client, connection) = runtime.block_on(server.connect(NoTls))?;
        runtime.spawn(connection);
        Ok(Connection { client, runtime })
    }

    fn test(&self) -> Result<(), Error> {
        self.runtime.block_on(test(&self.client))
    }

    fn transfer(&mut self, worker: i32, number: i32) -> Result<(), Error> {
        let transfer = transfer(&mut self.client, worker, number);
        self.runtime.block_on(transfer)
    }
}

struct Connector(Config);

impl zuphinka::Manager for Connector {
    type Object = Connection;
    type Error = Error;
    const ACTIVATES: bool = false;
    const PASSIVATES: bool = false;

    fn make(&self, _id: u64) -> Result<Connection, Error> {
        Connection::open(&self.0)
    }

    fn validate(&self, connection: &mut Connection) -> bool {
        connection.test().is_ok()
    }
}

impl r2d2::ManageConnection for Connector {
    type Connection = Connection;
    type Error = Error;

    fn connect(&self) -> Result<Connection, Error> {
        Connection::open(&self.0)
    }

    fn is_valid(&self, connection: &mut Connection) -> Result<(), Error> {
        connection.test()
    }

    fn has_broken(&self, connection: &mut Connection) -> bool {
        connection.client.is_closed()
    }
}

pub fn over_crate(server: &Config, turn: &Turn) -> Result<Report, Failure> {
    let pool = zuphinka::Pool::builder()
        .max_total(CONNECTIONS)
        .max_wait(LONGEST_WAIT)
        .test_on_borrow(true)
        .max_overtakes(u32::MAX)
        .build(Connector(server.clone()))?;
    run(turn, || Ok(pool.get()?))
}

pub fn over_r2d2(server: &Config, turn: &Turn) -> Result<Report, Failure> {
    let pool = r2d2::Pool::builder()
        .max_size(CONNECTIONS)
        .connection_timeout(LONGEST_WAIT)
        .test_on_check_out(true)
        .build(Connector(server.clone()))?;
    run(turn, || Ok(pool.get()?))
}

/// Runs the threads of a turn. `borrow` returns the guard of a connection, whose drop returns it.
fn run<G: DerefMut<Target = Connection>>(
    turn: &Turn,
    borrow: impl Fn() -> Result<G, Failure> + Sync,
) -> Result<Report, Failure> {
    let opened: Result<Vec<G>, Failure> = (0..CONNECTIONS).map(|_| borrow()).collect();
    drop(opened?);
    let (start, borrow) = (&Barrier::new(turn.workers + 1), &borrow);
    thread::scope(|scope| {
        let begin = |worker| scope.spawn(move || work(turn, worker, start, borrow));
        let workers: Vec<_> = (0..turn.workers).map(begin).collect();
        let began = Instant::now();
        start.wait();
        let ended = workers.into_iter().map(|worker| worker.join());
        let works: Result<Vec<Work>, Failure> =
            ended.map(|work| work.expect("no thread panics")).collect();
        Ok(Report::of(works?, began.elapsed()))
    })
}

/// Transfers until the turn is over.
fn work<G: DerefMut<Target = Connection>>(
    turn: &Turn,
    worker: usize,
    start: &Barrier,
    borrow: impl Fn() -> Result<G, Failure>,
) -> Result<Work, Failure> {
    let mut work = Work::default();
    start.wait();
    let end = Instant::now() + turn.length;
    let mut asked = Instant::now();
    while asked < end {
        let mut connection = borrow()?;
        let lent = Instant::now();
        connection.transfer(worker as i32, turn.number(worker, &work))?;
        drop(connection);
        work.note(asked, lent);
        asked = Instant::now();
    }
    Ok(work)
}
