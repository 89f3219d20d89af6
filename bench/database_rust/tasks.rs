//! Tasks of tokio over a pool of the crate, and over a semaphore with a list of connections, as in deadpool. Both have the same connections, and
//! test each before it is lent.

use crate::transfers::{test, transfer};
use crate::turns::{Failure, Report, Turn, Work, CONNECTIONS, LONGEST_WAIT};
use std::future::Future;
use std::ops::{Deref, DerefMut};
use std::sync::{Arc, Mutex};
use std::time::Instant;
use tokio::runtime::Runtime;
use tokio::sync::{Barrier, OwnedSemaphorePermit, Semaphore};
use tokio_postgres::{Client, Config, Error, NoTls};
use zuphinka::{Async, AsyncManager, Pool, Pooled};

struct Connector(Config);

impl AsyncManager for Connector {
    type Object = Client;
    type Error = Error;
    const ACTIVATES: bool = false;
    const PASSIVATES: bool = false;

    async fn make(&self, _id: u64) -> Result<Client, Error> {
        let (client, connection) = self.0.connect(NoTls).await?;
        tokio::spawn(connection);
        Ok(client)
    }

    async fn validate(&self, client: &mut Client) -> bool {
        test(client).await.is_ok()
    }
}

/// A pool for tasks. The drop of a guard returns its connection.
trait Lender: Clone + Send + Sync + 'static {
    type Guard: DerefMut<Target = Client> + Send;

    fn borrow(&self) -> impl Future<Output = Result<Self::Guard, Failure>> + Send;
}

impl Lender for Pool<Async<Connector>> {
    type Guard = Pooled<Async<Connector>>;

    async fn borrow(&self) -> Result<Self::Guard, Failure> {
        Ok(self.get_async().await?)
    }
}

/// A list of idle connections. The semaphore has a permit for each connection that may be lent.
struct List {
    connector: Connector,
    idle: Mutex<Vec<Client>>,
    permits: Arc<Semaphore>,
}

impl List {
    fn pop(&self) -> Option<Client> {
        self.idle.lock().expect("no task panics").pop()
    }

    /// Returns an idle connection that passes its test, or else a new one.
    async fn usable(&self) -> Result<Client, Error> {
        while let Some(mut client) = self.pop() {
            if self.connector.validate(&mut client).await {
                return Ok(client);
            }
        }
        self.connector.make(0).await
    }
}

/// A connection that is lent. Its permit is returned after it.
struct Loan {
    list: Arc<List>,
    client: Option<Client>,
    _permit: OwnedSemaphorePermit,
}

impl Drop for Loan {
    fn drop(&mut self) {
        let mut idle = self.list.idle.lock().expect("no task panics");
        idle.extend(self.client.take());
    }
}

impl Deref for Loan {
    type Target = Client;

    fn deref(&self) -> &Client {
        self.client.as_ref().expect("a loan has a connection")
    }
}

impl DerefMut for Loan {
    fn deref_mut(&mut self) -> &mut Client {
        self.client.as_mut().expect("a loan has a connection")
    }
}

impl Lender for Arc<List> {
    type Guard = Loan;

    async fn borrow(&self) -> Result<Loan, Failure> {
        let permit = self.permits.clone().acquire_owned().await?;
        let client = self.usable().await?;
        Ok(Loan {
            list: self.clone(),
            client: Some(client),
            _permit: permit,
        })
    }
}

pub fn over_crate(server: &Config, turn: &Turn) -> Result<Report, Failure> {
    let pool = Pool::builder()
        .max_total(CONNECTIONS)
        .max_wait(LONGEST_WAIT)
        .test_on_borrow(true)
        .build(Async(Connector(server.clone())))?;
    Runtime::new()?.block_on(run(turn, pool))
}

pub fn over_semaphore(server: &Config, turn: &Turn) -> Result<Report, Failure> {
    let list = List {
        connector: Connector(server.clone()),
        idle: Mutex::default(),
        permits: Arc::new(Semaphore::new(CONNECTIONS as usize)),
    };
    Runtime::new()?.block_on(run(turn, Arc::new(list)))
}

/// Has a pool open all its connections.
async fn fill(pool: &impl Lender) -> Result<(), Failure> {
    let mut held = Vec::new();
    for _ in 0..CONNECTIONS {
        held.push(pool.borrow().await?);
    }
    Ok(())
}

/// Runs the tasks of a turn.
async fn run(turn: &Turn, pool: impl Lender) -> Result<Report, Failure> {
    fill(&pool).await?;
    let start = Arc::new(Barrier::new(turn.workers + 1));
    let begin = |worker| tokio::spawn(work(*turn, worker, start.clone(), pool.clone()));
    let tasks: Vec<_> = (0..turn.workers).map(begin).collect();
    let (began, mut works) = (Instant::now(), Vec::new());
    start.wait().await;
    for task in tasks {
        works.push(task.await??);
    }
    Ok(Report::of(works, began.elapsed()))
}

/// Transfers until the turn is over.
async fn work(
    turn: Turn,
    worker: usize,
    start: Arc<Barrier>,
    pool: impl Lender,
) -> Result<Work, Failure> {
    let mut work = Work::default();
    start.wait().await;
    let end = Instant::now() + turn.length;
    let mut asked = Instant::now();
    while asked < end {
        let mut client = pool.borrow().await?;
        let lent = Instant::now();
        transfer(&mut client, worker as i32, turn.number(worker, &work)).await?;
        drop(client);
        work.note(asked, lent);
        asked = Instant::now();
    }
    Ok(work)
}
