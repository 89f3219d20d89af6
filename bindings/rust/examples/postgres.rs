//! Eight tasks transfer money between accounts in PostgreSQL, over a pool of four connections. What fails is printed, and tried again.
//!
//!     cargo run --release -- "host=localhost user=me dbname=bank" 10 journal
//!
//! Run it in the folder `postgres` beside this file, which has its dependencies. The words are the server, the seconds, and the folder that gets
//! the pool's journal. With a port as the fourth word it serves the pool's metrics at `http://127.0.0.1:PORT/metrics`.

use std::io::{self, Read, Write};
use std::net::{Ipv4Addr, TcpListener, TcpStream};
use std::time::{Duration, Instant};
use std::{env, thread};
use tokio::time::{sleep, timeout};
use tokio_postgres::{Client, Config, NoTls};
use zuphinka::{Async, AsyncManager, Journal, Pool, Segments};

const WORKERS: i32 = 8;
const CONNECTIONS: u32 = 4;
const ACCOUNTS: i32 = 100;
/// How long a task waits for a connection.
const PATIENCE: Duration = Duration::from_secs(5);
/// How long it pauses after a failure.
const PAUSE: Duration = Duration::from_millis(50);
const TABLES: &str = "
    CREATE TABLE IF NOT EXISTS account (id int PRIMARY KEY, euros int NOT NULL);
    CREATE TABLE IF NOT EXISTS transfer (worker int NOT NULL, source int NOT NULL, target int NOT NULL, euros int NOT NULL);
    INSERT INTO account SELECT id, 100 FROM generate_series(0, 99) AS id ON CONFLICT DO NOTHING;";

type Failure = Box<dyn std::error::Error + Send + Sync>;

/// Connects to PostgreSQL.
struct Connector(Config);

impl AsyncManager for Connector {
    type Object = Client;
    type Error = tokio_postgres::Error;
    const ACTIVATES: bool = false;
    const PASSIVATES: bool = false;

    async fn make(&self, _id: u64) -> Result<Client, Self::Error> {
        let (client, connection) = self.0.connect(NoTls).await?;
        tokio::spawn(connection); // it ends when the client is dropped, or the server closes it
        Ok(client)
    }

    /// An answer shows that the server is there. `Client::is_closed` notices only what has already failed.
    async fn validate(&self, client: &mut Client) -> bool {
        client.simple_query("").await.is_ok()
    }
}

/// Transfers a euro in one transaction. If it is dropped before its commit, it is rolled back.
async fn transfer(
    client: &mut Client,
    worker: i32,
    source: i32,
    target: i32,
) -> Result<(), tokio_postgres::Error> {
    let transaction = client.transaction().await?;
    let note = "INSERT INTO transfer VALUES ($1, $2, $3, 1)";
    transaction
        .execute(note, &[&worker, &source, &target])
        .await?;
    let change = "UPDATE account SET euros = euros + $1 WHERE id = $2";
    transaction.execute(change, &[&-1, &source]).await?;
    transaction.execute(change, &[&1, &target]).await?;
    transaction.commit().await
}

/// The accounts of a transfer. The second has the greater id, so that no two transfers wait for each other.
fn accounts_of(number: i32) -> (i32, i32) {
    let source = number % (ACCOUNTS - 1);
    (source, source + 1 + number % (ACCOUNTS - 1 - source))
}

async fn serve(pool: &Pool<Async<Connector>>, worker: i32, number: i32) -> Result<(), Failure> {
    let mut client = timeout(PATIENCE, pool.get_async()).await??;
    let (source, target) = accounts_of(number);
    Ok(transfer(&mut client, worker, source, target).await?)
}

/// Transfers until the time is over. Returns how many transfers were made, and how many failed.
async fn work(pool: Pool<Async<Connector>>, worker: i32, end: Instant) -> (i32, i32) {
    let (mut made, mut failed) = (0, 0);
    while Instant::now() < end {
        if let Err(failure) = serve(&pool, worker, worker + WORKERS * (made + failed)).await {
            let cause = failure.source().map(|cause| format!(": {cause}"));
            eprintln!("worker {worker}: {failure}{}", cause.unwrap_or_default());
            failed += 1;
            sleep(PAUSE).await;
        } else {
            made += 1;
        }
    }
    (made, failed)
}

/// Answers a request with a text of metrics, whatever it asks for.
fn answer(mut client: TcpStream, metrics: &str) -> io::Result<()> {
    client.set_read_timeout(Some(PATIENCE))?;
    client.set_write_timeout(Some(PATIENCE))?;
    let _ = client.read(&mut [0; 4096])?;
    let kind = "application/openmetrics-text; version=1.0.0; charset=utf-8";
    let size = metrics.len();
    let head = format!("HTTP/1.1 200 OK\r\nContent-Type: {kind}\r\nContent-Length: {size}\r\n");
    write!(client, "{head}Connection: close\r\n\r\n{metrics}")
}

/// Serves the pool's metrics at a port of this machine, to one client at a time, until the pool is gone.
fn serve_metrics(pool: &Pool<Async<Connector>>, port: &str) -> Result<(), Failure> {
    let listener = TcpListener::bind((Ipv4Addr::LOCALHOST, port.parse()?))?;
    let pool = pool.downgrade();
    thread::spawn(move || {
        for client in listener.incoming() {
            let Some(pool) = pool.upgrade() else { return };
            let metrics = pool.metrics("bank").to_string();
            if let Err(error) = client.and_then(|client| answer(client, &metrics)) {
                eprintln!("metrics: {error}");
            }
        }
    });
    Ok(())
}

#[tokio::main]
async fn main() -> Result<(), Failure> {
    let words: Vec<String> = env::args().skip(1).collect();
    let ([server, seconds, folder] | [server, seconds, folder, _]) = &words[..] else {
        return Err("which server, how many seconds, and which folder for the journal?".into());
    };
    let seconds: u32 = seconds.parse()?;
    let pool = Pool::builder()
        .max_total(CONNECTIONS)
        .test_on_borrow(true)
        .journal(Journal::Segments(Segments::in_folder(folder)?))
        .build(Async(Connector(server.parse()?)))?;
    if let Some(port) = words.get(3) {
        serve_metrics(&pool, port)?;
    }
    pool.get_async().await?.batch_execute(TABLES).await?;
    let end = Instant::now() + Duration::from_secs(seconds.into());
    let start = |worker| tokio::spawn(work(pool.clone(), worker, end));
    let tasks: Vec<_> = (0..WORKERS).map(start).collect();
    let (mut made, mut failed) = (0, 0);
    for task in tasks {
        let of_task = task.await?;
        (made, failed) = (made + of_task.0, failed + of_task.1);
    }
    let row = pool
        .get_async()
        .await?
        .query_one("SELECT sum(euros) FROM account", &[])
        .await?;
    pool.close();
    pool.flush_journal()?;
    let (counts, rate) = (pool.counts(), made / seconds.max(1) as i32);
    println!("{made} transfers, {rate} a second, {failed} failed");
    println!("{} euros in all", row.get::<_, i64>(0));
    println!(
        "created {}, destroyed {}, idle {}, lent {}",
        counts.created, counts.destroyed, counts.idle, counts.lent
    );
    Ok(())
}
