//! Four clients ask a server over pooled connections, each of which the server closes after some answers. The pool tests a connection before
//! it lends it, and makes another if the server has closed it.
//!
//!     cargo run --offline --example connections

use std::error::Error;
use std::io::{self, Read, Write};
use std::net::{SocketAddr, TcpListener, TcpStream};
use std::thread;
use zuphinka::{Manager, Pool};

const CLIENTS: u8 = 4;
const REQUESTS: u8 = 250;
const ANSWERS: u32 = 10;

pub struct Connector(pub SocketAddr);

impl Manager for Connector {
    type Object = TcpStream;
    type Error = io::Error;

    fn make(&self, _id: u64) -> io::Result<TcpStream> {
        TcpStream::connect(self.0)
    }

    fn validate(&self, connection: &mut TcpStream) -> bool {
        is_usable(connection).unwrap_or(false)
    }
}

/// Returns whether a connection is open, and no byte waits that nobody asked for.
fn is_usable(connection: &TcpStream) -> io::Result<bool> {
    connection.set_nonblocking(true)?;
    let peeked = connection.peek(&mut [0]);
    connection.set_nonblocking(false)?;
    Ok(matches!(peeked, Err(error) if error.kind() == io::ErrorKind::WouldBlock))
}

/// Answers each byte with the same one, and closes the connection after some answers.
fn answer(mut connection: TcpStream) -> io::Result<()> {
    let mut byte = [0];
    for _ in 0..ANSWERS {
        connection.read_exact(&mut byte)?;
        connection.write_all(&byte)?;
    }
    Ok(())
}

fn serve(listener: TcpListener) -> io::Result<()> {
    for connection in listener.incoming() {
        let connection = connection?;
        thread::spawn(move || answer(connection));
    }
    Ok(())
}

/// Sends a byte, and returns the answer.
fn ask(connection: &mut TcpStream, byte: u8) -> io::Result<u8> {
    connection.write_all(&[byte])?;
    let mut answer = [0];
    connection.read_exact(&mut answer)?;
    Ok(answer[0])
}

/// Returns how many requests were answered. One fails if the server closes its connection right after the pool tested it.
fn answered(pool: &Pool<Connector>) -> usize {
    let asked = (0..REQUESTS).map(|request| -> Result<u8, Box<dyn Error>> {
        let mut connection = pool.get()?;
        Ok(ask(&mut connection, request)?)
    });
    asked.filter(Result::is_ok).count()
}

fn main() -> Result<(), Box<dyn Error>> {
    let listener = TcpListener::bind("127.0.0.1:0")?;
    let connector = Connector(listener.local_addr()?);
    let pool = Pool::builder().test_on_borrow(true).build(connector)?;
    thread::spawn(move || serve(listener));
    let answered: usize = thread::scope(|scope| {
        let clients = [(); CLIENTS as usize].map(|()| scope.spawn(|| answered(&pool)));
        clients.map(|client| client.join().unwrap()).iter().sum()
    });
    eprintln!(
        "{answered} of {} requests were answered over {} connections",
        u32::from(CLIENTS) * u32::from(REQUESTS),
        pool.counts().created
    );
    Ok(())
}
