//! The connections of the example, which the pages show, over a server that closes them, or sends what nobody asked for.

#[allow(dead_code)] // what the example does with them
#[path = "../examples/connections.rs"]
mod connections;

use connections::Connector;
use std::io::{Read, Write};
use std::net::{TcpListener, TcpStream};
use std::thread;
use std::time::Duration;
use zuphinka::{Pool, Pooled};

/// How long a test waits for an event.
const LONGEST: Duration = Duration::from_secs(60);

/// A server, and a pool of one connection to it, which is tested before it is lent.
fn server_and_pool() -> (TcpListener, Pool<Connector>) {
    let listener = TcpListener::bind("127.0.0.1:0").unwrap();
    let connector = Connector(listener.local_addr().unwrap());
    let builder = Pool::builder().max_total(1).test_on_borrow(true);
    (listener, builder.build(connector).unwrap())
}

/// Lends a connection, and returns its id, and it itself as one that is watched.
fn lend(pool: &Pool<Connector>) -> (u64, TcpStream) {
    let connection = pool.get().unwrap();
    let watched = connection.try_clone().unwrap();
    watched.set_read_timeout(Some(LONGEST)).unwrap();
    (Pooled::id(&connection), watched)
}

/// Waits for what the server did with a connection: returns how many bytes can be read at once, or none if it closed it.
fn wait_for_server(watched: &TcpStream) -> usize {
    watched.peek(&mut [0; 8]).unwrap()
}

#[test]
fn a_connection_that_its_server_closed_is_not_lent() {
    let (listener, pool) = server_and_pool();
    for wanted in 0..20 {
        let (id, watched) = lend(&pool);
        assert_eq!(id, wanted);
        let (accepted, _) = listener.accept().unwrap();
        drop(accepted);
        assert_eq!(wait_for_server(&watched), 0);
    }
    assert_eq!(pool.counts().destroyed, 19);
}

#[test]
fn a_connection_that_was_sent_a_byte_is_not_lent() {
    let (listener, pool) = server_and_pool();
    let (id, watched) = lend(&pool);
    let (mut accepted, _) = listener.accept().unwrap();
    accepted.write_all(&[7]).unwrap();
    assert_eq!(wait_for_server(&watched), 1);
    assert_eq!(lend(&pool).0, id + 1);
}

#[test]
fn an_open_connection_is_lent_again_and_waits_for_answers() {
    let (listener, pool) = server_and_pool();
    let (id, _) = lend(&pool);
    let (mut accepted, _) = listener.accept().unwrap();
    thread::scope(|scope| {
        scope.spawn(move || {
            for _ in 0..3 {
                let mut byte = [0];
                accepted.read_exact(&mut byte).unwrap();
                thread::sleep(Duration::from_millis(20));
                accepted.write_all(&byte).unwrap();
            }
        });
        for request in 0..3 {
            let mut connection = pool.get().unwrap();
            assert_eq!(Pooled::id(&connection), id);
            connection.write_all(&[request]).unwrap();
            let mut answer = [0];
            connection.read_exact(&mut answer).unwrap();
            assert_eq!(answer, [request]);
        }
    });
}

/// The lines of a text that are not empty, without their indentation. A prefix of each is left out.
fn plain(text: &str, prefix: &str) -> String {
    let lines = text.lines().map(str::trim);
    let lines = lines.map(|line| line.strip_prefix(prefix).unwrap_or(line).trim());
    let lines: Vec<_> = lines.filter(|line| !line.is_empty()).collect();
    lines.join("\n")
}

#[test]
fn the_pages_show_the_manager_of_the_example() {
    let example = include_str!("../examples/connections.rs");
    let start = example.find("pub struct Connector").unwrap();
    let end = example.find("/// Answers").unwrap();
    let manager = plain(&example[start..end], "");
    assert!(manager.lines().count() > 15);
    let readme = plain(include_str!("../README.md"), "");
    let manual = plain(include_str!("../src/manager.rs"), "///");
    assert!(readme.contains(&manager), "the README differs");
    assert!(manual.contains(&manager), "the page of Manager differs");
}
