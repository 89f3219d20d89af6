//! Threads that borrow from r2d2's pool and return, for `bench/peers`: `r2d2_pool OBJECTS THREADS ROUNDS`.
//!
//! Prints the pairs, which are the uses of all connections, and the connections that were made.

mod connections;
mod task;

use std::hint::black_box;
use std::process::ExitCode;
use std::sync::atomic::Ordering;
use task::Task;

fn main() -> ExitCode {
    let Some(task) = Task::from_arguments() else {
        return ExitCode::from(2);
    };
    let pool = connections::pool_of(task.objects);
    task.run(|_| {
        let mut uses = pool.get().expect("a connection is returned in time");
        *uses = black_box(*uses + 1);
    });
    let held: Vec<_> = (0..task.objects)
        .map(|_| pool.get().expect("all connections are idle"))
        .collect();
    let pairs: u64 = held.iter().map(|uses| **uses).sum();
    let created = connections::CREATED.load(Ordering::Relaxed);
    println!("pairs {pairs}\ncreated {created}");
    ExitCode::SUCCESS
}
