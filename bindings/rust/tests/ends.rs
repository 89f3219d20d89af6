//! Programs that leak an object and end, each in its own way: the journal in their folder has the loan. This program is all of them, and the test.

mod common;

use common::managers::Numbers;
use common::{assert_start_legal, entries_of, new_folder, segments_in, start_in, starts_in};
use std::ffi::c_int;
use std::path::Path;
use std::process::{Child, Command, ExitCode, Stdio};
use std::sync::OnceLock;
use std::time::{Duration, Instant};
use std::{env, fs, io, mem, process, thread};
use zuphinka::{Builder, Journal, Pool, Segment, SegmentSink, Segments};

extern "C" {
    fn _exit(status: c_int) -> !;
}

/// A program that takes longer hangs.
const LONGEST: Duration = Duration::from_secs(30);

/// How a program ends.
#[derive(Clone, Copy, Debug, PartialEq)]
enum End {
    /// It closes the pool, or drops it, and then ends at once, so that nothing more is stored.
    Close,
    Drop,
    /// It calls `exit`, in its first thread or in another one.
    Exit,
    ExitOfThread,
    /// It returns from `main`.
    Return,
    /// It is killed once its journal has the loan.
    Kill,
}

const ENDS: [End; 6] = [
    End::Close,
    End::Drop,
    End::Exit,
    End::ExitOfThread,
    End::Return,
    End::Kill,
];

/// The pool of a program that returns from `main`.
static POOL: OnceLock<Pool<Numbers<true>>> = OnceLock::new();

/// Leaks an object of a pool that stores its journal in a folder, and ends.
fn leak_and_end(end: End, is_maintained: bool, folder: &Path) {
    let segments = Segments::in_folder(folder).unwrap();
    let builder: Builder<Numbers<true>> = Pool::builder().journal(Journal::Segments(segments));
    let builder = match is_maintained {
        true => builder.maintain_every(Duration::from_millis(10)),
        false => builder,
    };
    let pool = builder.build(Numbers).unwrap();
    mem::forget(pool.get().unwrap());
    match end {
        End::Close => drop(pool.close()),
        End::Drop => drop(pool),
        End::Exit => process::exit(0),
        End::ExitOfThread => drop(thread::spawn(|| process::exit(0)).join()),
        End::Return => return drop(POOL.set(pool)),
        End::Kill => thread::sleep(LONGEST),
    }
    // SAFETY: it ends this process.
    unsafe { _exit(0) }
}

/// A sink that never returns, or that ends the program.
struct Stuck {
    exits: bool,
}

impl SegmentSink for Stuck {
    fn store(&mut self, _: &Segment<'_>) -> io::Result<()> {
        match self.exits {
            true => process::exit(7),
            false => thread::sleep(LONGEST * 2),
        }
        Ok(())
    }
}

/// Ends while a sink is at work, or by a sink.
fn end_with_stuck_sink(exits: bool) {
    let segments = Segments::new(Stuck { exits });
    let pool = Pool::builder()
        .journal(Journal::Segments(segments))
        .build(Numbers::<true>)
        .unwrap();
    mem::forget(pool.get().unwrap());
    if exits {
        thread::sleep(LONGEST);
    }
    process::exit(7);
}

/// Runs this program with words.
fn program(words: &[&str]) -> Child {
    let mut command = Command::new(env::current_exe().unwrap());
    command.arg("child").args(words).stdin(Stdio::null());
    command.spawn().unwrap()
}

/// Waits for the end of a program. Returns its status, or none if it was killed.
fn status_of(mut child: Child) -> Option<i32> {
    let end = Instant::now() + LONGEST;
    while Instant::now() < end {
        if let Some(status) = child.try_wait().unwrap() {
            return status.code();
        }
        thread::sleep(Duration::from_millis(5));
    }
    child.kill().unwrap();
    child.wait().unwrap();
    panic!("it hangs")
}

/// Returns whether a journal below a folder has the loan.
fn has_loan(folder: &Path) -> bool {
    let starts = starts_in(folder);
    let mut segments = starts.iter().flat_map(|start| segments_in(start));
    segments.any(|text| text.contains(" = lent\n"))
}

/// Waits until a program that is to be killed has stored the loan, and kills it.
fn kill(child: &mut Child, folder: &Path) {
    let end = Instant::now() + LONGEST / 2;
    while !has_loan(folder) {
        assert!(Instant::now() < end, "nothing is stored while it runs");
        thread::sleep(Duration::from_millis(5));
    }
    child.kill().unwrap();
}

/// Runs a program to its end, and sees that its journal has the loan, and is legal.
fn check_end(end: End, is_maintained: bool) {
    let folder = new_folder();
    let path = folder.display().to_string();
    let mut child = program(&[&format!("{end:?}"), &is_maintained.to_string(), &path]);
    let status = match end {
        End::Kill => {
            kill(&mut child, &folder);
            None
        }
        _ => Some(0),
    };
    assert_eq!(status_of(child), status);
    assert!(has_loan(&folder), "the journal lacks the loan");
    let start = start_in(&folder);
    let segments = segments_in(&start);
    let entries = segments.iter().map(|text| entries_of(text).count() as u64);
    assert_start_legal(&start, entries.sum());
    let is_closed = segments.concat().contains(" close = ");
    assert_eq!(is_closed, end == End::Close);
    fs::remove_dir_all(folder).unwrap();
}

/// A test, and its name.
type Test = (String, Box<dyn Fn() + Send>);

fn tests() -> Vec<Test> {
    let mut tests: Vec<Test> = Vec::new();
    for end in ENDS {
        for is_maintained in [false, true] {
            let name = format!("{end:?}, maintained: {is_maintained}");
            tests.push((name, Box::new(move || check_end(end, is_maintained))));
        }
    }
    for how in ["hangs", "exits"] {
        let ends = || assert_eq!(status_of(program(&[how])), Some(7));
        tests.push((format!("a sink that {how}"), Box::new(ends)));
    }
    tests
}

/// Plays all tests at once, and writes what came of them as other test programs do. Returns whether all passed.
fn play_all() -> bool {
    let play = |(name, test): Test| thread::Builder::new().name(name).spawn(test).unwrap();
    let playing: Vec<_> = tests().into_iter().map(play).collect();
    let (mut passed, mut failed) = (0, 0);
    for test in playing {
        let name = test.thread().name().unwrap_or_default().to_owned();
        let word = match test.join() {
            Ok(()) => {
                passed += 1;
                "ok"
            }
            Err(_) => {
                failed += 1;
                "FAILED"
            }
        };
        println!("test {name} ... {word}");
    }
    let word = if failed == 0 { "ok" } else { "FAILED" };
    println!("test result: {word}. {passed} passed; {failed} failed;");
    failed == 0
}

fn main() -> ExitCode {
    let words: Vec<_> = env::args().skip(1).collect();
    let words: Vec<_> = words.iter().map(String::as_str).collect();
    match words[..] {
        ["child", "hangs"] => end_with_stuck_sink(false),
        ["child", "exits"] => end_with_stuck_sink(true),
        ["child", end, is_maintained, folder] => {
            let end = ENDS.into_iter().find(|one| format!("{one:?}") == end);
            leak_and_end(end.unwrap(), is_maintained == "true", Path::new(folder));
        }
        _ if play_all() => {}
        _ => return ExitCode::FAILURE,
    }
    ExitCode::SUCCESS
}
