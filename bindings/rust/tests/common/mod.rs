//! What the tests share. Each takes a part of it.
#![allow(dead_code)]

pub mod chance;
pub mod managers;
pub mod tasks;

use std::io;
use std::panic::{self, AssertUnwindSafe};
use std::path::{Path, PathBuf};
use std::process::Command;
use std::sync::atomic::{AtomicU64, Ordering};
use std::sync::{mpsc, Arc, Mutex};
use std::time::{Duration, Instant};
use std::{env, fs, mem, thread};
use zuphinka::{Manager, Pool, Segment, SegmentSink, Segments};

/// The repository.
pub fn top() -> PathBuf {
    Path::new(env!("CARGO_MANIFEST_DIR")).join("../..")
}

/// The proved program `pool`: the file that ZUPHINKA_POOL names, or the one of this repository.
fn program() -> PathBuf {
    let named = env::var_os("ZUPHINKA_POOL").map(PathBuf::from);
    let program = named.unwrap_or_else(|| top().join("crates/pool/out/pool"));
    assert!(
        program.exists(),
        "{}: build the program by ./pool, or name it in ZUPHINKA_POOL",
        program.display()
    );
    fs::canonicalize(program).unwrap()
}

/// What the program says of a journal with these settings.
pub fn judge(settings: &str, journal: &[u8]) -> String {
    judge_segments(settings, &[journal])
}

/// A new folder for temporary files. A process of the same number may have left some.
pub fn new_folder() -> PathBuf {
    static NEXT: AtomicU64 = AtomicU64::new(0);
    loop {
        let number = NEXT.fetch_add(1, Ordering::Relaxed);
        let folder = env::temp_dir().join(format!("zuphinka-{}-{number}", std::process::id()));
        match fs::create_dir(&folder) {
            Err(error) if error.kind() == io::ErrorKind::AlreadyExists => {}
            made => {
                made.unwrap();
                return folder;
            }
        }
    }
}

/// Segments that a sink stored, each with its position.
pub type Stored = Arc<Mutex<Vec<(u64, String)>>>;

/// A sink that stores segments in memory. Before each it asks whether it is to fail.
pub struct MemorySink<F> {
    pub stored: Stored,
    pub fails: F,
}

impl<F: FnMut() -> bool + Send> SegmentSink for MemorySink<F> {
    fn store(&mut self, segment: &Segment<'_>) -> io::Result<()> {
        if (self.fails)() {
            return Err(io::ErrorKind::BrokenPipe.into());
        }
        let text = String::from_utf8(segment.text.to_vec()).unwrap();
        assert_eq!(segment.entries, entries_of(&text).count() as u64);
        assert!(text.starts_with(&format!("pool-journal 2 {} ", segment.position)));
        self.stored.lock().unwrap().push((segment.position, text));
        Ok(())
    }
}

/// Segments for a sink that are stored when they are due, and by no thread of the journal's own.
pub fn when_due(sink: impl SegmentSink + 'static) -> Segments {
    Segments::new(sink).store_every(None)
}

/// The same in a folder.
pub fn in_folder_when_due(path: impl AsRef<Path>) -> Segments {
    Segments::in_folder(path).unwrap().store_every(None)
}

/// The folders of the starts below a folder, in the order of their names.
pub fn starts_in(folder: &Path) -> Vec<PathBuf> {
    let entries = fs::read_dir(folder).unwrap();
    let mut starts: Vec<_> = entries.map(|entry| entry.unwrap().path()).collect();
    starts.sort();
    starts
}

/// The folder of the only start.
pub fn start_in(folder: &Path) -> PathBuf {
    let mut starts = starts_in(folder);
    assert_eq!(starts.len(), 1, "{starts:?}");
    starts.remove(0)
}

/// The names of the files in a folder, in order.
pub fn files_in(folder: &Path) -> Vec<String> {
    let files = fs::read_dir(folder).unwrap();
    let names = files.map(|file| file.unwrap().file_name().into_string().unwrap());
    let mut names: Vec<_> = names.collect();
    names.sort();
    names
}

/// The segments of a start, in their order.
pub fn segments_in(start: &Path) -> Vec<String> {
    let names = files_in(start).into_iter();
    names
        .filter(|name| name.starts_with("segment-"))
        .map(|name| fs::read_to_string(start.join(name)).unwrap())
        .collect()
}

/// The texts of segments that follow one another from the first entry on.
pub fn texts_of(stored: &Stored) -> Vec<String> {
    let mut end = 0;
    let mut texts = Vec::new();
    for (position, text) in stored.lock().unwrap().iter() {
        assert_eq!(*position, end);
        end += entries_of(text).count() as u64;
        texts.push(text.clone());
    }
    texts
}

/// What the program says of the segments of a journal with these settings.
pub fn judge_segments<T: AsRef<[u8]>>(settings: &str, segments: &[T]) -> String {
    let folder = new_folder();
    let settings_file = folder.join("settings.toml");
    fs::write(&settings_file, settings).unwrap();
    let files: Vec<_> = (0..segments.len())
        .map(|number| folder.join(format!("segment-{number:06}")))
        .collect();
    for (file, segment) in files.iter().zip(segments) {
        fs::write(file, segment).unwrap();
    }
    let verdict = check(&settings_file, &files);
    fs::remove_dir_all(folder).unwrap();
    verdict
}

/// What the program says of segments in files.
fn check(settings: &Path, segments: &[PathBuf]) -> String {
    // Another test may remove the folder in which this process is.
    let done = Command::new(program())
        .current_dir("/")
        .arg("check")
        .arg(settings)
        .args(segments)
        .output()
        .unwrap();
    String::from_utf8(done.stdout).unwrap() + &String::from_utf8(done.stderr).unwrap()
}

/// Sees that the program finds the journal of a start legal where it is, with this many entries.
pub fn assert_start_legal(start: &Path, entries: u64) {
    let names = files_in(start).into_iter();
    let segments = names.filter(|name| name.starts_with("segment-"));
    let files: Vec<_> = segments.map(|name| start.join(name)).collect();
    let verdict = check(&start.join("settings.toml"), &files);
    assert_eq!(verdict, format!("legal {entries}\n"), "{files:?}");
}

/// The entries of a segment, without the lines of its base.
pub fn entries_of(segment: &str) -> impl Iterator<Item = &str> {
    segment.lines().filter(|line| line.contains(" = "))
}

/// A segment that is cut off.
pub fn cut_off<M: Manager>(pool: &Pool<M>) -> String {
    let mut segment = Vec::new();
    let written = pool.cut(&mut segment).unwrap();
    let segment = String::from_utf8(segment).unwrap();
    assert_eq!(written, entries_of(&segment).count() as u64);
    assert!(segment.starts_with("pool-journal 2 "));
    segment
}

/// The journal of a pool.
pub fn journal_of<M: Manager>(pool: &Pool<M>) -> String {
    let mut journal = Vec::new();
    let written = pool.journal(&mut journal).unwrap();
    let text = String::from_utf8(journal).unwrap();
    assert_eq!(written, entries_of(&text).count() as u64);
    text
}

/// Sees that the program finds these segments legal, with as many entries as the pool has made.
pub fn assert_segments_legal<M: Manager>(pool: &Pool<M>, segments: &[String]) {
    let entries: usize = segments
        .iter()
        .map(|segment| entries_of(segment).count())
        .sum();
    assert_eq!(entries as u64, pool.counts().steps);
    let verdict = judge_segments(&pool.settings(), segments);
    let count = segments.len();
    assert_eq!(verdict, format!("legal {entries}\n"), "{count} segments");
}

/// Sees that the program finds the journal of a pool legal.
pub fn assert_legal<M: Manager>(pool: &Pool<M>) {
    let journal = journal_of(pool);
    let verdict = judge(&pool.settings(), journal.as_bytes());
    assert_eq!(
        verdict,
        format!("legal {}\n", journal.lines().count()),
        "{journal}"
    );
}

/// The steps of a journal, without callers and times.
pub fn steps_of<M: Manager>(pool: &Pool<M>) -> Vec<String> {
    let journal = journal_of(pool);
    let step = |line: &str| line.splitn(3, ' ').nth(2).unwrap().to_owned();
    entries_of(&journal).map(step).collect()
}

/// The times in a journal.
pub fn times_of<M: Manager>(pool: &Pool<M>) -> Vec<u64> {
    let journal = journal_of(pool);
    let time = |line: &str| line.split(' ').nth(1).unwrap().parse().unwrap();
    entries_of(&journal).map(time).collect()
}

/// What a call came to, or nothing if it panicked.
pub fn caught<R>(call: impl FnOnce() -> R) -> Option<R> {
    let called = panic::catch_unwind(AssertUnwindSafe(call));
    called.map_err(mem::forget).ok()
}

/// What a panic may be with. Its drop panics, too.
struct Bomb;

impl Drop for Bomb {
    fn drop(&mut self) {
        // Without a message, and so without a backtrace, whose memory a test would count.
        panic::resume_unwind(Box::new(()));
    }
}

/// Panics without a message, with something whose drop panics.
pub fn panic_quietly() -> ! {
    panic::resume_unwind(Box::new(Bomb))
}

/// Whether a call panics.
pub fn panics<R>(call: impl FnOnce() -> R) -> bool {
    caught(call).is_none()
}

/// Waits until the journal has this many waits, and leaves the threads that wait the time to fall asleep.
pub fn wait_for_waits<M: Manager>(pool: &Pool<M>, waits: usize) {
    while waits_of(pool) < waits {
        thread::yield_now();
    }
    thread::sleep(Duration::from_millis(30));
}

/// The number of waits in a journal.
fn waits_of<M: Manager>(pool: &Pool<M>) -> usize {
    let steps = steps_of(pool);
    steps.iter().filter(|step| step.ends_with("wait")).count()
}

/// Lets a thread wait in a call, does something, and then returns what the call came to. The thread is woken: its time is not over.
pub fn while_waiting<M: Manager, R: Send>(
    pool: &Pool<M>,
    call: impl FnOnce() -> R + Send,
    act: impl FnOnce(),
) -> R {
    let (waits, began) = (waits_of(pool) + 1, Instant::now());
    thread::scope(|scope| {
        let waiting = scope.spawn(call);
        wait_for_waits(pool, waits);
        act();
        let came = waiting.join().unwrap();
        assert!(began.elapsed() < tasks::LONGEST, "nobody wakes the thread");
        came
    })
}

/// What a call in a thread of its own comes to. Fails if it does not end.
pub fn in_time<R: Send + 'static>(call: impl FnOnce() -> R + Send + 'static) -> R {
    let (sender, receiver) = mpsc::channel();
    thread::spawn(move || sender.send(call()));
    receiver
        .recv_timeout(tasks::LONGEST)
        .expect("the call ends")
}
