//! Threads that borrow from the Rust crate and return for a long time, for `bench/soak`: `soak pairs N` makes N pairs, `soak seconds N` works
//! for N seconds.
//!
//! Four threads share three places, of which two may stay idle, and a thread now and then invalidates its object: so objects come and go,
//! and threads wait. The pool keeps no journal. Prints a number for each word: `pairs`, of all threads; `uses`, of all objects; `memory_early`
//! and `memory`, the most KiB of resident memory in the first tenth and in all; `double`, the loans of an object that another thread held;
//! `stray`, the loans of an object under another id than its own; `excess`, the objects that were made while all places were taken;
//! `made` and `destroyed`, by the manager; `created`, `freed` and `left`, by the pool's counts.

use std::convert::Infallible;
use std::error::Error;
use std::sync::atomic::{AtomicBool, AtomicU32, AtomicU64, Ordering};
use std::time::{Duration, Instant};
use std::{env, fs, thread};
use zuphinka::{Manager, Pool, Pooled};

const THREADS: usize = 4;
const OBJECTS: u32 = 3;
const IDLE: u32 = 2;
/// The pairs that a thread takes at one time. In the first of them it invalidates its object.
const CHUNK: u64 = 1_000;
const PAUSE: Duration = Duration::from_millis(10);

/// The objects that the manager has made and not destroyed.
static ALIVE: AtomicU32 = AtomicU32::new(0);

/// The sums over all objects and threads.
struct Sums {
    made: AtomicU64,
    destroyed: AtomicU64,
    uses: AtomicU64,
    double: AtomicU64,
    stray: AtomicU64,
    excess: AtomicU64,
    pairs: AtomicU64,
}

static SUMS: Sums = Sums {
    made: AtomicU64::new(0),
    destroyed: AtomicU64::new(0),
    uses: AtomicU64::new(0),
    double: AtomicU64::new(0),
    stray: AtomicU64::new(0),
    excess: AtomicU64::new(0),
    pairs: AtomicU64::new(0),
};

fn add(sum: &AtomicU64, more: u64) {
    sum.fetch_add(more, Ordering::Relaxed);
}

struct Tool {
    id: u64,
    is_held: AtomicBool,
    uses: u64,
}

struct Tools;

impl Manager for Tools {
    type Object = Tool;
    type Error = Infallible;

    fn make(&self, id: u64) -> Result<Tool, Infallible> {
        add(&SUMS.made, 1);
        if ALIVE.fetch_add(1, Ordering::Relaxed) >= OBJECTS {
            add(&SUMS.excess, 1);
        }
        Ok(Tool {
            id,
            is_held: AtomicBool::new(false),
            uses: 0,
        })
    }

    fn destroy(&self, tool: Tool) {
        ALIVE.fetch_sub(1, Ordering::Relaxed);
        add(&SUMS.destroyed, 1);
        add(&SUMS.uses, tool.uses);
    }
}

/// How long the threads work.
#[derive(Clone, Copy)]
enum Length {
    Pairs(u64),
    Time(Duration),
}

impl Length {
    fn from_arguments() -> Option<Length> {
        let words: Vec<String> = env::args().skip(1).collect();
        match words.as_slice() {
            [kind, number] if kind == "pairs" => Some(Length::Pairs(number.parse().ok()?)),
            [kind, number] if kind == "seconds" => Some(Length::Time(
                Duration::try_from_secs_f64(number.parse().ok()?).ok()?,
            )),
            _ => None,
        }
    }

    /// The share of the work that is done, from 0 to 1.
    fn share_done(self, began: Instant) -> f64 {
        match self {
            Length::Pairs(pairs) => SUMS.pairs.load(Ordering::Relaxed) as f64 / pairs as f64,
            Length::Time(time) => began.elapsed().as_secs_f64() / time.as_secs_f64(),
        }
    }
}

/// The pairs that are left for the threads.
struct Work {
    left: AtomicU64,
}

impl Work {
    fn new(length: Length) -> Work {
        let pairs = match length {
            Length::Pairs(pairs) => pairs,
            Length::Time(_) => u64::MAX,
        };
        Work {
            left: AtomicU64::new(pairs),
        }
    }

    /// Takes the pairs of one chunk, none if none are left.
    fn take(&self) -> u64 {
        let take = |left: u64| left.checked_sub(left.min(CHUNK)).filter(|_| left > 0);
        let taken = self
            .left
            .fetch_update(Ordering::Relaxed, Ordering::Relaxed, take);
        taken.map_or(0, |left| left.min(CHUNK))
    }

    fn end(&self) {
        self.left.store(0, Ordering::Relaxed);
    }
}

/// Uses an object, and counts it if another thread holds it or its id is wrong.
fn use_tool(tool: &mut Pooled<Tools>) {
    if Pooled::id(tool) != tool.id {
        add(&SUMS.stray, 1);
    }
    if tool.is_held.swap(true, Ordering::AcqRel) {
        add(&SUMS.double, 1);
    }
    tool.uses += 1;
    tool.is_held.store(false, Ordering::Release);
}

/// Borrows an object and uses it. An error ends the program, since pairs would be missing.
fn borrow(pool: &Pool<Tools>) -> Pooled<Tools> {
    let mut tool = pool.get().unwrap_or_else(|error| {
        eprintln!("a borrow failed: {error}");
        std::process::exit(1)
    });
    use_tool(&mut tool);
    tool
}

/// Makes pairs while some are left.
fn work(pool: &Pool<Tools>, work: &Work) {
    loop {
        let taken = work.take();
        if taken == 0 {
            return;
        }
        Pooled::invalidate(borrow(pool));
        (1..taken).for_each(|_| drop(borrow(pool)));
        add(&SUMS.pairs, taken);
    }
}

/// The resident memory of this process, in KiB. It is counted page by page, and so exact while threads run.
fn resident() -> u64 {
    let memory = fs::read_to_string("/proc/self/smaps_rollup").unwrap_or_default();
    let line = memory.lines().find_map(|line| line.strip_prefix("Rss:"));
    line.and_then(|line| line.trim_end_matches("kB").trim().parse().ok())
        .unwrap_or(0)
}

/// Waits until a share of the work is done. Returns the most memory that it saw meanwhile.
fn await_share(share: f64, length: Length, began: Instant) -> u64 {
    let mut most = resident();
    while length.share_done(began) < share {
        thread::sleep(PAUSE);
        most = most.max(resident());
    }
    most
}

/// Lets all threads work. Returns the most memory in the first tenth of the work, and in all of it.
fn run(pool: &Pool<Tools>, length: Length) -> (u64, u64) {
    let (left, began) = (Work::new(length), Instant::now());
    thread::scope(|scope| {
        for _ in 0..THREADS {
            scope.spawn(|| work(pool, &left));
        }
        let early = await_share(0.1, length, began);
        let memory = await_share(1.0, length, began);
        left.end();
        (early, early.max(memory))
    })
}

fn main() -> Result<(), Box<dyn Error>> {
    let length = Length::from_arguments().ok_or("soak pairs N, or soak seconds N")?;
    let builder = Pool::builder().max_total(OBJECTS).max_idle(IDLE);
    let pool = builder.build(Tools)?;
    let (early, memory) = run(&pool, length);
    pool.close();
    let counts = pool.counts();
    let number = |sum: &AtomicU64| sum.load(Ordering::Relaxed);
    let report = [
        ("pairs", number(&SUMS.pairs)),
        ("uses", number(&SUMS.uses)),
        ("memory_early", early),
        ("memory", memory),
        ("double", number(&SUMS.double)),
        ("stray", number(&SUMS.stray)),
        ("excess", number(&SUMS.excess)),
        ("made", number(&SUMS.made)),
        ("destroyed", number(&SUMS.destroyed)),
        ("created", counts.created),
        ("freed", counts.destroyed),
        ("left", counts.idle + counts.lent + counts.reserved),
    ];
    for (word, number) in report {
        println!("{word} {number}");
    }
    Ok(())
}
