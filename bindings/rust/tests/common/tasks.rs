//! A small executor, and wakers that tests look at.

use std::collections::VecDeque;
use std::future::Future;
use std::panic::{catch_unwind, resume_unwind, AssertUnwindSafe};
use std::pin::{pin, Pin};
use std::sync::atomic::{AtomicBool, AtomicUsize, Ordering};
use std::sync::{Arc, Condvar, Mutex};
use std::task::{Context, Poll, RawWaker, RawWakerVTable, Wake, Waker};
use std::thread::{self, Thread};
use std::time::{Duration, Instant};

/// After this time a test fails that waits to be woken.
pub const LONGEST: Duration = Duration::from_secs(20);

/// A waker that counts how often it is woken.
#[derive(Default)]
pub struct Bell(AtomicUsize);

impl Bell {
    pub fn new() -> Arc<Bell> {
        Arc::default()
    }

    /// The number of wakes since it was asked last.
    pub fn rings(&self) -> usize {
        self.0.swap(0, Ordering::SeqCst)
    }

    pub fn has_rung(&self) -> bool {
        self.0.load(Ordering::SeqCst) > 0
    }
}

impl Wake for Bell {
    fn wake(self: Arc<Self>) {
        self.0.fetch_add(1, Ordering::SeqCst);
    }
}

/// A waker whose clone panics.
pub fn unique() -> Waker {
    const TABLE: RawWakerVTable =
        RawWakerVTable::new(|_| panic!("the waker is cloned"), |_| {}, |_| {}, |_| {});
    // SAFETY: no function of the table uses the pointer.
    unsafe { Waker::from_raw(RawWaker::new(std::ptr::null(), &TABLE)) }
}

/// Polls a future once, with a waker.
pub fn poll_with<F: Future + Unpin>(future: &mut F, waker: &Waker) -> Poll<F::Output> {
    Pin::new(future).poll(&mut Context::from_waker(waker))
}

/// Polls a future once, with a bell.
pub fn poll<F: Future + Unpin>(future: &mut F, bell: &Arc<Bell>) -> Poll<F::Output> {
    poll_with(future, &Waker::from(Arc::clone(bell)))
}

/// What a future that is ready comes to.
pub fn ready<T>(polled: Poll<T>) -> T {
    match polled {
        Poll::Ready(output) => output,
        Poll::Pending => panic!("the future waits"),
    }
}

struct Sleeper {
    thread: Thread,
    is_woken: AtomicBool,
}

impl Wake for Sleeper {
    fn wake(self: Arc<Self>) {
        self.is_woken.store(true, Ordering::SeqCst);
        self.thread.unpark();
    }
}

/// Runs a future on this thread, and fails if nobody wakes it.
pub fn block_on<F: Future>(future: F) -> F::Output {
    let mut future = pin!(future);
    let sleeper = Arc::new(Sleeper {
        thread: thread::current(),
        is_woken: AtomicBool::new(false),
    });
    let waker = Waker::from(Arc::clone(&sleeper));
    let end = Instant::now() + LONGEST;
    loop {
        if let Poll::Ready(output) = future.as_mut().poll(&mut Context::from_waker(&waker)) {
            return output;
        }
        while !sleeper.is_woken.swap(false, Ordering::SeqCst) {
            let left = end.saturating_duration_since(Instant::now());
            assert!(!left.is_zero(), "nobody wakes the future");
            thread::park_timeout(left);
        }
    }
}

/// Lets other tasks of the executor run first.
pub async fn yield_now() {
    let mut is_first = true;
    std::future::poll_fn(|context| {
        if std::mem::take(&mut is_first) {
            context.waker().wake_by_ref();
            return Poll::Pending;
        }
        Poll::Ready(())
    })
    .await
}

type Work = Pin<Box<dyn Future<Output = ()> + Send>>;

/// A task, which runs when it is woken.
struct Task {
    /// None once it has ended.
    work: Mutex<Option<Work>>,
    is_queued: AtomicBool,
    executor: Arc<Queue>,
}

/// Tasks that are to run.
#[derive(Default)]
struct Queue {
    tasks: Mutex<Tasks>,
    changed: Condvar,
}

#[derive(Default)]
struct Tasks {
    queued: VecDeque<Arc<Task>>,
    /// The number of tasks that have not ended.
    left: usize,
}

impl Wake for Task {
    fn wake(self: Arc<Self>) {
        if !self.is_queued.swap(true, Ordering::SeqCst) {
            let executor = Arc::clone(&self.executor);
            executor.tasks.lock().unwrap().queued.push_back(self);
            executor.changed.notify_one();
        }
    }
}

impl Queue {
    /// Takes a task to run, or none if all have ended.
    fn take(&self) -> Option<Arc<Task>> {
        let mut tasks = self.tasks.lock().unwrap();
        let end = Instant::now() + LONGEST;
        while tasks.left > 0 {
            if let Some(task) = tasks.queued.pop_front() {
                return Some(task);
            }
            let left = end.saturating_duration_since(Instant::now());
            assert!(!left.is_zero(), "nobody wakes a task");
            tasks = self.changed.wait_timeout(tasks, left).unwrap().0;
        }
        None
    }

    fn end_one(&self) {
        self.tasks.lock().unwrap().left -= 1;
        self.changed.notify_all();
    }

    /// Runs tasks until all have ended.
    fn work(&self) {
        while let Some(task) = self.take() {
            task.is_queued.store(false, Ordering::SeqCst);
            let waker = Waker::from(Arc::clone(&task));
            let mut work = task.work.lock().unwrap();
            let Some(future) = work.as_mut() else {
                continue;
            };
            let mut context = Context::from_waker(&waker);
            let polled = catch_unwind(AssertUnwindSafe(|| future.as_mut().poll(&mut context)));
            if !matches!(polled, Ok(Poll::Pending)) {
                *work = None;
                self.end_one();
            }
            if let Err(panicked) = polled {
                drop(work);
                resume_unwind(panicked);
            }
        }
    }
}

/// Runs tasks on some threads, and fails if one panics or nobody wakes one.
pub fn run_all<F: Future<Output = ()> + Send + 'static>(
    threads: usize,
    tasks: impl IntoIterator<Item = F>,
) {
    let executor = Arc::new(Queue::default());
    for work in tasks {
        executor.tasks.lock().unwrap().left += 1;
        let task = Task {
            work: Mutex::new(Some(Box::pin(work))),
            is_queued: AtomicBool::new(false),
            executor: Arc::clone(&executor),
        };
        Arc::new(task).wake();
    }
    thread::scope(|scope| {
        for _ in 0..threads {
            scope.spawn(|| executor.work());
        }
    });
}
