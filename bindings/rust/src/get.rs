//! A borrow by a task.

use crate::call::{Action, Kind};
use crate::course::Course;
use crate::error::Error;
use crate::handle::Handle;
use crate::in_progress::{InProgress, Suspended};
use crate::manager::Manager;
use crate::panics::{caught, drop_quietly};
use crate::pooled::Pooled;
use crate::proved_core::Space;
use crate::shared::WaitLimit;
use crate::work::Worked;
use std::fmt;
use std::future::{poll_fn, Future};
use std::mem;
use std::pin::{pin, Pin};
use std::task::{Context, Poll, Waker};

/// A borrow by a task: the future that [`Pool::get_async`](crate::Pool::get_async) returns.
///
/// It holds a handle of the pool, and may go to another thread. Nothing happens before the first poll. Its entries in the journal have the number
/// of the thread that polls first ([`caller_number`](crate::caller_number)).
///
/// **You may drop it at any time.** If it waits, it leaves the order of arrival. If it was woken for an object, the next waiter is woken for
/// that one. If the manager is making, activating or validating an object, that is cancelled: the object is destroyed, and then its place is
/// freed.
///
/// **Once it was polled, poll it when it wakes its task, or drop it.** If you do neither for a second, its wake goes to the next waiter: then by the
/// next borrow, poll or maintenance of the pool, or by a thread that waits, which looks each second. Until then later borrows queue behind it once it
/// was overtaken as often as the pool allows. It begins again when it is polled, behind those that wait.
#[must_use = "a future does nothing until it is polled"]
pub struct Get<M: Manager> {
    // Dropped before the pool.
    progress: Progress<M>,
    pool: Handle<M>,
    /// When it was polled first, in nanoseconds.
    began: u64,
}

/// How far a borrow is between two polls.
enum Progress<M: Manager> {
    /// It is to wait up to this limit.
    New(WaitLimit),
    /// It sleeps, or waits for room in the journal, or was woken.
    Waits(Suspended<M>),
    /// The manager is awaited.
    Works(Work<M>),
    Ended,
}

/// The work of a manager that is awaited, and the call that asks for it.
type Work<M> = Pin<Box<dyn Future<Output = (Suspended<M>, Worked<M>)> + Send>>;

/// What a poll comes to.
type Lent<M> = Poll<Result<Pooled<M>, Error<<M as Manager>::Error>>>;

impl<M: Manager> Get<M> {
    pub(crate) fn new(pool: Handle<M>, limit: WaitLimit) -> Get<M> {
        Get {
            progress: Progress::New(limit),
            pool,
            began: 0,
        }
    }

    /// Ends the borrow, whose time is over.
    fn time_out(&mut self) -> Error<M::Error> {
        let error = match mem::replace(&mut self.progress, Progress::Ended) {
            Progress::Waits(suspended) => {
                InProgress::resume(&self.pool, suspended, &mut Space::uninit()).time_out()
            }
            other => {
                drop(other);
                self.pool.lock().measures.timeouts += 1;
                self.pool.timed_out(self.began, false)
            }
        };
        error.within(None)
    }
}

impl<M: Manager + 'static> Get<M> {
    /// Awaits the borrow until a limit is ready, which is polled after it.
    pub(crate) async fn until(mut self, limit: impl Future) -> Result<Pooled<M>, Error<M::Error>> {
        let mut limit = pin!(limit);
        poll_fn(|context| match self.advance(context) {
            Poll::Pending => limit.as_mut().poll(context).map(|_| Err(self.time_out())),
            lent => lent,
        })
        .await
    }
}

impl<M: Manager + 'static> Get<M> {
    fn advance(&mut self, context: &mut Context<'_>) -> Lent<M> {
        let pool = &self.pool;
        let mut polling = Polling {
            pool,
            progress: &mut self.progress,
            context,
            waker: None,
        };
        if let Progress::New(limit) = *polling.progress {
            // It has ended if the manager panics.
            *polling.progress = Progress::Ended;
            let course = Course {
                is_of_task: true,
                ..Course::new(Kind::Borrow, pool.caller(), pool.now(), limit)
            };
            self.began = course.began;
            return pool.lend(course, Poll::Ready, |call| polling.go_on(call));
        }
        // Code of others, so without the lock. If it panics, nothing has changed.
        polling.waker = Some(polling.context.waker().clone());
        let suspended = match mem::replace(polling.progress, Progress::Ended) {
            Progress::Waits(suspended) => suspended,
            Progress::Works(work) => match polling.poll_work(work) {
                Poll::Ready((suspended, worked)) => {
                    return polling.go_on_after(suspended, worked);
                }
                Poll::Pending => return Poll::Pending,
            },
            Progress::New(_) | Progress::Ended => panic!("a borrow is polled after it has ended"),
        };
        polling.go_on(&mut InProgress::resume(
            pool,
            suspended,
            &mut Space::uninit(),
        ))
    }
}

/// A poll of a borrow.
struct Polling<'a, 'b, M: Manager> {
    pool: &'a Handle<M>,
    progress: &'a mut Progress<M>,
    context: &'a mut Context<'b>,
    /// The waker of the task, once it is cloned, unless the pool has taken it.
    waker: Option<Waker>,
}

impl<M: Manager + 'static> Polling<'_, '_, M> {
    /// Goes on with a borrow until it is over, or the task has to wait.
    fn go_on(&mut self, call: &mut InProgress<'_, M>) -> Lent<M> {
        loop {
            match call.action() {
                Action::Done => return Poll::Ready(self.pool.lent_by(call)),
                Action::Sleep | Action::MakeRoom => {
                    self.clone_waker(call);
                    call.look(&mut self.waker);
                    if self.waker.is_none() {
                        *self.progress = Progress::Waits(call.suspend());
                        return Poll::Pending;
                    }
                }
                _ if call.is_awaited() => {
                    let work = Box::pin(work(self.pool.clone(), call.suspend()));
                    match self.poll_work(work) {
                        Poll::Ready((suspended, worked)) => {
                            call.take_up_again(suspended);
                            call.go_on(worked)?;
                        }
                        Poll::Pending => return Poll::Pending,
                    }
                }
                _ => call.act()?,
            }
        }
    }

    /// Goes on with a borrow after work of the manager.
    fn go_on_after(&mut self, suspended: Suspended<M>, worked: Worked<M>) -> Lent<M> {
        let mut space = Space::uninit();
        let mut call = InProgress::resume(self.pool, suspended, &mut space);
        call.go_on(worked)?;
        self.go_on(&mut call)
    }

    /// Has the waker of the task, which is code of others. If its clone panics, the call waits.
    fn clone_waker(&mut self, call: &mut InProgress<'_, M>) {
        if self.waker.is_none() {
            match caught(|| self.context.waker().clone()) {
                Ok(waker) => self.waker = Some(waker),
                Err(panic) => {
                    *self.progress = Progress::Waits(call.suspend());
                    panic.resume();
                }
            }
        }
    }

    /// Awaits the work of a manager.
    fn poll_work(&mut self, mut work: Work<M>) -> Poll<(Suspended<M>, Worked<M>)> {
        let polled = work.as_mut().poll(self.context);
        if polled.is_pending() {
            *self.progress = Progress::Works(work);
        }
        polled
    }
}

impl<M: Manager> Drop for Polling<'_, '_, M> {
    /// The drop of a waker may panic, and here that ends.
    fn drop(&mut self) {
        self.waker.take().into_iter().for_each(drop_quietly);
    }
}

/// Awaits the work of the manager that a call asks for. Once it was polled, its drop gives the call up.
async fn work<M: Manager>(pool: Handle<M>, suspended: Suspended<M>) -> (Suspended<M>, Worked<M>) {
    let mut space = Space::uninit();
    let mut call = InProgress::resume(&pool, suspended, &mut space);
    let worked = call.work_async().await;
    (call.suspend(), worked)
}

/// Nothing in it is pinned, except what is in a box.
impl<M: Manager> Unpin for Get<M> {}

impl<M: Manager + 'static> Future for Get<M> {
    type Output = Result<Pooled<M>, Error<M::Error>>;

    /// # Panics
    ///
    /// It was polled after it had ended, also by a panic of the manager. Or the clone of the waker panics: then it may be polled again.
    fn poll(self: Pin<&mut Self>, context: &mut Context<'_>) -> Poll<Self::Output> {
        self.get_mut().advance(context)
    }
}

impl<M: Manager> Drop for Get<M> {
    fn drop(&mut self) {
        if let Progress::Waits(suspended) = mem::replace(&mut self.progress, Progress::Ended) {
            drop(InProgress::resume(
                &self.pool,
                suspended,
                &mut Space::uninit(),
            ));
            self.pool.pass_wakes_on();
        }
    }
}

impl<M: Manager> fmt::Debug for Get<M> {
    fn fmt(&self, f: &mut fmt::Formatter<'_>) -> fmt::Result {
        f.debug_struct("Get")
            .field("waits", &matches!(self.progress, Progress::Waits(_)))
            .field("has_ended", &matches!(self.progress, Progress::Ended))
            .finish_non_exhaustive()
    }
}
