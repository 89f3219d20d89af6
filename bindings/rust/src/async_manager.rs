//! Managers whose calls are awaited.

use crate::manager::Manager;
use std::error;
use std::future::Future;
use std::pin::pin;
use std::sync::atomic::{AtomicBool, Ordering};
use std::sync::Arc;
use std::task::{Context, Poll, Wake, Waker};
use std::thread::{self, Thread};

/// Makes, activates and validates the objects of a pool in futures, and passivates and destroys them. [`Async`] makes a [`Manager`] of it.
///
/// An implementation may write the first three as `async fn`. [`Pool::get_async`](crate::Pool::get_async) awaits them. A task that drops its
/// borrow drops the manager's future with it, at any of its awaits. Then the object is destroyed, and its place is freed. `passivate` and
/// `destroy` are not awaited, since guards call them when they are dropped.
///
/// ```
/// use std::future::Future;
/// use std::pin::pin;
/// use std::sync::Arc;
/// use std::task::{Context, Poll, Wake, Waker};
/// use zuphinka::{Async, AsyncManager, Pool};
///
/// struct Sessions;
///
/// impl AsyncManager for Sessions {
///     type Object = String;
///     type Error = std::convert::Infallible;
///
///     async fn make(&self, id: u64) -> Result<String, Self::Error> {
///         Ok(format!("session {id}")) // a real one awaits its server here
///     }
/// }
///
/// # struct Ignored;
/// # impl Wake for Ignored {
/// #     fn wake(self: Arc<Self>) {}
/// # }
/// let pool = Pool::builder().build(Async(Sessions))?;
/// let mut get = pin!(pool.get_async());
/// let waker = Waker::from(Arc::new(Ignored));
/// match get.as_mut().poll(&mut Context::from_waker(&waker)) {
///     Poll::Ready(session) => assert_eq!(*session?, "session 0"),
///     Poll::Pending => unreachable!("nothing is awaited here"),
/// }
/// # Ok::<(), Box<dyn std::error::Error>>(())
/// ```
pub trait AsyncManager: Send + Sync + 'static {
    /// The objects that are lent.
    type Object: Send;

    /// Why an object could not be made, activated or passivated, or did not pass a test, as in [`Manager::Error`].
    type Error: error::Error + Send + Sync + 'static;

    /// Whether [`activate`](AsyncManager::activate) does anything, as in [`Manager::ACTIVATES`].
    const ACTIVATES: bool = true;

    /// Whether [`passivate`](AsyncManager::passivate) does anything, as in [`Manager::PASSIVATES`].
    const PASSIVATES: bool = true;

    /// Makes an object, as [`Manager::make`] does.
    ///
    /// # Errors
    ///
    /// Those of [`Manager::make`].
    fn make(&self, id: u64) -> impl Future<Output = Result<Self::Object, Self::Error>> + Send;

    /// Makes an object ready for a holder, as [`Manager::activate`] does.
    ///
    /// # Errors
    ///
    /// Those of [`Manager::activate`].
    fn activate(
        &self,
        object: &mut Self::Object,
    ) -> impl Future<Output = Result<(), Self::Error>> + Send {
        let _ = object;
        async { Ok(()) }
    }

    /// Returns whether the object can be used, as [`Manager::validate`] does.
    fn validate(&self, object: &mut Self::Object) -> impl Future<Output = bool> + Send {
        let _ = object;
        async { true }
    }

    /// Returns whether the object can be used, or why it cannot, as [`Manager::try_validate`] does.
    ///
    /// # Errors
    ///
    /// Those of [`Manager::try_validate`].
    fn try_validate(
        &self,
        object: &mut Self::Object,
    ) -> impl Future<Output = Result<bool, Self::Error>> + Send {
        async { Ok(self.validate(object).await) }
    }

    /// Makes an object ready to be idle, as [`Manager::passivate`] does.
    ///
    /// # Errors
    ///
    /// Those of [`Manager::passivate`].
    fn passivate(&self, object: &mut Self::Object) -> Result<(), Self::Error> {
        let _ = object;
        Ok(())
    }

    /// Destroys an object, as [`Manager::destroy`] does.
    fn destroy(&self, object: Self::Object) {
        drop(object);
    }
}

/// The [`Manager`] of an [`AsyncManager`], so that tasks and threads share one pool.
///
/// [`Pool::get_async`](crate::Pool::get_async) awaits `make`, `activate` and `validate`. All other calls run them on the calling thread, which
/// sleeps until they end: [`get`](crate::Pool::get), [`add`](crate::Pool::add), [`fill`](crate::Pool::fill), [`evict`](crate::Pool::evict),
/// [`maintain`](crate::Pool::maintain), and the return of an object with `testOnReturn`.
///
/// Make these calls where the runtime does not need the thread: on a runtime with one thread, a future that waits for that runtime never ends.
/// The thread of [`Builder::maintain_every`](crate::Builder::maintain_every) belongs to no runtime. If your futures need one, call `maintain`
/// from a thread of it, as in `tokio::task::spawn_blocking`.
#[derive(Clone, Copy, Debug, Default)]
pub struct Async<A>(pub A);

impl<A: AsyncManager> Manager for Async<A> {
    type Object = A::Object;
    type Error = A::Error;
    const ACTIVATES: bool = A::ACTIVATES;
    const PASSIVATES: bool = A::PASSIVATES;
    const AWAITS: bool = true;

    fn make(&self, id: u64) -> Result<A::Object, A::Error> {
        block_on(self.0.make(id))
    }

    fn activate(&self, object: &mut A::Object) -> Result<(), A::Error> {
        block_on(self.0.activate(object))
    }

    fn validate(&self, object: &mut A::Object) -> bool {
        block_on(self.0.validate(object))
    }

    fn try_validate(&self, object: &mut A::Object) -> Result<bool, A::Error> {
        block_on(self.0.try_validate(object))
    }

    fn passivate(&self, object: &mut A::Object) -> Result<(), A::Error> {
        self.0.passivate(object)
    }

    fn destroy(&self, object: A::Object) {
        self.0.destroy(object)
    }

    fn make_async(&self, id: u64) -> impl Future<Output = Result<A::Object, A::Error>> + Send {
        self.0.make(id)
    }

    fn activate_async(
        &self,
        object: &mut A::Object,
    ) -> impl Future<Output = Result<(), A::Error>> + Send {
        self.0.activate(object)
    }

    fn try_validate_async(
        &self,
        object: &mut A::Object,
    ) -> impl Future<Output = Result<bool, A::Error>> + Send {
        self.0.try_validate(object)
    }
}

/// A thread that sleeps until its future can continue.
struct Sleeper {
    thread: Thread,
    is_woken: AtomicBool,
}

impl Wake for Sleeper {
    fn wake(self: Arc<Self>) {
        self.wake_by_ref();
    }

    fn wake_by_ref(self: &Arc<Self>) {
        self.is_woken.store(true, Ordering::Release);
        self.thread.unpark();
    }
}

/// Runs a future on this thread, which sleeps while the future waits.
fn block_on<F: Future>(future: F) -> F::Output {
    let mut future = pin!(future);
    let sleeper = Arc::new(Sleeper {
        thread: thread::current(),
        is_woken: AtomicBool::new(false),
    });
    let waker = Waker::from(Arc::clone(&sleeper));
    let mut context = Context::from_waker(&waker);
    loop {
        if let Poll::Ready(output) = future.as_mut().poll(&mut context) {
            return output;
        }
        while !sleeper.is_woken.swap(false, Ordering::Acquire) {
            thread::park();
        }
    }
}

#[cfg(test)]
mod tests {
    use super::block_on;
    use std::future::poll_fn;
    use std::sync::atomic::{AtomicBool, Ordering};
    use std::sync::mpsc;
    use std::task::{Poll, Waker};
    use std::time::Duration;
    use std::{mem, thread};

    #[test]
    fn a_future_that_is_ready_ends_at_once() {
        assert_eq!(block_on(async { 7 }), 7);
    }

    #[test]
    fn a_wake_from_within_a_poll_is_seen() {
        let mut left = 3;
        let counted = poll_fn(|context| {
            context.waker().wake_by_ref();
            left -= 1;
            match left {
                0 => Poll::Ready("done"),
                _ => Poll::Pending,
            }
        });
        assert_eq!(block_on(counted), "done");
    }

    #[test]
    fn a_wake_from_another_thread_is_seen_and_no_other_unpark() {
        let (sender, receiver) = mpsc::channel::<Waker>();
        let is_woken = AtomicBool::new(false);
        let (thread, is_woken) = (thread::current(), &is_woken);
        thread::scope(|scope| {
            scope.spawn(move || {
                let waker = receiver.recv().unwrap();
                thread.unpark();
                thread::sleep(Duration::from_millis(20));
                is_woken.store(true, Ordering::SeqCst);
                waker.wake();
            });
            let mut is_first = true;
            block_on(poll_fn(|context| {
                if mem::take(&mut is_first) {
                    sender.send(context.waker().clone()).unwrap();
                    return Poll::Pending;
                }
                assert!(is_woken.load(Ordering::SeqCst));
                Poll::Ready(())
            }));
        });
    }
}
