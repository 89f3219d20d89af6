//! The handles of a pool that threads share, with all calls of users, and its weak handles.

use crate::builder::Builder;
use crate::counts::Counts;
use crate::error::{Error, OpenError, ReconfigureError};
use crate::get::Get;
use crate::handle::{Handle, WeakHandle};
use crate::maintenance_calls::{Addition, Eviction, Maintenance};
use crate::manager::Manager;
use crate::metrics::Metrics;
use crate::pooled::Pooled;
use crate::shared::WaitLimit;
use std::fmt;
use std::future::Future;
use std::io::{self, Write};
use std::sync::{Arc, Weak};
use std::time::{Duration, Instant};

/// A pool that threads share. A clone is a handle of the same pool.
///
/// Any thread may make any call. A call consists of critical sections, in which the pool's lock is held for the steps of the core that follow each
/// other without the manager, at most 64; the manager is called without the lock. Each step makes one entry of the journal. It has the number of the
/// calling thread ([`caller_number`](crate::caller_number)), and the time in milliseconds since the pool was opened.
///
/// When the last handle and the last lent object are gone, the pool is closed, and the rest of its journal is stored. The journal is also stored when
/// the last handle is gone and objects are lent. A thread that is to end with the pool, as one that maintains it, has a [`WeakPool`] instead of a
/// handle.
pub struct Pool<M: Manager> {
    shared: Handle<M>,
    // Dropped after the handle.
    last: Arc<LastPool<M>>,
}

/// Stores the journal when the last [`Pool`] is gone and objects are lent that keep the pool open: they may be so for ever.
struct LastPool<M: Manager>(WeakHandle<M>);

impl<M: Manager> Drop for LastPool<M> {
    fn drop(&mut self) {
        if let Some(pool) = self.0.upgrade() {
            if !pool.is_of_parent() {
                pool.write_rest();
            }
        }
    }
}

impl<M: Manager> Pool<M> {
    /// Returns the settings of a pool to be opened, with their defaults.
    pub fn builder() -> Builder<M> {
        Builder::new()
    }

    /// Opens a pool with the default settings.
    ///
    /// # Errors
    ///
    /// There is no memory.
    pub fn new(manager: M) -> Result<Pool<M>, OpenError> {
        Builder::new().build(manager)
    }

    pub(crate) fn of(shared: Handle<M>) -> Pool<M> {
        let last = Arc::new(LastPool(shared.downgrade()));
        Pool { shared, last }
    }

    pub(crate) fn shared(&self) -> &crate::shared::Shared<M> {
        &self.shared
    }

    /// Lends an object: an idle one, or a new one if a place is free. If there is neither, it waits or fails, as the settings say
    /// (`blockWhenExhausted`, `maxWaitMillis`).
    ///
    /// A borrow that finds an idle object or a free place takes it, even if others wait. Those that wait are woken in the order of arrival, one
    /// for each object or place. One that finds it taken keeps its turn and waits again. Once the oldest waiter has waited for
    /// [`Builder::overtake_time`], and then was overtaken as often as [`Builder::max_overtakes`] allows, or one found what it was woken for taken, a
    /// borrow queues behind it, and makes no entry meanwhile.
    ///
    /// With [`Journal::Segments`](crate::Journal::Segments) this call may store a segment. If the journal is full, it waits for the
    /// thread that stores one ([`Timeout::for_sink`](crate::Timeout::for_sink)). Both waits together are no longer than `maxWaitMillis`.
    ///
    /// An idle object that is not activated, or does not pass the test of `testOnBorrow`, is destroyed, and the borrow continues.
    ///
    /// ```
    /// # use zuphinka::{Manager, Pool};
    /// # struct Sockets;
    /// # impl Manager for Sockets {
    /// #     type Object = std::net::UdpSocket;
    /// #     type Error = std::io::Error;
    /// #     fn make(&self, _id: u64) -> std::io::Result<std::net::UdpSocket> {
    /// #         std::net::UdpSocket::bind("127.0.0.1:0")
    /// #     }
    /// # }
    /// fn port_of(pool: &Pool<Sockets>) -> Result<u16, Box<dyn std::error::Error + Send + Sync>> {
    ///     let socket = pool.get()?;
    ///     Ok(socket.local_addr()?.port())
    /// }
    /// # assert_ne!(port_of(&Pool::new(Sockets)?).unwrap(), 0);
    /// # Ok::<(), zuphinka::OpenError>(())
    /// ```
    ///
    /// # Errors
    ///
    /// [`Error::Exhausted`], [`Error::TimedOut`] and [`Error::Closed`]. For a new object [`Error::Make`], [`Error::CreateTest`],
    /// [`Error::Activate`] and [`Error::BorrowTest`]: it is destroyed, and its place is free.
    /// [`Error::JournalFull`] and [`Error::OutOfMemory`].
    pub fn get(&self) -> Result<Pooled<M>, Error<M::Error>> {
        self.shared.borrow(WaitLimit::AsSet)
    }

    /// Lends an object without waiting for one: an idle one, or a new one if a place is free. It waits for no other thread that stores a
    /// segment of the journal, but may store one itself.
    ///
    /// # Errors
    ///
    /// [`Error::Exhausted`] if there is neither, or if older waiters come first ([`Builder::max_overtakes`]). The other errors are those of
    /// [`get`](Pool::get), except [`Error::TimedOut`], and [`Error::SinkBusy`] if the journal is full while another thread stores a segment.
    pub fn try_get(&self) -> Result<Pooled<M>, Error<M::Error>> {
        match self.shared.borrow(WaitLimit::None) {
            // So the core answers where `maxWaitMillis` is 0.
            Err(Error::TimedOut(_)) => Err(Error::Exhausted),
            lent => lent,
        }
    }

    /// Lends an object as [`get`](Pool::get) does, and waits for one up to this time instead of `maxWaitMillis`. It does not wait if the settings say
    /// that no borrow does (`blockWhenExhausted`). The time does not bound what the manager does: if [`make`](Manager::make) takes a minute, so does
    /// this call.
    ///
    /// # Errors
    ///
    /// Those of [`get`](Pool::get).
    pub fn get_timeout(&self, timeout: Duration) -> Result<Pooled<M>, Error<M::Error>> {
        let end = Instant::now().checked_add(timeout);
        let lent = self.shared.borrow(WaitLimit::Until(end));
        lent.map_err(|error| error.within(Some(timeout)))
    }

    /// Returns a future that lends an object to a task, as [`get`](Pool::get) lends one to a thread. It needs no runtime. Tasks and threads
    /// share the pool, and those that wait are woken in the order of arrival.
    ///
    /// A poll looks once, in one critical section. If there is nothing to lend, it registers the task's waker there. If it finds nothing again,
    /// it makes no entry. It awaits an [`AsyncManager`](crate::AsyncManager), and calls any other manager itself.
    ///
    /// With [`Journal::Segments`](crate::Journal::Segments) a poll may store a segment, and so may a return. If the journal is full while another
    /// thread stores one, the task waits until there is room, as it waits for an object. Set a limit with enough room for the time that your sink
    /// takes, so that this does not happen.
    ///
    /// The future has no timer. `maxWaitMillis` ends a wait at the first poll after that time. Only an object, a place, room in the journal, or the
    /// close of the pool wakes the task. Bound the wait by a timer of your runtime ([`get_async_until`](Pool::get_async_until)).
    ///
    /// # Errors
    ///
    /// Those of [`get`](Pool::get).
    pub fn get_async(&self) -> Get<M>
    where
        M: 'static,
    {
        Get::new(self.shared.clone(), WaitLimit::AsSet)
    }

    /// Returns a future that lends an object to a task as [`get_async`](Pool::get_async) does, until the future `limit` is ready, instead of
    /// `maxWaitMillis`: a timer of your runtime, as `tokio::time::sleep(time)`, or the news that the client is gone. It does not wait if the settings
    /// say that no borrow does (`blockWhenExhausted`).
    ///
    /// The limit bounds also what is awaited of an [`AsyncManager`](crate::AsyncManager): an object that it is making, activating or validating
    /// then is destroyed. It is polled whenever the borrow is and does not end.
    ///
    /// ```
    /// # struct Numbers;
    /// # impl zuphinka::Manager for Numbers {
    /// #     type Object = u64;
    /// #     type Error = std::convert::Infallible;
    /// #     fn make(&self, id: u64) -> Result<u64, Self::Error> { Ok(id) }
    /// # }
    /// use std::future::Future;
    /// use zuphinka::{Error, Pool, Pooled};
    ///
    /// async fn number(pool: Pool<Numbers>, timer: impl Future) -> Option<u64> {
    ///     match pool.get_async_until(timer).await {
    ///         Ok(number) => Some(*number),
    ///         Err(Error::TimedOut(_)) => None,
    ///         Err(error) => panic!("{error}"),
    ///     }
    /// }
    /// ```
    ///
    /// # Errors
    ///
    /// Those of [`get`](Pool::get). [`Error::TimedOut`] if the limit is ready first.
    pub fn get_async_until<F: Future>(
        &self,
        limit: F,
    ) -> impl Future<Output = Result<Pooled<M>, Error<M::Error>>>
    where
        M: 'static,
    {
        Get::new(self.shared.clone(), WaitLimit::Until(None)).until(limit)
    }

    /// Makes an object and adds it to the idle ones, if a place is free.
    ///
    /// # Errors
    ///
    /// [`Error::Closed`]. [`Error::Make`], [`Error::CreateTest`] and [`Error::Passivate`]: the object is destroyed, and its place is
    /// free. [`Error::JournalFull`] and [`Error::OutOfMemory`]: no object was made.
    pub fn add(&self) -> Result<Addition, Error<M::Error>> {
        self.shared.add()
    }

    /// Adds idle objects until there are `minIdle` or no place is free, and returns the number added. On a closed pool it is 0.
    ///
    /// # Errors
    ///
    /// Those of [`add`](Pool::add) except [`Error::Closed`]. Objects that were added before stay.
    pub fn fill(&self) -> Result<u64, Error<M::Error>> {
        self.shared.fill()
    }

    /// Examines idle objects, as many as the settings say, and continues where the last run stopped. An object is destroyed if it was idle for
    /// too long, is too old ([`Builder::max_lifetime`]), or fails the test of `testWhileIdle`.
    ///
    /// # Errors
    ///
    /// [`Error::Closed`]. [`Error::JournalFull`] and [`Error::OutOfMemory`], also in the middle: what was done before stays.
    pub fn evict(&self) -> Result<Eviction, Error<M::Error>> {
        self.shared.evict()
    }

    /// Reclaims abandoned objects, if the settings say so for maintenance, and returns their number. Their places are free at once. A holder
    /// keeps its object, which is destroyed at its return.
    ///
    /// # Errors
    ///
    /// [`Error::JournalFull`] and [`Error::OutOfMemory`], also in the middle: what was done before stays.
    pub fn reclaim(&self) -> Result<u64, Error<M::Error>> {
        self.shared.reclaim()
    }

    /// Maintains the pool: calls [`evict`](Pool::evict), [`reclaim`](Pool::reclaim) and [`fill`](Pool::fill), in this order. Call it now
    /// and then, or have the pool's own thread call it ([`Builder::maintain_every`]). If objects have a lifetime
    /// ([`Builder::max_lifetime`]), further runs look at their ages only, until as many were examined as were idle.
    ///
    /// # Errors
    ///
    /// The first error of the three ends it, and what was done before stays.
    pub fn maintain(&self) -> Result<Maintenance, Error<M::Error>> {
        self.shared.maintain()
    }

    /// Destroys the idle objects, and returns their number.
    ///
    /// # Errors
    ///
    /// [`Error::JournalFull`] and [`Error::OutOfMemory`], also in the middle: what was done before stays.
    ///
    /// # Panics
    ///
    /// If the manager panics in [`destroy`](Manager::destroy): the other objects are destroyed before the first panic continues.
    pub fn clear(&self) -> Result<u64, Error<M::Error>> {
        self.shared.clear()
    }

    /// Closes the pool, destroys the idle objects, and returns their number. A borrow that waits or begins fails
    /// ([`Error::Closed`]). One that is making or activating its object now still gets it. An object that is returned later is destroyed. A second
    /// close only destroys idle objects that are left. A close cannot fail: room and memory for the first are set aside. It stores the journal before it
    /// returns, if that has a sink, whose failure goes to [`Builder::on_error`].
    ///
    /// # Panics
    ///
    /// If the manager panics in [`destroy`](Manager::destroy): the other objects are destroyed before the first panic continues.
    pub fn close(&self) -> u64 {
        self.shared.close()
    }

    /// Closes the pool as [`close`](Pool::close) does, and waits: until each object that is lent or worked on is returned and destroyed, and the thread of
    /// [`Builder::maintain_every`] has done its round, but not after this time. Then it hands the rest of the journal to its sink. Returns whether
    /// both came in time. Otherwise [`counts`](Pool::counts) says what is left, and it may be called again.
    ///
    /// The time bounds neither what the manager does in this thread, nor the sink. Abandoned objects that were reclaimed are not waited for.
    ///
    /// ```
    /// # use std::time::Duration;
    /// # struct Numbers;
    /// # impl zuphinka::Manager for Numbers {
    /// #     type Object = u64;
    /// #     type Error = std::convert::Infallible;
    /// #     fn make(&self, id: u64) -> Result<u64, Self::Error> { Ok(id) }
    /// # }
    /// let pool = zuphinka::Pool::new(Numbers)?;
    /// let lent = pool.get()?;
    /// assert!(!pool.close_and_wait(Duration::from_millis(5)));
    /// drop(lent);
    /// assert!(pool.close_and_wait(Duration::from_secs(10)));
    /// # Ok::<(), Box<dyn std::error::Error + Send + Sync>>(())
    /// ```
    ///
    /// # Panics
    ///
    /// As [`close`](Pool::close), and then it does not wait.
    #[must_use = "objects may be left"]
    pub fn close_and_wait(&self, longest: Duration) -> bool {
        self.shared.close_and_wait(longest)
    }

    /// Returns whether the pool is closed. It takes the lock.
    pub fn is_closed(&self) -> bool {
        self.shared.lock().core.is_closed()
    }

    /// Returns the number of entries since the pool was opened, and the numbers of objects, all of one time. It takes the lock.
    pub fn counts(&self) -> Counts {
        self.shared.lock().core.counts()
    }

    /// Returns the state of the pool, all of one time, to be written as a text in the OpenMetrics format. The name tells the pool from others there,
    /// and may be any text. It takes the lock, and not while the text is written.
    ///
    /// ```
    /// # struct Numbers;
    /// # impl zuphinka::Manager for Numbers {
    /// #     type Object = u64;
    /// #     type Error = std::convert::Infallible;
    /// #     fn make(&self, id: u64) -> Result<u64, Self::Error> { Ok(id) }
    /// # }
    /// let pool = zuphinka::Pool::new(Numbers)?;
    /// let lent = pool.get().unwrap();
    /// let text = pool.metrics("numbers").to_string();
    /// assert!(text.contains("\nzuphinka_lent_objects{pool=\"numbers\"} 1\n"));
    /// # Ok::<(), zuphinka::OpenError>(())
    /// ```
    pub fn metrics(&self, name: &str) -> Metrics {
        Metrics::of(self.shared.snapshot(name))
    }

    /// Returns how many borrows, of threads and of tasks, wait for an object. It takes the lock.
    pub fn waiting(&self) -> u64 {
        self.shared.lock().core.waiting()
    }

    /// Returns how many entries the journal can still take in memory, besides those that are set aside for completing steps and for the close
    /// of the pool. It takes the lock.
    ///
    /// A call that needs more room fails with [`Error::JournalFull`], until the journal is cut:
    ///
    /// | Call | Room that it needs |
    /// |---|---|
    /// | a borrow that makes an object | 6 |
    /// | a borrow that takes an idle object | 4 |
    /// | a borrow that finds neither an object nor a place, or a closed pool | 1 |
    /// | [`add`](Pool::add) | 4; 1 if no place is free |
    /// | [`fill`](Pool::fill) | 4 for each object, and 1 |
    /// | [`evict`](Pool::evict) | 1; then 2 for each object that is tested, 1 for each other one that it keeps |
    /// | [`reclaim`](Pool::reclaim), [`clear`](Pool::clear), [`touch`](Pooled::touch) | 1 |
    /// | the return, invalidation or detachment of a lent object, and the first [`close`](Pool::close) | 0 |
    ///
    /// With [`Abandoned::on_borrow`](crate::Abandoned::on_borrow) each borrow needs 1 more. A borrow that makes an object, tests included, sets
    /// 6 aside: its own entry, and the five that may be needed until the object is destroyed. A borrow of an idle object and its return use 4 up.
    pub fn room(&self) -> u64 {
        self.shared.lock().core.room()
    }

    /// Returns whether it is time to cut the journal: its [`room`](Pool::room) is less than a quarter of its limit, or too little for a borrow
    /// that makes an object. With [`Journal::Memory`](crate::Journal::Memory) call [`cut`](Pool::cut) then. With
    /// [`Journal::Segments`](crate::Journal::Segments) it means that the sink fails or is too slow. With
    /// [`Journal::Off`](crate::Journal::Off) it is false. It takes the lock.
    pub fn is_low(&self) -> bool {
        self.shared.is_low()
    }

    /// Writes the stored journal as text, up to the last entry at this call, and returns the number of entries. `pool check` checks it, with
    /// these [`settings`](Pool::settings). If entries were cut off before, or dropped, or handed to a sink, the text is a segment: it
    /// begins with the lines of the base that its entries continue. A segment that is cut off and not written yet is not part of it.
    ///
    /// The text is copied first, under the lock for some hundred lines at a time; then it is written and flushed without the lock. Only a journal
    /// that is cut again and again meanwhile is copied as a whole under the lock.
    ///
    /// # Errors
    ///
    /// Those of the writer: `out` may then have a part of the text. There is no memory for the text.
    pub fn journal(&self, mut out: impl Write) -> io::Result<u64> {
        self.shared.write_journal(&mut out)
    }

    /// Writes and flushes the entries of the journal that no drain has written and no [`cut`](Pool::cut) has taken, and returns their number. All
    /// that drains write, one after the other, is the journal, if it is kept in memory and never cut. Entries that the pool drops or hands to a
    /// sink are left out. One drain of a pool runs at a time.
    ///
    /// Drained entries stay in memory, and take room as before, until they are cut off.
    ///
    /// # Errors
    ///
    /// Those of the writer. The next drain begins with the lines that this one tried to write last, some hundred. They may have been written
    /// already, or in part. The same holds if the writer panics. There is no memory for the lines. Another error if `out` drains the
    /// journal itself.
    pub fn drain_journal(&self, mut out: impl Write) -> io::Result<u64> {
        self.shared.drain_journal(&mut out)
    }

    /// Writes the journal as a segment, cuts it, and returns the number of entries of the segment. They are dropped from memory, and the pool
    /// continues from their base, with all its room. Objects, holders and [`counts`](Pool::counts) are unchanged.
    ///
    /// A segment begins with the lines of the base that its entries continue. Write each to a file of its own: `pool check` checks all
    /// of them, in their order, as the one journal that they are.
    ///
    /// ```
    /// # use zuphinka::{Journal, Manager, Pool};
    /// # struct Numbers;
    /// # impl Manager for Numbers {
    /// #     type Object = u64;
    /// #     type Error = std::convert::Infallible;
    /// #     fn make(&self, id: u64) -> Result<u64, Self::Error> { Ok(id) }
    /// # }
    /// # let folder = std::env::temp_dir().join(format!("zuphinka-cut-{}", std::process::id()));
    /// # std::fs::create_dir(&folder)?;
    /// let pool = Pool::builder().journal(Journal::Memory(Some(1_000))).build(Numbers)?;
    /// let mut first = 0; // the position of a segment's first entry, by which it is named
    /// for _ in 0..2_000 {
    ///     drop(pool.get().unwrap());
    ///     if pool.is_low() {
    ///         let mut file = std::fs::File::create(folder.join(format!("segment-{first:020}")))?;
    ///         first += pool.cut(&mut file)?;
    ///         file.sync_all()?;
    ///     }
    /// }
    /// assert_eq!(pool.counts().steps, 8_000);
    /// # std::fs::remove_dir_all(&folder)?;
    /// # Ok::<(), Box<dyn std::error::Error>>(())
    /// ```
    ///
    /// The lock is held while some hundred lines are copied, and at the end while the last ones are copied and the journal is cut: so no
    /// entry falls between two segments. The text is written and flushed without the lock. One cut of a pool runs at a time, and others wait
    /// for it. With [`Journal::Off`](crate::Journal::Off) all lines are copied under the lock, and the journal is cut before they are written.
    ///
    /// After a change of the settings ([`reconfigure`](Pool::reconfigure)) the next cut writes the segment before it and no other.
    ///
    /// # Errors
    ///
    /// Those of the writer, which may have a part of the segment. Nothing is lost. In most cases the journal is then not cut. If only the last
    /// entries were still to be written or flushed, it is cut, and the whole segment is kept in memory: then the next cut writes this segment
    /// and no other. There is no memory: the journal is unchanged. [`io::ErrorKind::Unsupported`] if the pool hands its segments to a sink.
    /// Another error if `out` cuts the journal itself.
    pub fn cut(&self, mut out: impl Write) -> io::Result<u64> {
        self.shared.cut(&mut out)
    }

    /// Hands the entries that are in memory to the sink of [`Journal::Segments`](crate::Journal::Segments), as a segment, and returns their
    /// number. Without a sink it does nothing and returns 0.
    ///
    /// # Errors
    ///
    /// Those of the sink: what becomes of the segment is set by [`Segments::on_failure`](crate::Segments::on_failure). There is no memory: the
    /// journal is unchanged. Another error if the sink calls this itself.
    pub fn flush_journal(&self) -> io::Result<u64> {
        self.shared.flush_journal()
    }

    /// Returns the settings, as a file in TOML that has all of them, with which the journal is checked since the last
    /// [change](Pool::reconfigure) of them. It takes the lock.
    pub fn settings(&self) -> String {
        let text = Arc::clone(&self.shared.lock().setup.text);
        text.to_string()
    }

    /// Goes on with other settings, from a text as in [`Builder::settings`], while others use the pool. Returns the position of the first entry
    /// with them.
    ///
    /// Settings that the text does not name have their defaults, not their values so far. What the builder set besides the settings stays: a limit
    /// in [`Journal::Memory`](crate::Journal::Memory) or [`Segments::limit`](crate::Segments::limit) and the 2^32 of
    /// [`Journal::Off`](crate::Journal::Off), each instead of `journalLimit`; the lifetime of objects, with which `testWhileIdle` is set; and
    /// [`Builder::overtake_time`] and [`Builder::max_overtakes`].
    ///
    /// The objects stay, also if they are more than `maxTotal` then: none is made until fewer are present. Those that wait are woken if there are
    /// more places. A borrow or a return in progress goes on with the tests that were set when it began. A wait has the new `maxWaitMillis` once it
    /// is woken or its time is over.
    ///
    /// A change cuts the journal: the entries that are stored are one segment, with the settings so far. What becomes of them:
    ///
    /// - [`Journal::Off`](crate::Journal::Off): they are dropped.
    /// - [`Journal::Segments`](crate::Journal::Segments): this call hands them to the sink. If the sink fails, the settings are changed all the same.
    ///   The failure goes to [`Builder::on_error`], and [`Segments::on_failure`](crate::Segments::on_failure) says what becomes of the segment.
    /// - [`Journal::Memory`](crate::Journal::Memory): they are kept as a segment, which ends before the returned position, and the next
    ///   [`cut`](Pool::cut) writes this segment and no other.
    ///
    /// ```
    /// # struct Numbers;
    /// # impl zuphinka::Manager for Numbers {
    /// #     type Object = u64;
    /// #     type Error = std::convert::Infallible;
    /// #     fn make(&self, id: u64) -> Result<u64, Self::Error> { Ok(id) }
    /// # }
    /// let pool = zuphinka::Pool::builder().max_total(1).build(Numbers)?;
    /// let held = pool.get().unwrap();
    /// pool.reconfigure("maxTotal = 2\ntestOnBorrow = true\n").unwrap();
    /// assert_eq!(*pool.get().unwrap(), 1);
    /// # Ok::<(), zuphinka::OpenError>(())
    /// ```
    ///
    /// # Errors
    ///
    /// All leave the settings and the journal as they were. [`ReconfigureError::Settings`]: the text is invalid.
    /// [`ReconfigureError::Contradiction`]: the journal has a limit of its own, which is too small for the new `maxTotal`.
    /// [`ReconfigureError::NoRoom`]: the new `journalLimit` is too small for what is in progress. [`ReconfigureError::OutOfMemory`].
    /// [`ReconfigureError::Sink`]: a segment that the sink failed to store before comes first, and it failed again.
    /// [`ReconfigureError::Unwritten`]: a segment that was cut off before is in memory: [`cut`](Pool::cut) the journal first.
    /// [`ReconfigureError::FromWriter`]: the sink calls this, or the writer of a cut.
    pub fn reconfigure(&self, settings: &str) -> Result<u64, ReconfigureError> {
        self.shared.reconfigure(settings)
    }

    /// Returns a handle that does not keep the pool open.
    pub fn downgrade(&self) -> WeakPool<M> {
        WeakPool {
            shared: self.shared.downgrade(),
            last: Arc::downgrade(&self.last),
        }
    }

    /// Returns the name that [`Builder::name`] gave the pool.
    pub fn name(&self) -> Option<&str> {
        self.shared.policy.name.as_deref()
    }

    /// Returns the manager.
    pub fn manager(&self) -> &M {
        &self.shared.manager
    }
}

impl<M: Manager> Clone for Pool<M> {
    fn clone(&self) -> Pool<M> {
        Pool {
            shared: self.shared.clone(),
            last: Arc::clone(&self.last),
        }
    }
}

/// Shows the counts, unless another thread has the lock.
impl<M: Manager> fmt::Debug for Pool<M> {
    fn fmt(&self, f: &mut fmt::Formatter<'_>) -> fmt::Result {
        let mut shown = f.debug_struct("Pool");
        match self.shared.try_lock() {
            Some(mut state) => shown.field("counts", &state.core.counts()),
            None => shown.field("counts", &format_args!("<locked>")),
        };
        shown.finish_non_exhaustive()
    }
}

/// A handle of a pool that does not keep it open.
///
/// ```
/// # use std::time::Duration;
/// # use zuphinka::{Manager, Pool};
/// # struct Numbers;
/// # impl Manager for Numbers {
/// #     type Object = u64;
/// #     type Error = std::convert::Infallible;
/// #     fn make(&self, id: u64) -> Result<u64, Self::Error> { Ok(id) }
/// # }
/// let pool = Pool::builder().min_idle(1).build(Numbers)?;
/// let weak = pool.downgrade();
/// let keeper = std::thread::spawn(move || {
///     while let Some(pool) = weak.upgrade() {
///         let _ = pool.maintain();
///         drop(pool);
///         std::thread::sleep(Duration::from_millis(10));
///     }
/// });
/// drop(pool);
/// keeper.join().unwrap();
/// # Ok::<(), zuphinka::OpenError>(())
/// ```
pub struct WeakPool<M: Manager> {
    shared: WeakHandle<M>,
    last: Weak<LastPool<M>>,
}

impl<M: Manager> WeakPool<M> {
    /// Returns a handle of the pool, or none if the last handle and the last lent object are gone.
    pub fn upgrade(&self) -> Option<Pool<M>> {
        let shared = self.shared.upgrade()?;
        Some(match self.last.upgrade() {
            Some(last) => Pool { shared, last },
            None => Pool::of(shared),
        })
    }
}

impl<M: Manager> Clone for WeakPool<M> {
    fn clone(&self) -> WeakPool<M> {
        WeakPool {
            shared: self.shared.clone(),
            last: Weak::clone(&self.last),
        }
    }
}

impl<M: Manager> fmt::Debug for WeakPool<M> {
    fn fmt(&self, f: &mut fmt::Formatter<'_>) -> fmt::Result {
        f.write_str("WeakPool")
    }
}
