//! Managers with hooks or without, and a clock that tests set.

use std::convert::Infallible;
use std::sync::atomic::{AtomicU64, Ordering};
use std::sync::{Arc, Mutex};
use std::{error, fmt, mem};
use zuphinka::{Builder, Journal, Manager, Pool};

/// Makes numbers.
pub struct Numbers<const HOOKS: bool>;

impl<const HOOKS: bool> Manager for Numbers<HOOKS> {
    type Object = u64;
    type Error = Infallible;
    const ACTIVATES: bool = HOOKS;
    const PASSIVATES: bool = HOOKS;

    fn make(&self, id: u64) -> Result<u64, Infallible> {
        Ok(id)
    }
}

/// Borrows a number, and returns it.
pub fn pair<const HOOKS: bool>(pool: &Pool<Numbers<HOOKS>>) {
    drop(pool.get().unwrap());
}

/// A time that tests set, in milliseconds.
#[derive(Clone, Default)]
pub struct Clock(Arc<AtomicU64>);

impl Clock {
    pub fn set(&self, time: u64) {
        self.0.store(time, Ordering::SeqCst);
    }

    pub fn told(&self) -> impl Fn() -> u64 {
        let time = Arc::clone(&self.0);
        move || time.load(Ordering::SeqCst)
    }
}

/// Why a call of this name failed.
#[derive(Clone, Copy, Debug, PartialEq)]
pub struct Broken(pub &'static str);

impl fmt::Display for Broken {
    fn fmt(&self, f: &mut fmt::Formatter<'_>) -> fmt::Result {
        write!(f, "{} is broken", self.0)
    }
}

impl error::Error for Broken {}

/// Makes widgets. It writes down its calls, and fails or panics if it is told to.
#[derive(Clone, Default)]
pub struct Maker<const HOOKS: bool> {
    calls: Arc<Mutex<Vec<String>>>,
    failing: Arc<Mutex<Vec<&'static str>>>,
    panicking: Arc<Mutex<Vec<&'static str>>>,
    dropped: Arc<Mutex<Vec<u64>>>,
}

/// An object that knows its id.
#[derive(Debug)]
pub struct Widget {
    pub id: u64,
    dropped: Arc<Mutex<Vec<u64>>>,
}

impl Drop for Widget {
    fn drop(&mut self) {
        self.dropped.lock().unwrap().push(self.id);
    }
}

/// Takes a name out of a list. Returns whether it was there.
pub fn take_out(list: &Mutex<Vec<&'static str>>, name: &str) -> bool {
    let mut list = list.lock().unwrap();
    let position = list.iter().position(|one| *one == name);
    position.map(|position| list.remove(position)).is_some()
}

impl<const HOOKS: bool> Maker<HOOKS> {
    /// The next call of this name fails.
    pub fn fail(&self, name: &'static str) {
        self.failing.lock().unwrap().push(name);
    }

    /// The next call of this name panics.
    pub fn panic(&self, name: &'static str) {
        self.panicking.lock().unwrap().push(name);
    }

    fn call(&self, name: &'static str, id: u64) -> Result<(), Broken> {
        self.calls.lock().unwrap().push(format!("{name} {id}"));
        if take_out(&self.panicking, name) {
            panic!("{name} panics");
        }
        match take_out(&self.failing, name) {
            true => Err(Broken(name)),
            false => Ok(()),
        }
    }

    /// Returns the calls since it was asked last.
    pub fn calls(&self) -> Vec<String> {
        mem::take(&mut *self.calls.lock().unwrap())
    }

    /// Returns the ids of the widgets that were dropped since it was asked last.
    pub fn dropped(&self) -> Vec<u64> {
        mem::take(&mut *self.dropped.lock().unwrap())
    }
}

impl<const HOOKS: bool> Manager for Maker<HOOKS> {
    type Object = Widget;
    type Error = Broken;
    const ACTIVATES: bool = HOOKS;
    const PASSIVATES: bool = HOOKS;

    fn make(&self, id: u64) -> Result<Widget, Broken> {
        self.call("make", id)?;
        Ok(Widget {
            id,
            dropped: Arc::clone(&self.dropped),
        })
    }

    fn activate(&self, widget: &mut Widget) -> Result<(), Broken> {
        self.call("activate", widget.id)
    }

    fn validate(&self, widget: &mut Widget) -> bool {
        self.call("validate", widget.id).is_ok()
    }

    fn passivate(&self, widget: &mut Widget) -> Result<(), Broken> {
        self.call("passivate", widget.id)
    }

    fn destroy(&self, widget: Widget) {
        self.call("destroy", widget.id).unwrap();
    }
}

/// The builder of a pool whose journal is kept in memory.
pub fn kept<M: Manager>() -> Builder<M> {
    Pool::builder().journal(Journal::Memory(None))
}

/// A pool with a clock that stands still, and its manager.
pub fn pool_with<const HOOKS: bool>(
    change: impl FnOnce(Builder<Maker<HOOKS>>) -> Builder<Maker<HOOKS>>,
) -> (Pool<Maker<HOOKS>>, Maker<HOOKS>, Clock) {
    let (maker, clock) = (Maker::default(), Clock::default());
    let builder = change(kept().clock(clock.told()));
    (builder.build(maker.clone()).unwrap(), maker, clock)
}
