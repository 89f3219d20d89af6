//! Why a call of a pool failed, why a pool was not opened, and why settings were not read.

use crate::escaped::Escaped;
use crate::proved_core::CoreFault;
use crate::timeouts::Timeout;
use std::time::Duration;
use std::{error, fmt, io};

/// Why a call of a pool failed. `E` is the manager's error.
///
/// Each call says what it leaves. None leaves an object without an owner, or a place taken for nothing.
#[derive(Clone, Debug, PartialEq, Eq, Hash)]
#[non_exhaustive]
pub enum Error<E> {
    /// No object is idle, no place is free, and the call or the settings say not to wait.
    Exhausted,
    /// No object was idle, and no place was free, for as long as the call or the settings allow. Or the journal was full for that time, since its sink
    /// was storing a segment ([`Timeout::for_sink`]).
    TimedOut(Timeout),
    /// The pool is closed.
    Closed,
    /// The journal has less room than the call needs, as [`Pool::room`](crate::Pool::room) lists, until it is cut or its sink stores it, which failed.
    JournalFull,
    /// The journal has less room than the call needs while its sink stores a segment in another thread, and the call may not wait for that. The sink is
    /// slower than the pool, which has too little room for the time that it takes ([`Segments::limit`](crate::Segments::limit)).
    SinkBusy,
    /// An allocation failed: for the entry, for the object's place, or for the caller's place among the waiters.
    OutOfMemory,
    /// The manager did not make an object, and returned this.
    Make(E),
    /// The manager did not activate a new object, and returned this.
    Activate(E),
    /// The manager did not passivate a new object, and returned this.
    Passivate(E),
    /// A new object did not pass the test of `testOnCreate`, for a reason if [`Manager::try_validate`](crate::Manager::try_validate) gave one.
    CreateTest(Option<E>),
    /// A new object did not pass the test of `testOnBorrow`, for a reason if there is one.
    BorrowTest(Option<E>),
}

impl<E> Error<E> {
    /// Returns the manager's own error, if it is one.
    pub fn into_manager_error(self) -> Option<E> {
        match self {
            Error::Make(error) | Error::Activate(error) | Error::Passivate(error) => Some(error),
            Error::CreateTest(reason) | Error::BorrowTest(reason) => reason,
            _ => None,
        }
    }

    /// Returns the error of a call that had this limit of its own.
    pub(crate) fn within(mut self, limit: Option<Duration>) -> Error<E> {
        if let Error::TimedOut(timeout) = &mut self {
            timeout.limit = limit;
        }
        self
    }
}

/// Writes what happened. The manager's own error is the source.
impl<E> fmt::Display for Error<E> {
    fn fmt(&self, f: &mut fmt::Formatter<'_>) -> fmt::Result {
        match self {
            Error::Exhausted => f.write_str("all objects of the pool are lent"),
            Error::TimedOut(timeout) => timeout.fmt(f),
            Error::Closed => f.write_str("the pool is closed"),
            Error::JournalFull => f.write_str("the journal of the pool is full"),
            Error::SinkBusy => {
                f.write_str("the journal of the pool is full while its sink stores a segment")
            }
            Error::OutOfMemory => f.write_str("out of memory"),
            Error::Make(_) => f.write_str("an object could not be made"),
            Error::Activate(_) => f.write_str("a new object could not be activated"),
            Error::Passivate(_) => f.write_str("a new object could not be passivated"),
            Error::CreateTest(_) => f.write_str("a new object did not pass its test"),
            Error::BorrowTest(_) => {
                f.write_str("a new object did not pass its test before it was lent")
            }
        }
    }
}

impl<E: error::Error + 'static> error::Error for Error<E> {
    fn source(&self) -> Option<&(dyn error::Error + 'static)> {
        match self {
            Error::Make(error) | Error::Activate(error) | Error::Passivate(error) => Some(error),
            Error::CreateTest(reason) | Error::BorrowTest(reason) => {
                reason.as_ref().map(|reason| reason as _)
            }
            _ => None,
        }
    }
}

/// Why no pool was opened.
#[derive(Clone, Debug, PartialEq, Eq)]
#[non_exhaustive]
pub enum OpenError {
    /// A text of settings is invalid, in a function that reads one and opens a pool.
    Settings(SettingsError),
    /// A number or a time is out of its range: what this method of the builder sets, or `Abandoned::timeout`, `Segments::limit` or
    /// `Journal::Memory`.
    OutOfRange(&'static str),
    /// Two settings of the builder contradict each other.
    Contradiction(Contradiction),
    /// An allocation failed.
    OutOfMemory,
    /// A thread of the pool's own could not be started: an error of this kind.
    Thread(io::ErrorKind),
}

/// Why a pool kept its settings, in [`Pool::reconfigure`](crate::Pool::reconfigure).
#[derive(Debug)]
#[non_exhaustive]
pub enum ReconfigureError {
    /// The settings are invalid.
    Settings(SettingsError),
    /// The journal has a limit of its own, and is full before the new `maxTotal` objects are lent at a time
    /// ([`Contradiction::JournalTooSmall`]).
    Contradiction(Contradiction),
    /// The new `journalLimit` is less than the entries that may still be needed to free each place and close the pool.
    NoRoom,
    /// An allocation failed.
    OutOfMemory,
    /// A segment that was cut off before is not stored yet, and the sink failed again, with this error.
    Sink(io::Error),
    /// A segment that was cut off before is still in memory. Call [`cut`](crate::Pool::cut), which writes it, and try again.
    Unwritten,
    /// The sink called it while it stored a segment, or the writer of a [`cut`](crate::Pool::cut).
    FromWriter,
}

/// Which settings of a builder contradict each other.
///
/// Only settings from the builder's own methods are checked. A text of settings is read as the program reads it.
#[derive(Clone, Copy, Debug, PartialEq, Eq, Hash)]
#[non_exhaustive]
pub enum Contradiction {
    /// `max_total` is 0, and a borrow waits without limit: it would wait for ever.
    NothingToWaitFor,
    /// `min_idle` is more than `max_total` allows.
    MinIdleAboveMaxTotal,
    /// `min_idle` is more than `max_idle` allows.
    MinIdleAboveMaxIdle,
    /// `max_wait` has a limit, and `block_when_exhausted` is off: no borrow waits.
    WaitWithoutBlocking,
    /// `abandoned` is set, and neither `on_borrow` nor `on_maintenance` is: no object is ever reclaimed.
    NeverReclaimed,
    /// The journal is full before `max_total` objects are lent at a time, or before one is if that is no limit.
    JournalTooSmall,
}

impl fmt::Display for Contradiction {
    fn fmt(&self, f: &mut fmt::Formatter<'_>) -> fmt::Result {
        f.write_str(match self {
            Contradiction::NothingToWaitFor => {
                "a borrow would wait for ever: max_total is 0, and max_wait has no limit"
            }
            Contradiction::MinIdleAboveMaxTotal => "min_idle is above max_total",
            Contradiction::MinIdleAboveMaxIdle => "min_idle is above max_idle",
            Contradiction::WaitWithoutBlocking => {
                "max_wait is set, and block_when_exhausted is off"
            }
            Contradiction::NeverReclaimed => {
                "abandoned is set with neither on_borrow nor on_maintenance"
            }
            Contradiction::JournalTooSmall => {
                "the journal has too little room to lend max_total objects"
            }
        })
    }
}

impl error::Error for Contradiction {}

/// Why settings are invalid. A key is named as in a settings file, one of the table `abandoned` as `abandoned.<key>`.
#[derive(Clone, Debug, PartialEq, Eq)]
#[non_exhaustive]
pub enum SettingsError {
    /// The text has more than 1,048,576 bytes.
    TooLong,
    /// The text is not TOML. The lines before this one are TOML; lines count from 1. If the text has more than 1,000 lines or 65,536 bytes,
    /// the error may be further down.
    NotToml(u64),
    /// No setting has this key.
    UnknownKey(String),
    /// The value of this key has another type than the setting.
    WrongType(String),
    /// The number of this key is out of its range.
    OutOfRange(String),
    /// The builder had settings before the text, which would replace them: call [`Builder::settings`](crate::Builder::settings) first.
    NotFirst,
    /// An allocation failed while they were read.
    OutOfMemory,
}

impl From<SettingsError> for OpenError {
    fn from(error: SettingsError) -> OpenError {
        match error {
            SettingsError::OutOfMemory => OpenError::OutOfMemory,
            error => OpenError::Settings(error),
        }
    }
}

impl From<SettingsError> for ReconfigureError {
    fn from(error: SettingsError) -> ReconfigureError {
        match error {
            SettingsError::OutOfMemory => ReconfigureError::OutOfMemory,
            error => ReconfigureError::Settings(error),
        }
    }
}

impl From<CoreFault> for ReconfigureError {
    fn from(fault: CoreFault) -> ReconfigureError {
        match fault {
            CoreFault::JournalFull => ReconfigureError::NoRoom,
            CoreFault::OutOfMemory => ReconfigureError::OutOfMemory,
        }
    }
}

/// Writes what happened. The sink's error is the source.
impl fmt::Display for ReconfigureError {
    fn fmt(&self, f: &mut fmt::Formatter<'_>) -> fmt::Result {
        match self {
            ReconfigureError::Settings(error) => write!(f, "settings: {error}"),
            ReconfigureError::Contradiction(contradiction) => {
                write!(f, "settings: {contradiction}")
            }
            ReconfigureError::NoRoom => {
                f.write_str("the new journal has too little room for what is in progress")
            }
            ReconfigureError::OutOfMemory => f.write_str("out of memory"),
            ReconfigureError::Sink(_) => {
                f.write_str("a segment of the journal could not be stored")
            }
            ReconfigureError::Unwritten => {
                f.write_str("a segment of the journal that was cut off is not written yet")
            }
            ReconfigureError::FromWriter => {
                f.write_str("the settings are changed while a segment is written")
            }
        }
    }
}

impl error::Error for ReconfigureError {
    fn source(&self) -> Option<&(dyn error::Error + 'static)> {
        match self {
            ReconfigureError::Sink(error) => Some(error),
            _ => None,
        }
    }
}

/// Writes the whole cause: the error has no source.
impl fmt::Display for OpenError {
    fn fmt(&self, f: &mut fmt::Formatter<'_>) -> fmt::Result {
        match self {
            OpenError::Settings(error) => write!(f, "settings: {error}"),
            OpenError::OutOfRange(method) => write!(f, "settings: {method} is out of its range"),
            OpenError::Contradiction(contradiction) => write!(f, "settings: {contradiction}"),
            OpenError::OutOfMemory => f.write_str("out of memory"),
            OpenError::Thread(kind) => write!(f, "a thread of the pool: {kind}"),
        }
    }
}

impl error::Error for OpenError {}

impl fmt::Display for SettingsError {
    fn fmt(&self, f: &mut fmt::Formatter<'_>) -> fmt::Result {
        match self {
            SettingsError::TooLong => f.write_str("too long"),
            SettingsError::NotToml(line) => write!(f, "not TOML at line {line}"),
            SettingsError::UnknownKey(key) => write!(f, "unknown key {}", Escaped(key)),
            SettingsError::WrongType(key) => write!(f, "wrong type {}", Escaped(key)),
            SettingsError::OutOfRange(key) => write!(f, "out of range {}", Escaped(key)),
            SettingsError::NotFirst => {
                f.write_str("a text of settings comes after settings of the builder")
            }
            SettingsError::OutOfMemory => f.write_str("out of memory"),
        }
    }
}

impl error::Error for SettingsError {}
