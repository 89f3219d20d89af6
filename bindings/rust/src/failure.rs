//! The failures that no call returns.

use crate::error::Error;
use std::{error, fmt, io};

/// A failure that no call returns, for [`Builder::on_error`](crate::Builder::on_error). `E` is the manager's error.
#[derive(Debug)]
#[non_exhaustive]
pub enum Failure<E> {
    /// An idle object was not activated, in a borrow or in an eviction run. It was destroyed, and the borrow or the run continued.
    Activate {
        /// The object's id.
        id: u64,
        /// The manager's error.
        error: E,
    },
    /// An object was not passivated, at its return or in an eviction run. It was destroyed.
    Passivate {
        /// The object's id.
        id: u64,
        /// The manager's error.
        error: E,
    },
    /// An object did not pass a test: while it was idle, before it was lent, or at its return. It was destroyed. A new object that does not
    /// pass one is an error of the borrow or the addition instead.
    Test {
        /// The object's id.
        id: u64,
        /// Why, if [`Manager::try_validate`](crate::Manager::try_validate) said so.
        reason: Option<E>,
    },
    /// The sink did not store a segment. [`SinkFailure`](crate::SinkFailure) says what became of it.
    Sink(
        /// The sink's error, or that there was no memory for the segment.
        io::Error,
    ),
    /// The maintenance thread of [`Builder::maintain_every`](crate::Builder::maintain_every) ended a round early.
    Maintenance(
        /// The error of [`Pool::maintain`](crate::Pool::maintain).
        Error<E>,
    ),
    /// The manager panicked in the maintenance thread, which continues with its next round.
    MaintenancePanicked,
}

impl<E> fmt::Display for Failure<E> {
    fn fmt(&self, f: &mut fmt::Formatter<'_>) -> fmt::Result {
        match self {
            Failure::Activate { id, .. } => write!(f, "idle object {id} could not be activated"),
            Failure::Passivate { id, .. } => write!(f, "object {id} could not be passivated"),
            Failure::Test { id, .. } => write!(f, "object {id} did not pass its test"),
            Failure::Sink(_) => f.write_str("a segment of the journal could not be stored"),
            Failure::Maintenance(_) => f.write_str("the maintenance of the pool ended early"),
            Failure::MaintenancePanicked => f.write_str("the maintenance of the pool panicked"),
        }
    }
}

impl<E: error::Error + 'static> error::Error for Failure<E> {
    fn source(&self) -> Option<&(dyn error::Error + 'static)> {
        match self {
            Failure::Activate { error, .. } | Failure::Passivate { error, .. } => Some(error),
            Failure::Test { reason, .. } => reason.as_ref().map(|reason| reason as _),
            Failure::Sink(error) => Some(error),
            Failure::Maintenance(error) => Some(error),
            Failure::MaintenancePanicked => None,
        }
    }
}
