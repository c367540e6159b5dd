//! Why a host did not do what was asked.

use crate::{Order, Refusal};
use core::{error::Error, fmt};

/// A call of the store.
#[derive(Clone, Copy, Debug, PartialEq, Eq)]
pub enum Call {
    /// The size of the record at the address was asked.
    Size { address: u64 },
    /// An order was carried out: a write or a load.
    Order(Order),
    /// What was written was to become durable.
    Sync,
}

impl fmt::Display for Call {
    fn fmt(&self, f: &mut fmt::Formatter) -> fmt::Result {
        match self {
            Call::Size { address } => write!(f, "size {address}"),
            Call::Order(order) => order.fmt(f),
            Call::Sync => write!(f, "sync"),
        }
    }
}

/// Why a host did not do a request. Its cache and its records are as they were before it.
#[derive(Clone, Copy, Debug, PartialEq, Eq)]
pub enum HostError<E> {
    /// The cache refused.
    Refused(Refusal),
    /// The store failed. The same request may be tried again.
    Store { call: Call, error: E },
}

impl<E> HostError<E> {
    /// The cache's refusal, if that is why.
    pub fn refusal(&self) -> Option<Refusal> {
        match self {
            HostError::Refused(refusal) => Some(*refusal),
            HostError::Store { .. } => None,
        }
    }
}

impl<E> From<Refusal> for HostError<E> {
    fn from(refusal: Refusal) -> HostError<E> {
        HostError::Refused(refusal)
    }
}

impl<E: fmt::Display> fmt::Display for HostError<E> {
    fn fmt(&self, f: &mut fmt::Formatter) -> fmt::Result {
        match self {
            HostError::Refused(refusal) => refusal.fmt(f),
            HostError::Store { call, error } => write!(f, "the store failed at {call}: {error}"),
        }
    }
}

impl<E: fmt::Debug + fmt::Display> Error for HostError<E> {}
