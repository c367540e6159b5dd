//! Requests as a batch has them.

use crate::request::kind;
use crate::{layout, Request};

/// A request that a batch can do: any but take and configure, which have more to them than an address and
/// a size. They are named as the methods of [`Cache`](crate::Cache).
#[derive(Clone, Copy, Debug, PartialEq, Eq)]
#[repr(transparent)]
pub struct PlainRequest([u64; layout::REQUEST_WORDS]);

impl PlainRequest {
    /// A new record.
    #[must_use]
    pub const fn insert(address: u64, size: u64) -> PlainRequest {
        PlainRequest([kind::INSERT, address, size])
    }

    /// A hold for reading.
    #[must_use]
    pub const fn protect_for_reading(address: u64, size: u64) -> PlainRequest {
        PlainRequest([kind::PROTECT_FOR_READING, address, size])
    }

    /// A hold for writing.
    #[must_use]
    pub const fn protect_for_writing(address: u64, size: u64) -> PlainRequest {
        PlainRequest([kind::PROTECT_FOR_WRITING, address, size])
    }

    /// One hold goes, the record unchanged.
    #[must_use]
    pub const fn release(address: u64) -> PlainRequest {
        PlainRequest([kind::RELEASE_UNCHANGED, address, 0])
    }

    /// The writer's hold goes; the record was changed.
    #[must_use]
    pub const fn release_changed(address: u64, size: u64) -> PlainRequest {
        PlainRequest([kind::RELEASE_CHANGED, address, size])
    }

    /// A held entry is pinned.
    #[must_use]
    pub const fn pin(address: u64) -> PlainRequest {
        PlainRequest([kind::PIN, address, 0])
    }

    /// The pin goes.
    #[must_use]
    pub const fn unpin(address: u64) -> PlainRequest {
        PlainRequest([kind::UNPIN, address, 0])
    }

    /// An entry that is pinned or held for writing was changed.
    #[must_use]
    pub const fn resize(address: u64, size: u64) -> PlainRequest {
        PlainRequest([kind::RESIZE, address, size])
    }

    /// The record is gone.
    #[must_use]
    pub const fn discard(address: u64) -> PlainRequest {
        PlainRequest([kind::DISCARD, address, 0])
    }

    /// Every dirty entry is written.
    #[must_use]
    pub const fn flush() -> PlainRequest {
        PlainRequest([kind::FLUSH, 0, 0])
    }

    /// Entries are written until enough is clean.
    #[must_use]
    pub const fn sync() -> PlainRequest {
        PlainRequest([kind::SYNC, 0, 0])
    }
}

impl From<PlainRequest> for Request<'static> {
    fn from(request: PlainRequest) -> Request<'static> {
        let [number, address, size] = request.0;
        match number {
            kind::INSERT => Request::Insert { address, size },
            kind::PROTECT_FOR_READING => Request::ProtectForReading { address, size },
            kind::PROTECT_FOR_WRITING => Request::ProtectForWriting { address, size },
            kind::RELEASE_UNCHANGED => Request::ReleaseUnchanged { address },
            kind::RELEASE_CHANGED => Request::ReleaseChanged { address, size },
            kind::PIN => Request::Pin { address },
            kind::UNPIN => Request::Unpin { address },
            kind::RESIZE => Request::Resize { address, size },
            kind::DISCARD => Request::Discard { address },
            kind::FLUSH => Request::Flush,
            kind::SYNC => Request::Sync,
            other => unreachable!("a plain request of kind {other}"),
        }
    }
}

impl Request<'_> {
    /// The request as a batch takes it. Take and configure are not for a batch.
    #[must_use]
    pub fn plain(&self) -> Option<PlainRequest> {
        match self {
            Request::Take { .. } | Request::Configure { .. } => None,
            plain => {
                let raw = plain.to_raw();
                Some(PlainRequest([raw.kind, raw.address, raw.size]))
            }
        }
    }
}
