//! A shared change with its record.

use crate::Request;
use alloc::sync::Arc;

/// A change that a lead and its standby both get, with the record as it is afterwards.
///
/// [`Change::request`] is what both are asked; [`Host::apply`](crate::Host::apply) does it.
#[derive(Clone, Debug, PartialEq, Eq)]
pub enum Change {
    /// A new record.
    Insert { address: u64, bytes: Arc<[u8]> },
    /// The writer's hold goes, and the record was changed.
    ReleaseChanged { address: u64, bytes: Arc<[u8]> },
    /// A record that is pinned or held for writing was changed, and stays so.
    Resize { address: u64, bytes: Arc<[u8]> },
    /// The record is gone.
    Discard { address: u64 },
}

impl Change {
    /// The request of the change, which has the record's size in place of its bytes.
    #[must_use]
    pub fn request(&self) -> Request<'static> {
        let size = self.bytes().map_or(0, |bytes| bytes.len() as u64);
        match *self {
            Change::Insert { address, .. } => Request::Insert { address, size },
            Change::ReleaseChanged { address, .. } => Request::ReleaseChanged { address, size },
            Change::Resize { address, .. } => Request::Resize { address, size },
            Change::Discard { address } => Request::Discard { address },
        }
    }

    /// The address of the record.
    #[must_use]
    pub fn address(&self) -> u64 {
        self.request().address()
    }

    /// The record as it is after the change. A discarded one has none.
    #[must_use]
    pub fn bytes(&self) -> Option<&Arc<[u8]>> {
        match self {
            Change::Insert { bytes, .. } | Change::ReleaseChanged { bytes, .. } | Change::Resize { bytes, .. } => {
                Some(bytes)
            }
            Change::Discard { .. } => None,
        }
    }
}
