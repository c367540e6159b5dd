//! A request as a value.

use crate::{raw, Settings};

/// The numbers of the kinds.
pub(crate) mod kind {
    pub(crate) const INSERT: u64 = 1;
    pub(crate) const PROTECT_FOR_READING: u64 = 2;
    pub(crate) const PROTECT_FOR_WRITING: u64 = 3;
    pub(crate) const RELEASE_UNCHANGED: u64 = 4;
    pub(crate) const RELEASE_CHANGED: u64 = 5;
    pub(crate) const PIN: u64 = 6;
    pub(crate) const UNPIN: u64 = 7;
    pub(crate) const RESIZE: u64 = 8;
    pub(crate) const DISCARD: u64 = 9;
    pub(crate) const FLUSH: u64 = 10;
    pub(crate) const SYNC: u64 = 11;
    pub(crate) const TAKE: u64 = 12;
    pub(crate) const CONFIGURE: u64 = 13;
}

/// A request. Addresses are any number but all ones; sizes are 1 to 134,217,728 bytes.
#[derive(Clone, Copy, Debug, PartialEq)]
pub enum Request<'a> {
    /// A new record: room is made, and its entry comes, dirty.
    Insert { address: u64, size: u64 },
    /// A hold for reading, joining other readers. On a miss, room is made for the size and the
    /// record is loaded.
    ProtectForReading { address: u64, size: u64 },
    /// A hold for writing, which nobody shares. On a miss as for reading.
    ProtectForWriting { address: u64, size: u64 },
    /// One hold goes.
    ReleaseUnchanged { address: u64 },
    /// The writer's hold goes; the record was changed and has this size now.
    ReleaseChanged { address: u64, size: u64 },
    /// A held entry is pinned: it stays until it is unpinned.
    Pin { address: u64 },
    /// The pin goes.
    Unpin { address: u64 },
    /// An entry that is pinned or held for writing was changed and has this size now.
    Resize { address: u64, size: u64 },
    /// The record is gone: its entry goes without an order.
    Discard { address: u64 },
    /// Every dirty entry is written, by rising address. For alone and lead; nothing may be held. It uses
    /// up a lead's number.
    Flush,
    /// Entries are written until enough is clean. For the lead, whose number it uses up.
    Sync,
    /// The addresses that the lead wrote at its flush or sync become clean, if the bytes are a right
    /// message that has the next number, which it uses up. For the standby.
    Take { message: &'a [u8] },
    /// Other settings.
    Configure { settings: Settings },
}

impl Request<'_> {
    /// The address that the request names, or 0.
    pub(crate) fn address(&self) -> u64 {
        match *self {
            Request::Insert { address, .. }
            | Request::ProtectForReading { address, .. }
            | Request::ProtectForWriting { address, .. }
            | Request::ReleaseUnchanged { address }
            | Request::ReleaseChanged { address, .. }
            | Request::Pin { address }
            | Request::Unpin { address }
            | Request::Resize { address, .. }
            | Request::Discard { address } => address,
            Request::Flush | Request::Sync | Request::Take { .. } | Request::Configure { .. } => 0,
        }
    }

    /// The size that the request names, or 0.
    pub(crate) fn size(&self) -> u64 {
        match *self {
            Request::Insert { size, .. }
            | Request::ProtectForReading { size, .. }
            | Request::ProtectForWriting { size, .. }
            | Request::ReleaseChanged { size, .. }
            | Request::Resize { size, .. } => size,
            _ => 0,
        }
    }

    /// The message that the request takes, or none.
    pub(crate) fn message(&self) -> &[u8] {
        match self {
            Request::Take { message } => message,
            _ => &[],
        }
    }

    pub(crate) fn to_raw(self) -> raw::Request {
        let kind = match self {
            Request::Insert { .. } => kind::INSERT,
            Request::ProtectForReading { .. } => kind::PROTECT_FOR_READING,
            Request::ProtectForWriting { .. } => kind::PROTECT_FOR_WRITING,
            Request::ReleaseUnchanged { .. } => kind::RELEASE_UNCHANGED,
            Request::ReleaseChanged { .. } => kind::RELEASE_CHANGED,
            Request::Pin { .. } => kind::PIN,
            Request::Unpin { .. } => kind::UNPIN,
            Request::Resize { .. } => kind::RESIZE,
            Request::Discard { .. } => kind::DISCARD,
            Request::Flush => kind::FLUSH,
            Request::Sync => kind::SYNC,
            Request::Take { .. } => kind::TAKE,
            Request::Configure { .. } => kind::CONFIGURE,
        };
        let settings = match self {
            Request::Configure { settings } => settings.to_raw(),
            _ => raw::Settings::default(),
        };
        raw::Request { kind, address: self.address(), size: self.size(), settings }
    }
}
