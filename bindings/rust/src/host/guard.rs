//! Holds that go when they are dropped.

use super::{Host, HostError, Store};
use core::{fmt, ops::Deref};
use std::{
    collections::VecDeque,
    sync::{Arc, Mutex, MutexGuard, PoisonError},
};

/// The addresses of guards that were dropped, the first to go first. A host shares it with its guards.
#[derive(Clone, Debug, Default)]
pub(super) struct Releases(Arc<Mutex<VecDeque<u64>>>);

impl Releases {
    fn queue(&self) -> MutexGuard<'_, VecDeque<u64>> {
        self.0.lock().unwrap_or_else(PoisonError::into_inner)
    }

    /// Whether the two are one queue.
    fn is(&self, other: &Releases) -> bool {
        Arc::ptr_eq(&self.0, &other.0)
    }

    pub(super) fn push(&self, address: u64) {
        self.queue().push_back(address);
    }

    pub(super) fn first(&self) -> Option<u64> {
        self.queue().front().copied()
    }

    pub(super) fn drop_first(&self) {
        self.queue().pop_front();
    }
}

/// One hold on a record of a host, and where its release is noted.
#[derive(Debug)]
struct Hold {
    address: u64,
    bytes: Arc<[u8]>,
    releases: Option<Releases>,
}

impl Hold {
    fn new(address: u64, bytes: Arc<[u8]>, releases: &Releases) -> Hold {
        Hold { address, bytes, releases: Some(releases.clone()) }
    }

    /// The hold stays when this is gone.
    fn keep(mut self) {
        self.releases = None;
    }
}

impl Drop for Hold {
    fn drop(&mut self) {
        if let Some(releases) = &self.releases {
            releases.push(self.address);
        }
    }
}

/// A record held for reading. It reads as its bytes, and is released when dropped.
///
/// A guard borrows nothing: a host may have any number of them, and does other requests meanwhile.
/// What is held cannot be evicted, changed or discarded. The guard shares the record's bytes with the
/// host. Dropping it notes the address, under a lock that the host and its guards share. The release
/// itself may give orders, so it is done before the host's next request, or by [`Host::settle`].
#[derive(Debug)]
#[must_use = "the record is released when the guard is dropped"]
pub struct ReadGuard(Hold);

/// A record held for writing, which nobody shares: it is released unchanged when dropped.
///
/// It reads as the bytes that the record had when it was protected. In all else it is like
/// [`ReadGuard`].
#[derive(Debug)]
#[must_use = "the record is released when the guard is dropped"]
pub struct WriteGuard(Hold);

impl ReadGuard {
    pub(super) fn new(address: u64, bytes: Arc<[u8]>, releases: &Releases) -> ReadGuard {
        ReadGuard(Hold::new(address, bytes, releases))
    }

    /// The address of the record.
    #[must_use]
    pub fn address(&self) -> u64 {
        self.0.address
    }

    /// Gives the guard up and keeps the hold, which now goes by [`Host::release`] alone.
    pub fn keep(self) {
        self.0.keep();
    }
}

impl WriteGuard {
    pub(super) fn new(address: u64, bytes: Arc<[u8]>, releases: &Releases) -> WriteGuard {
        WriteGuard(Hold::new(address, bytes, releases))
    }

    /// The address of the record.
    #[must_use]
    pub fn address(&self) -> u64 {
        self.0.address
    }

    /// Gives the guard up and keeps the hold, which now goes by [`Host::release`] or
    /// [`Host::release_changed`] alone.
    pub fn keep(self) {
        self.0.keep();
    }

    /// Releases the record, which is `bytes` from now on.
    ///
    /// # Errors
    ///
    /// [`NotChanged`], with the guard and the bytes, to be tried again.
    ///
    /// # Panics
    ///
    /// If the guard is another host's.
    pub fn changed<S: Store>(
        self,
        host: &mut Host<S>,
        bytes: impl Into<Arc<[u8]>>,
    ) -> Result<(), NotChanged<S::Error>> {
        let own = self.0.releases.as_ref().is_some_and(|releases| releases.is(host.releases()));
        assert!(own, "the guard of record {} is another host's", self.address());
        let bytes = bytes.into();
        match host.release_changed(self.address(), bytes.clone()) {
            Ok(()) => {
                self.keep();
                Ok(())
            }
            Err(error) => Err(NotChanged { guard: self, bytes, error }),
        }
    }
}

impl Deref for ReadGuard {
    type Target = [u8];

    fn deref(&self) -> &[u8] {
        &self.0.bytes
    }
}

impl Deref for WriteGuard {
    type Target = [u8];

    fn deref(&self) -> &[u8] {
        &self.0.bytes
    }
}

/// A changed release that was not done: the record is still held, and as it was.
#[derive(Debug)]
pub struct NotChanged<E> {
    pub guard: WriteGuard,
    pub bytes: Arc<[u8]>,
    pub error: HostError<E>,
}

impl<E> From<NotChanged<E>> for HostError<E> {
    /// The error alone: the guard is dropped.
    fn from(not: NotChanged<E>) -> HostError<E> {
        not.error
    }
}

impl<E: fmt::Display> fmt::Display for NotChanged<E> {
    fn fmt(&self, f: &mut fmt::Formatter) -> fmt::Result {
        self.error.fmt(f)
    }
}

impl<E: fmt::Debug + fmt::Display> core::error::Error for NotChanged<E> {}
