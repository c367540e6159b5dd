//! A cache, the records that it has, and the store that they come from.

mod bring_in;
mod error;
mod guard;
mod memory;
mod store;

pub use bring_in::NotBroughtIn;
pub use error::{Call, HostError};
pub use guard::{NotChanged, ReadGuard, WriteGuard};
pub use store::Store;

use crate::{Access, Builder, Cache, Change, Message, Mode, Order, Refusal, Report, Request, Settings};
use core::fmt;
use guard::Releases;
use memory::{Brought, Memory};
use std::{sync::Arc, vec::Vec};

/// A host: a cache, the records that it has, and the store that they come from. It carries out the
/// orders of each request.
///
/// ```
/// use speldervacht::{Cache, Host, HostError, Mode, Settings, Store};
/// use std::collections::HashMap;
///
/// #[derive(Default)]
/// struct Records(HashMap<u64, Vec<u8>>);
///
/// impl Store for Records {
///     type Error = String;
///
///     fn size(&mut self, address: u64) -> Result<u64, String> {
///         let record = self.0.get(&address).ok_or(format!("there is no record {address}"))?;
///         Ok(record.len() as u64)
///     }
///
///     fn read(&mut self, address: u64, bytes: &mut [u8]) -> Result<(), String> {
///         bytes.copy_from_slice(&self.0[&address]);
///         Ok(())
///     }
///
///     fn write(&mut self, address: u64, bytes: &[u8]) -> Result<(), String> {
///         self.0.insert(address, bytes.to_vec());
///         Ok(())
///     }
///
///     fn sync(&mut self) -> Result<(), String> {
///         Ok(())
///     }
/// }
///
/// let small = Cache::builder().settings(Settings::fixed(Mode::Alone, 4_096));
/// let mut host = Host::open(&small, Records::default())?;
/// host.create(100, vec![1; 3_000])?;
/// host.change(100, vec![2; 2_000])?;
///
/// // Two guards at a time, and other requests meanwhile.
/// let (first, second) = (host.read(100)?, host.read(100)?);
/// host.create(200, vec![3; 1_000])?;
/// assert_eq!((first[0], second.len()), (2, 2_000));
/// drop((first, second));
///
/// // Once all is flushed, the store has it.
/// host.flush()?;
/// assert_eq!(host.store().0[&100], vec![2; 2_000]);
/// assert_eq!(host.read(300).unwrap_err().to_string(), "the store failed at size 300: there is no record 300");
/// # Ok::<(), HostError<String>>(())
/// ```
///
/// # A lead and its standby
///
/// Each shared change is a [`Change`], which is asked of both and then done at both. The lead writes at
/// a flush or sync, and syncs its store before the message is made; the standby takes the message, and never
/// writes. Its records are in its memory or in the store that it reads.
///
/// ```
/// # use speldervacht::{Cache, Change, Host, HostError, Mode, Settings, Store};
/// # struct Records;
/// # impl Store for Records {
/// #     type Error = String;
/// #     fn size(&mut self, _: u64) -> Result<u64, String> { Err("empty".into()) }
/// #     fn read(&mut self, _: u64, _: &mut [u8]) -> Result<(), String> { Err("empty".into()) }
/// #     fn write(&mut self, _: u64, _: &[u8]) -> Result<(), String> { Ok(()) }
/// #     fn sync(&mut self) -> Result<(), String> { Ok(()) }
/// # }
/// # let (world, same_world) = (Records, Records);
/// let small = Cache::builder().rows(8).settings(Settings::fixed(Mode::Lead, 4_096));
/// let mut lead = Host::open(&small.mode(Mode::Lead), world)?;
/// let mut standby = Host::open(&small.mode(Mode::Standby), same_world)?;
///
/// let both = |lead: &mut Host<Records>, standby: &mut Host<Records>, change: Change| {
///     lead.ask(&change.request())?;
///     standby.ask(&change.request())?;
///     lead.apply(&change)?;
///     standby.apply(&change)
/// };
/// both(&mut lead, &mut standby, Change::Insert { address: 100, bytes: [1, 2, 3].into() })?;
///
/// // A record is changed while both hold it for writing. The holds go with the guards.
/// let holds = (lead.write(100)?, standby.write(100)?);
/// both(&mut lead, &mut standby, Change::Resize { address: 100, bytes: [4, 5].into() })?;
/// drop(holds);
///
/// // If the lead is lost now, the standby has what was not written.
/// assert_eq!(standby.dirty().next().map(|(address, bytes)| (address, bytes[..].to_vec())), Some((100, vec![4, 5])));
///
/// // A lead's flush has a message, whose bytes are sent.
/// let message = lead.flush()?.expect("a lead sends");
/// standby.take(message.as_bytes())?;
/// assert_eq!(standby.dirty().count(), 0);
/// # Ok::<(), HostError<String>>(())
/// ```
///
/// # When the store fails
///
/// A request is done on a copy of the table. The store is called in the order of the orders, and then
/// synced if need be; when all of that went well, the copy becomes the table, and records are dropped
/// from memory. If a call fails, table and records are as before the request, and the error names the
/// call: the same request may be tried again. A record leaves memory only if the store has it and was
/// synced since.
///
/// The copy takes 64 bytes for each row, and about a third of the time that judging the table takes: 6
/// microseconds at 4,096 rows. It is made only where the store may be called: alone at every request
/// that can give orders; at a lead and a standby at a miss, a flush and a sync; in any mode where many
/// records are brought in. What a request evicts stays in memory until all its orders are carried out.
pub struct Host<S> {
    cache: Cache,
    memory: Memory<S>,
    /// What dropped guards held.
    releases: Releases,
    /// Words for a copy of the table.
    copy: Vec<u64>,
}

impl<S: Store> Host<S> {
    /// A host with an empty cache.
    ///
    /// # Errors
    ///
    /// Those of [`Builder::open`].
    pub fn open(builder: &Builder, store: S) -> Result<Host<S>, Refusal> {
        Ok(Host { cache: builder.open()?, memory: Memory::new(store), releases: Releases::default(), copy: Vec::new() })
    }

    // ---- records

    /// A new record, which is dirty.
    ///
    /// # Errors
    ///
    /// Those of [`Cache::insert`], and of the store if the host is alone.
    pub fn create(&mut self, address: u64, bytes: impl Into<Arc<[u8]>>) -> Result<(), HostError<S::Error>> {
        self.apply(&Change::Insert { address, bytes: bytes.into() })
    }

    /// The record, held for reading until the guard is dropped.
    ///
    /// # Errors
    ///
    /// Those of [`Cache::protect_for_reading`], and of the store.
    pub fn read(&mut self, address: u64) -> Result<ReadGuard, HostError<S::Error>> {
        self.protect_for_reading(address)?;
        Ok(ReadGuard::new(address, self.memory.records[&address].clone(), &self.releases))
    }

    /// The record, held for writing until the guard is dropped.
    ///
    /// # Errors
    ///
    /// Those of [`Cache::protect_for_writing`], and of the store.
    pub fn write(&mut self, address: u64) -> Result<WriteGuard, HostError<S::Error>> {
        self.protect_for_writing(address)?;
        Ok(WriteGuard::new(address, self.memory.records[&address].clone(), &self.releases))
    }

    /// Changes a record, which nobody else holds: a protect for writing and a changed release.
    ///
    /// # Errors
    ///
    /// Those of [`Cache::protect_for_writing`] and [`Cache::release_changed`], and of the store. Then the
    /// record is as it was.
    pub fn change(&mut self, address: u64, bytes: impl Into<Arc<[u8]>>) -> Result<(), HostError<S::Error>> {
        let guard = self.write(address)?;
        Ok(guard.changed(self, bytes)?)
    }

    // ---- requests

    /// A hold for reading without a guard: it goes by [`release`](Host::release).
    ///
    /// # Errors
    ///
    /// Those of [`Cache::protect_for_reading`], and of the store.
    pub fn protect_for_reading(&mut self, address: u64) -> Result<Access, HostError<S::Error>> {
        self.protect(address, |size| Request::ProtectForReading { address, size })
    }

    /// A hold for writing without a guard: it goes by [`release`](Host::release) or
    /// [`release_changed`](Host::release_changed).
    ///
    /// # Errors
    ///
    /// Those of [`Cache::protect_for_writing`], and of the store.
    pub fn protect_for_writing(&mut self, address: u64) -> Result<Access, HostError<S::Error>> {
        self.protect(address, |size| Request::ProtectForWriting { address, size })
    }

    /// One hold goes, the record unchanged. (A guard does this when dropped.)
    ///
    /// # Errors
    ///
    /// Those of [`Cache::release`], and of the store if the host is alone.
    pub fn release(&mut self, address: u64) -> Result<(), HostError<S::Error>> {
        self.settle()?;
        self.perform(&Request::ReleaseUnchanged { address }, None).map(drop)
    }

    /// The writer's hold goes; the record is `bytes` from now on.
    ///
    /// # Errors
    ///
    /// Those of [`Cache::release_changed`], and of the store if the host is alone. Then the record is
    /// held as before, and as it was.
    pub fn release_changed(&mut self, address: u64, bytes: impl Into<Arc<[u8]>>) -> Result<(), HostError<S::Error>> {
        self.apply(&Change::ReleaseChanged { address, bytes: bytes.into() })
    }

    /// A record that is pinned or held for writing is `bytes` from now on. The store is not called.
    ///
    /// # Errors
    ///
    /// Those of [`Cache::resize`].
    pub fn resize(&mut self, address: u64, bytes: impl Into<Arc<[u8]>>) -> Result<(), HostError<S::Error>> {
        self.apply(&Change::Resize { address, bytes: bytes.into() })
    }

    /// The record is gone. The store is not told: what it has at the address is its owner's to free.
    ///
    /// # Errors
    ///
    /// Those of [`Cache::discard`].
    pub fn discard(&mut self, address: u64) -> Result<(), HostError<S::Error>> {
        self.apply(&Change::Discard { address })
    }

    /// Does a change, which the other host gets too. At a lead and a standby it does not call the
    /// store.
    ///
    /// # Errors
    ///
    /// Those of the change's request, and of the store if the host is alone.
    pub fn apply(&mut self, change: &Change) -> Result<(), HostError<S::Error>> {
        self.settle()?;
        let address = change.address();
        let clean = self.cache.get(address).is_some_and(|entry| !entry.dirty);
        self.perform(&change.request(), change.bytes().map(|bytes| Brought { address, bytes, clean }))?;
        if let Change::Discard { .. } = change {
            self.memory.forget(address);
        }
        Ok(())
    }

    /// A held record is pinned: it stays until it is unpinned.
    ///
    /// # Errors
    ///
    /// Those of [`Cache::pin`].
    pub fn pin(&mut self, address: u64) -> Result<(), HostError<S::Error>> {
        self.settle()?;
        Ok(self.cache.pin(address)?)
    }

    /// The pin goes.
    ///
    /// # Errors
    ///
    /// Those of [`Cache::unpin`].
    pub fn unpin(&mut self, address: u64) -> Result<(), HostError<S::Error>> {
        self.settle()?;
        Ok(self.cache.unpin(address)?)
    }

    /// Writes every dirty record and syncs the store. A lead has a message for the standby.
    ///
    /// # Errors
    ///
    /// Those of [`Cache::flush`], and of the store. Then all is as dirty as before, and there is no message.
    pub fn flush(&mut self) -> Result<Option<Message>, HostError<S::Error>> {
        self.settle()?;
        let number = self.cache.next_number();
        let orders = self.perform(&Request::Flush, None)?;
        Ok((self.cache.mode() == Mode::Lead).then(|| Message::of(number, orders)))
    }

    /// Writes records until enough is clean, and syncs the store. The message is for the standby.
    ///
    /// # Errors
    ///
    /// Those of [`Cache::sync`], and of the store. Then all is as dirty as before, and there is no message.
    pub fn sync(&mut self) -> Result<Message, HostError<S::Error>> {
        self.settle()?;
        let number = self.cache.next_number();
        let orders = self.perform(&Request::Sync, None)?;
        Ok(Message::of(number, orders))
    }

    /// What the lead wrote becomes clean. The bytes are those of its message.
    ///
    /// # Errors
    ///
    /// Those of [`Cache::take`].
    pub fn take(&mut self, message: &[u8]) -> Result<(), HostError<S::Error>> {
        self.settle()?;
        Ok(self.cache.take(message)?)
    }

    /// Other settings.
    ///
    /// # Errors
    ///
    /// Those of [`Cache::configure`], and of the store if the host is alone.
    pub fn configure(&mut self, settings: &Settings) -> Result<(), HostError<S::Error>> {
        self.settle()?;
        self.perform(&Request::Configure { settings: *settings }, None).map(drop)
    }

    /// Releases what dropped guards held, as every request does first.
    ///
    /// # Errors
    ///
    /// Those of the store, if the host is alone: then what was not released stays to be released.
    /// [`Refusal::NotInCache`] or [`Refusal::NotHeld`] if a guard's hold was released by a request.
    pub fn settle(&mut self) -> Result<(), HostError<S::Error>> {
        while let Some(address) = self.releases.first() {
            match self.perform(&Request::ReleaseUnchanged { address }, None) {
                Err(error @ HostError::Store { .. }) => return Err(error),
                done => {
                    self.releases.drop_first();
                    done?;
                }
            }
        }
        Ok(())
    }

    // ---- questions

    /// What a request would be answered, once dropped guards are released. It holds until the next
    /// request.
    ///
    /// A guard that is dropped between the asking and the doing is released first. That takes no yes
    /// back, but for a change of the record that it held.
    ///
    /// # Errors
    ///
    /// The refusal that the request would get; those of [`settle`](Host::settle).
    pub fn ask(&mut self, request: &Request) -> Result<(), HostError<S::Error>> {
        self.settle()?;
        Ok(self.cache.ask(request)?)
    }

    /// The figures of the cache.
    ///
    /// # Errors
    ///
    /// [`Refusal::BadTable`] if the words were damaged in memory.
    pub fn report(&self) -> Result<Report, Refusal> {
        self.cache.report()
    }

    /// The cache, for reading.
    pub fn cache(&self) -> &Cache {
        &self.cache
    }

    /// The record, if it is in memory.
    pub fn record(&self, address: u64) -> Option<&Arc<[u8]>> {
        self.memory.records.get(&address)
    }

    /// The records in memory, by rising address.
    pub fn records(&self) -> impl Iterator<Item = (u64, &Arc<[u8]>)> + '_ {
        self.memory.records.iter().map(|(address, record)| (*address, record))
    }

    /// The dirty records by rising address: what a standby brings in if its lead is lost.
    pub fn dirty(&self) -> impl Iterator<Item = (u64, &Arc<[u8]>)> + '_ {
        self.cache.dirty().filter_map(|entry| Some((entry.address, self.record(entry.address)?)))
    }

    /// The store.
    pub fn store(&self) -> &S {
        &self.memory.store
    }

    /// The store, for what the host does not do there.
    pub fn store_mut(&mut self) -> &mut S {
        &mut self.memory.store
    }

    /// The store alone. What was not flushed is lost.
    pub fn into_store(self) -> S {
        self.memory.store
    }

    fn releases(&self) -> &Releases {
        &self.releases
    }

    // ---- carrying out

    fn protect(
        &mut self,
        address: u64,
        request: impl Fn(u64) -> Request<'static>,
    ) -> Result<Access, HostError<S::Error>> {
        self.settle()?;
        let (access, size) = match self.record(address) {
            Some(record) => (Access::Hit, record.len() as u64),
            None => (Access::Miss, self.memory.size(address)?),
        };
        self.perform(&request(size), None)?;
        Ok(access)
    }

    /// Does a request, which may bring a record, and carries out its orders.
    fn perform(&mut self, request: &Request, brought: Option<Brought>) -> Result<Vec<Order>, HostError<S::Error>> {
        let copied = self.may_call_store(request);
        let orders = if copied { self.cache.step_on_copy(&mut self.copy, request) } else { self.cache.step(request) };
        let orders: Vec<Order> = orders?.collect();
        let durable = matches!(request, Request::Flush | Request::Sync);
        let work = self.memory.call_store(&orders, durable, brought)?;
        if copied {
            self.cache.exchange(&mut self.copy);
        }
        self.memory.keep(work, brought);
        Ok(orders)
    }

    /// Whether the orders of a request may be writes or loads. At a lead and a standby making room
    /// only evicts.
    fn may_call_store(&self, request: &Request) -> bool {
        let alone = self.cache.mode() == Mode::Alone;
        match request {
            Request::Flush | Request::Sync => true,
            Request::ProtectForReading { address, .. } | Request::ProtectForWriting { address, .. } => {
                alone || self.record(*address).is_none()
            }
            Request::Insert { .. }
            | Request::ReleaseUnchanged { .. }
            | Request::ReleaseChanged { .. }
            | Request::Configure { .. } => alone,
            Request::Pin { .. }
            | Request::Unpin { .. }
            | Request::Resize { .. }
            | Request::Discard { .. }
            | Request::Take { .. } => false,
        }
    }
}

impl<S> fmt::Debug for Host<S> {
    fn fmt(&self, f: &mut fmt::Formatter) -> fmt::Result {
        f.debug_struct("Host").field("cache", &self.cache).finish_non_exhaustive()
    }
}
