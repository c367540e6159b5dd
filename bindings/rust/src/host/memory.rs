//! The records in memory, and the store that they come from.

use super::{Call, HostError, Store};
use crate::{Order, OrderKind};
use std::{
    collections::{BTreeMap, BTreeSet},
    sync::Arc,
    vec,
    vec::Vec,
};

/// The records that a cache has, and what the store can be relied on to have of them.
pub(super) struct Memory<S> {
    pub(super) store: S,
    /// The records by address.
    pub(super) records: BTreeMap<u64, Arc<[u8]>>,
    /// Clean records that were written and not synced since.
    unsynced: BTreeSet<u64>,
    /// Clean records that the store may not have as they are: they are written again before a sync.
    doubtful: BTreeSet<u64>,
}

/// The record that a request brings: new, or changed.
#[derive(Clone, Copy)]
pub(super) struct Brought<'r> {
    pub(super) address: u64,
    pub(super) bytes: &'r Arc<[u8]>,
    /// Whether the cache has it, clean, before the request.
    pub(super) clean: bool,
}

/// What the orders of a request came to.
#[derive(Default)]
pub(super) struct Work {
    /// What was written and not synced since.
    written: BTreeSet<u64>,
    evicted: Vec<u64>,
    loaded: Option<(u64, Arc<[u8]>)>,
}

/// The answer of the store to a call.
fn called<T, E>(call: Call, answer: Result<T, E>) -> Result<T, HostError<E>> {
    answer.map_err(|error| HostError::Store { call, error })
}

impl<S: Store> Memory<S> {
    pub(super) fn new(store: S) -> Memory<S> {
        Memory { store, records: BTreeMap::new(), unsynced: BTreeSet::new(), doubtful: BTreeSet::new() }
    }

    /// The size that the store tells.
    pub(super) fn size(&mut self, address: u64) -> Result<u64, HostError<S::Error>> {
        called(Call::Size { address }, self.store.size(address))
    }

    /// Writes and loads as the orders say, and syncs if that is wanted or if what is to be evicted is
    /// not durable yet. No record changes.
    pub(super) fn call_store(
        &mut self,
        orders: &[Order],
        durable: bool,
        brought: Option<Brought>,
    ) -> Result<Work, HostError<S::Error>> {
        let mut work = Work::default();
        for order in orders {
            match order.kind {
                OrderKind::Write => {
                    self.write(order, brought)?;
                    work.written.insert(order.address);
                }
                OrderKind::Evict => work.evicted.push(order.address),
                OrderKind::Load => {
                    let mut bytes = vec![0; order.size as usize];
                    called(Call::Order(*order), self.store.read(order.address, &mut bytes))?;
                    work.loaded = Some((order.address, bytes.into()));
                }
            }
        }
        let volatile = |address: &u64| {
            work.written.contains(address) || self.unsynced.contains(address) || self.doubtful.contains(address)
        };
        if durable || work.evicted.iter().any(volatile) {
            self.make_durable(&work.written)?;
            work.written.clear();
        }
        Ok(work)
    }

    /// Writes a record, the one that was brought as it was brought. If that is clean as it is in
    /// memory, the store may not have it so from here on, unless the request is done.
    fn write(&mut self, order: &Order, brought: Option<Brought>) -> Result<(), HostError<S::Error>> {
        let bytes = match brought.filter(|brought| brought.address == order.address) {
            Some(brought) => {
                if brought.clean {
                    self.doubtful.insert(brought.address);
                }
                brought.bytes
            }
            None => &self.records[&order.address],
        };
        called(Call::Order(*order), self.store.write(order.address, bytes))
    }

    /// Writes again what is doubtful and was not written just now, and syncs the store.
    fn make_durable(&mut self, written: &BTreeSet<u64>) -> Result<(), HostError<S::Error>> {
        for address in self.doubtful.difference(written) {
            let record = &self.records[address];
            let order = Order { kind: OrderKind::Write, address: *address, size: record.len() as u64 };
            called(Call::Order(order), self.store.write(*address, record))?;
        }
        // Of what was written since the last sync nothing is relied on until this one went well.
        self.doubtful.append(&mut self.unsynced);
        called(Call::Sync, self.store.sync())?;
        self.doubtful.clear();
        Ok(())
    }

    /// The records as the request leaves them.
    pub(super) fn keep(&mut self, work: Work, brought: Option<Brought>) {
        if let Some(brought) = brought {
            self.forget(brought.address);
            self.records.insert(brought.address, brought.bytes.clone());
        }
        self.records.extend(work.loaded);
        self.unsynced.extend(work.written);
        for address in work.evicted {
            self.records.remove(&address);
        }
    }

    /// The record goes, and with it what was to be done for it.
    pub(super) fn forget(&mut self, address: u64) {
        self.records.remove(&address);
        self.unsynced.remove(&address);
        self.doubtful.remove(&address);
    }
}
