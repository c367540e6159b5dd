//! A disk that fails at a chosen call, and what has to hold of a host then.

use crate::random::Random;
use speldervacht::{Host, HostError, Store};
use std::cell::{Cell, RefCell};
use std::collections::BTreeMap;
use std::rc::Rc;

/// A record of up to so many bytes.
pub fn some_bytes(random: &mut Random, most: usize) -> Vec<u8> {
    let first = random.below(256) as u8;
    (0..1 + random.below(most)).map(|at| first.wrapping_add(at as u8)).collect()
}

/// A disk: what was written is there for its writers, and durable after a sync.
#[derive(Default)]
pub struct Disk {
    pub durable: BTreeMap<u64, Vec<u8>>,
    pending: BTreeMap<u64, Vec<u8>>,
}

impl Disk {
    /// What was not durable is lost.
    pub fn crash(&mut self) {
        self.pending.clear();
    }
}

/// A store on a disk that others may share.
#[derive(Clone, Default)]
pub struct Handle {
    pub disk: Rc<RefCell<Disk>>,
    /// Whether this one only reads, and only what is durable.
    pub reader: bool,
    /// How many more calls go well, if one is to fail.
    pub good_calls: Rc<Cell<Option<usize>>>,
    /// All calls in turn.
    pub calls: Rc<RefCell<Vec<String>>>,
    /// Calls that failed, by their first word.
    pub failures: Rc<RefCell<BTreeMap<String, usize>>>,
}

impl Handle {
    /// Whether this call is the one that fails. The error is the call's text.
    fn fails(&self, call: &str) -> bool {
        self.calls.borrow_mut().push(call.to_string());
        let left = self.good_calls.get();
        self.good_calls.set(left.and_then(|left| left.checked_sub(1)));
        if left == Some(0) {
            let kind = call.split(' ').next().unwrap().to_string();
            *self.failures.borrow_mut().entry(kind).or_default() += 1;
        }
        left == Some(0)
    }
}

impl Store for Handle {
    type Error = String;

    fn size(&mut self, address: u64) -> Result<u64, String> {
        let call = format!("size {address}");
        if self.fails(&call) {
            return Err(call);
        }
        let disk = self.disk.borrow();
        let found = disk.pending.get(&address).filter(|_| !self.reader).or_else(|| disk.durable.get(&address));
        Ok(found.unwrap_or_else(|| panic!("record {address} is not in the store")).len() as u64)
    }

    fn read(&mut self, address: u64, bytes: &mut [u8]) -> Result<(), String> {
        let call = format!("load {address} {}", bytes.len());
        if self.fails(&call) {
            bytes.fill(0xee);
            return Err(call);
        }
        let disk = self.disk.borrow();
        let found = disk.pending.get(&address).filter(|_| !self.reader).or_else(|| disk.durable.get(&address));
        bytes.copy_from_slice(found.unwrap());
        Ok(())
    }

    /// A write that fails leaves half of the record.
    fn write(&mut self, address: u64, bytes: &[u8]) -> Result<(), String> {
        assert!(!self.reader, "a standby writes record {address}");
        let call = format!("write {address} {}", bytes.len());
        let fails = self.fails(&call);
        let kept = if fails { &bytes[..bytes.len() / 2] } else { bytes };
        self.disk.borrow_mut().pending.insert(address, kept.to_vec());
        if fails {
            Err(call)
        } else {
            Ok(())
        }
    }

    /// A sync that fails loses what was to become durable.
    fn sync(&mut self) -> Result<(), String> {
        assert!(!self.reader, "a standby syncs");
        let written = std::mem::take(&mut self.disk.borrow_mut().pending);
        if self.fails("sync") {
            return Err("sync".to_string());
        }
        self.disk.borrow_mut().durable.extend(written);
        Ok(())
    }
}

/// The words and the records of a host.
type State = (Vec<u64>, Vec<(u64, Vec<u8>)>);

pub fn state(host: &Host<Handle>) -> State {
    let records = host.records().map(|(address, record)| (address, record.to_vec())).collect();
    (host.cache().as_words().to_vec(), records)
}

/// Does something at a host, with each of its calls to the store failing once: the first, then the
/// second, until none is left. A failure leaves the host as it was and names the call.
pub fn with_each_failure<T>(
    host: &mut Host<Handle>,
    mut act: impl FnMut(&mut Host<Handle>) -> Result<T, HostError<String>>,
) -> Result<T, HostError<String>> {
    for good_calls in 0.. {
        let before = state(host);
        host.store().good_calls.set(Some(good_calls));
        let done = act(host);
        host.store().good_calls.set(None);
        match done {
            Err(HostError::Store { call, error }) => {
                assert_eq!(call.to_string(), error, "the error names the call that failed");
                assert!(state(host) == before, "{error} failed, and the host is not as it was");
            }
            answer => return answer,
        }
    }
    unreachable!()
}

/// The cache has exactly the records that are in memory, at their sizes.
pub fn books_agree(host: &Host<Handle>) {
    let entries: Vec<(u64, u64)> = host.cache().entries().map(|entry| (entry.address, entry.size)).collect();
    let records: Vec<(u64, u64)> = host.records().map(|(address, record)| (address, record.len() as u64)).collect();
    assert_eq!(entries, records);
}
