//! The ledger beside a lead and a standby: what shared changes and lists alone tell of the dirty
//! records and the byte count.

use std::collections::BTreeMap;

const STOP: u64 = 1 << 40;

#[derive(Default)]
pub struct Ledger {
    pub records: BTreeMap<u64, u64>,
    pub count: u64,
}

impl Ledger {
    /// An insert, a changed release or a resize.
    pub fn change(&mut self, address: u64, size: u64) {
        if self.records.insert(address, size).is_none() {
            self.count = STOP.min(self.count + size);
        }
    }

    pub fn discard(&mut self, address: u64) {
        self.records.remove(&address);
    }

    pub fn list(&mut self, addresses: &[u64]) {
        for address in addresses {
            self.records.remove(address);
        }
        self.count = 0;
    }
}
