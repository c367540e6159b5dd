//! A lead and its standby over stores that fail: random play in which each call of each request fails
//! once. After every step each record is durable, or dirty in the memory of both.

use crate::disk::{books_agree, some_bytes, with_each_failure, Disk, Handle};
use crate::random::Random;
use speldervacht::{
    Builder, Cache, Change, Decrease, Flash, Host, HostError, Increase, Mode, ReadGuard, Refusal, Settings,
};
use std::cell::RefCell;
use std::collections::BTreeMap;
use std::rc::Rc;
use std::sync::Arc;

const ADDRESSES: usize = 24;
const LARGEST: usize = 400;
const MOST_READERS: usize = 3;

fn builder() -> Builder {
    Cache::builder().rows(10).threshold(1_000).settings(Settings {
        initial_size: Some(2_048),
        maximum_size: 4_096,
        minimum_size: 1_024,
        epoch_length: 100,
        increase: Increase::Threshold { lower: 0.3, multiplier: 1.5 },
        increase_cap: None,
        flash: Flash::On { multiple: 1.0, threshold: 0.2 },
        decrease: Decrease::AgeOutWithThreshold { upper: 0.4, epochs: 1, reserve: 0.1 },
        ..Settings::defaults(Mode::Lead)
    })
}

/// One of the two, and the guards that it gave.
struct Side {
    host: Host<Handle>,
    readers: Vec<ReadGuard>,
}

impl Side {
    fn new(mode: Mode, store: Handle) -> Side {
        Side { host: Host::open(&builder().mode(mode), store).unwrap(), readers: Vec::new() }
    }

    /// Applies a change that was asked. The store is not called.
    fn apply(&mut self, change: &Change) {
        self.host.store().good_calls.set(Some(0));
        self.host.apply(change).unwrap();
        assert_eq!(self.host.store().good_calls.get(), Some(0), "{change:?} calls the store");
        self.host.store().good_calls.set(None);
    }
}

#[derive(Default)]
struct Tally {
    /// Inserts, changed releases, resizes and discards.
    changes: [usize; 4],
    refused: usize,
    messages: usize,
    rescued: usize,
}

struct Pair {
    random: Random,
    /// What every record should be.
    truth: BTreeMap<u64, Vec<u8>>,
    disk: Rc<RefCell<Disk>>,
    lead: Side,
    standby: Side,
    tally: Tally,
}

impl Pair {
    /// Fresh hosts. The standby reads what is durable, and never writes.
    fn new(seed: u64) -> Pair {
        let lead = Handle::default();
        let standby = Handle { reader: true, disk: lead.disk.clone(), ..Handle::default() };
        Pair {
            random: Random::new(seed),
            truth: BTreeMap::new(),
            disk: lead.disk.clone(),
            lead: Side::new(Mode::Lead, lead),
            standby: Side::new(Mode::Standby, standby),
            tally: Tally::default(),
        }
    }

    fn some_record(&mut self) -> Option<u64> {
        let many = self.truth.len();
        (many > 0).then(|| self.random.below(many)).and_then(|n| self.truth.keys().nth(n).copied())
    }

    fn bytes(&mut self) -> Arc<[u8]> {
        some_bytes(&mut self.random, LARGEST).into()
    }

    /// Does a change at both if both say yes.
    fn both(&mut self, change: &Change) -> bool {
        let request = change.request();
        let told = [self.lead.host.ask(&request), self.standby.host.ask(&request)];
        if let Some(error) = told.iter().find_map(|told| told.as_ref().err()) {
            self.tally.refused += 1;
            if error.refusal() == Some(Refusal::NoRow) {
                self.send_message();
            }
            return false;
        }
        self.lead.apply(change);
        self.standby.apply(change);
        match change.bytes() {
            Some(bytes) => drop(self.truth.insert(change.address(), bytes.to_vec())),
            None => drop(self.truth.remove(&change.address())),
        }
        let kind = match change {
            Change::Insert { .. } => 0,
            Change::ReleaseChanged { .. } => 1,
            Change::Resize { .. } => 2,
            Change::Discard { .. } => 3,
        };
        self.tally.changes[kind] += 1;
        true
    }

    fn create(&mut self) {
        let (address, bytes) = (self.random.below(ADDRESSES) as u64, self.bytes());
        if !self.truth.contains_key(&address) {
            self.both(&Change::Insert { address, bytes });
        }
    }

    /// Both hold the record for writing, and it is changed while they do, or as they release it.
    fn change(&mut self) -> Result<(), HostError<String>> {
        let Some(address) = self.some_record() else { return Ok(()) };
        let bytes = self.bytes();
        let lead = with_each_failure(&mut self.lead.host, |host| host.write(address))?;
        let standby = with_each_failure(&mut self.standby.host, |host| host.write(address))?;
        assert_eq!((&lead[..], &standby[..]), (&self.truth[&address][..], &self.truth[&address][..]));
        if self.random.below(2) == 0 {
            self.both(&Change::Resize { address, bytes });
        } else if self.both(&Change::ReleaseChanged { address, bytes }) {
            lead.keep();
            standby.keep();
        }
        Ok(())
    }

    fn discard(&mut self) {
        if let Some(address) = self.some_record() {
            self.both(&Change::Discard { address });
        }
    }

    /// One of the two reads a record for a while, and may pin it.
    fn read(&mut self) -> Result<(), HostError<String>> {
        let Some(address) = self.some_record() else { return Ok(()) };
        let (pin, long) = (self.random.below(10) == 0, self.random.below(3) == 0);
        let side = if self.random.below(2) == 0 { &mut self.lead } else { &mut self.standby };
        let guard = with_each_failure(&mut side.host, |host| host.read(address))?;
        assert_eq!(guard[..], self.truth[&address][..], "record {address} is read");
        if pin {
            side.host.pin(address)?;
        }
        if long && side.readers.len() < MOST_READERS {
            side.readers.push(guard);
        }
        Ok(())
    }

    /// A reader and a pin of each go.
    fn let_go(&mut self) {
        for side in [&mut self.lead, &mut self.standby] {
            side.readers.pop();
            let pinned = side.host.cache().entries().find(|entry| entry.pinned);
            if let Some(entry) = pinned {
                side.host.unpin(entry.address).unwrap();
            }
        }
    }

    /// The lead flushes, or syncs if something is held, and the standby takes the message: whole, and once.
    fn send_message(&mut self) {
        self.lead.host.settle().unwrap();
        let held = self.lead.host.cache().entries().any(|entry| entry.hold.is_some());
        let message = with_each_failure(&mut self.lead.host, |host| {
            if held {
                host.sync()
            } else {
                host.flush().map(|message| message.expect("a lead sends"))
            }
        });
        let bytes = message.unwrap().into_bytes();
        let mut take = |bytes: &[u8]| self.standby.host.take(bytes).map_err(|error| error.refusal());
        assert_eq!(take(&bytes[..bytes.len() / 2]), Err(Some(Refusal::CutMessage)));
        assert_eq!(take(&bytes), Ok(()));
        let next = self.lead.host.cache().next_number();
        assert_eq!(take(&bytes), Err(Some(Refusal::WrongNumber { next })));
        self.tally.messages += 1;
    }

    /// The lead is lost, and with it what its disk had not made durable. The standby's dirty records
    /// are brought into fresh hosts.
    fn lose_lead(&mut self) {
        let dirty: Vec<(u64, Arc<[u8]>)> =
            self.standby.host.dirty().map(|(address, bytes)| (address, bytes.clone())).collect();
        self.disk.borrow_mut().crash();
        let (lead, standby) = (self.lead.host.store().clone(), self.standby.host.store().clone());
        self.lead = Side::new(Mode::Lead, lead);
        self.standby = Side::new(Mode::Standby, standby);
        self.tally.rescued += dirty.len();
        self.lead.host.bring_in(&dirty).unwrap();
        self.standby.host.bring_in(&dirty).unwrap();
    }

    /// A step that a cache refuses is left.
    fn step(&mut self) {
        let refused = match self.random.below(200) {
            0..=59 => self.change().err(),
            60..=139 => self.read().err(),
            other => {
                match other {
                    140..=169 => self.create(),
                    170..=184 => self.let_go(),
                    185..=191 => self.discard(),
                    192..=198 => self.send_message(),
                    _ => self.lose_lead(),
                }
                None
            }
        };
        if let Some(error) = refused {
            match error.refusal() {
                Some(Refusal::NoRow) => self.send_message(),
                refusal => assert!(refusal.is_some(), "{error}"),
            }
        }
        for side in [&mut self.lead, &mut self.standby] {
            side.host.settle().unwrap();
        }
        self.check();
    }

    fn check(&self) {
        let (lead, standby) = (&self.lead.host, &self.standby.host);
        books_agree(lead);
        books_agree(standby);
        assert!(lead.dirty().eq(standby.dirty()), "both have the same dirty records");
        let disk = self.disk.borrow();
        for (address, bytes) in &self.truth {
            if lead.cache().get(*address).is_none_or(|entry| !entry.dirty) {
                assert_eq!(disk.durable.get(address), Some(bytes), "record {address} on disk");
            }
            for host in [lead, standby] {
                let record = host.record(*address);
                assert!(record.is_none_or(|record| record[..] == bytes[..]), "record {address} in memory");
            }
        }
    }
}

#[test]
fn lead_and_standby_stay_in_step() {
    let mut total = Tally::default();
    let mut failures = BTreeMap::new();
    for seed in 1..=20 {
        let mut pair = Pair::new(seed);
        for _ in 0..1_000 {
            pair.step();
        }
        for (sum, changes) in total.changes.iter_mut().zip(pair.tally.changes) {
            *sum += changes;
        }
        total.refused += pair.tally.refused;
        total.messages += pair.tally.messages;
        total.rescued += pair.tally.rescued;
        for host in [&pair.lead.host, &pair.standby.host] {
            for (call, times) in host.store().failures.borrow().iter() {
                *failures.entry(format!("{call}, {:?}", host.cache().mode())).or_insert(0) += times;
            }
        }
    }
    let reached = [&total.changes[..], &[total.refused, total.messages, total.rescued]].concat();
    assert!(reached.iter().all(|times| *times > 100), "changes of each kind, refusals, messages, rescued: {reached:?}");
    let lead = ["size, Lead", "load, Lead", "write, Lead", "sync, Lead"];
    for call in lead.into_iter().chain(["size, Standby", "load, Standby"]) {
        assert!(failures.get(call).is_some_and(|times| *times > 100), "{call} failed often: {failures:?}");
    }
}
