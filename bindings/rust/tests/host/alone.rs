//! A host alone over a store that fails: random play in which each call of each request fails once,
//! beside a host whose store never fails, and beside what every record should be.

use crate::disk::{books_agree, some_bytes, with_each_failure, Handle};
use crate::random::Random;
use speldervacht::{Cache, Decrease, Flash, Host, HostError, Increase, Mode, ReadGuard, Settings, WriteGuard};
use std::collections::BTreeMap;
use std::sync::Arc;

const ADDRESSES: usize = 24;
const LARGEST: usize = 400;

/// With a clean fraction of 1 a record that was changed is written at its own release.
fn settings(maximum: u64, clean_fraction: f64) -> Settings {
    Settings {
        initial_size: Some(maximum),
        clean_fraction,
        maximum_size: 4_096,
        minimum_size: 1_024,
        epoch_length: 100,
        increase: Increase::Threshold { lower: 0.3, multiplier: 1.5 },
        increase_cap: None,
        flash: Flash::On { multiple: 1.0, threshold: 0.2 },
        decrease: Decrease::AgeOutWithThreshold { upper: 0.4, epochs: 1, reserve: 0.1 },
        ..Settings::defaults(Mode::Alone)
    }
}

#[derive(Clone, Debug)]
enum Action {
    Create(u64, Arc<[u8]>),
    Read(u64),
    Write(u64),
    /// The writer's record was changed, and is released.
    Changed(Arc<[u8]>),
    Resize(u64, Arc<[u8]>),
    DropReader,
    DropWriter,
    Pin(u64),
    Unpin(u64),
    Discard(u64),
    Flush,
    Configure(u64, f64),
}

/// A host and the guards that it gave.
struct Player {
    host: Host<Handle>,
    readers: Vec<ReadGuard>,
    writer: Option<WriteGuard>,
}

impl Player {
    fn new() -> Player {
        let builder = Cache::builder().rows(8).settings(settings(2_048, 0.3));
        Player { host: Host::open(&builder, Handle::default()).unwrap(), readers: Vec::new(), writer: None }
    }

    /// Does an action. If the store may fail, each of its calls fails once.
    fn act(&mut self, action: &Action, may_fail: bool) -> Result<(), HostError<String>> {
        let Player { host, readers, writer } = self;
        match action {
            Action::DropReader => drop(readers.pop()),
            Action::DropWriter => *writer = None,
            _ => {}
        }
        let mut attempt = |host: &mut Host<Handle>| match action.clone() {
            Action::Create(address, bytes) => host.create(address, bytes),
            Action::Read(address) => host.read(address).map(|guard| readers.push(guard)),
            Action::Write(address) => host.write(address).map(|guard| *writer = Some(guard)),
            Action::Changed(bytes) => writer.take().expect("there is a writer").changed(host, bytes).map_err(|not| {
                *writer = Some(not.guard);
                not.error
            }),
            Action::Resize(address, bytes) => host.resize(address, bytes),
            Action::DropReader | Action::DropWriter => host.settle(),
            Action::Pin(address) => host.pin(address),
            Action::Unpin(address) => host.unpin(address),
            Action::Discard(address) => host.discard(address),
            Action::Flush => host.flush().map(drop),
            Action::Configure(maximum, clean) => host.configure(&settings(maximum, clean)),
        };
        if may_fail {
            with_each_failure(host, attempt)
        } else {
            attempt(host)
        }
    }
}

struct Play {
    random: Random,
    /// What every record should be.
    truth: BTreeMap<u64, Vec<u8>>,
    failing: Player,
    reliable: Player,
}

impl Play {
    fn some_record(&mut self) -> Option<u64> {
        let many = self.truth.len();
        (many > 0).then(|| self.random.below(many)).and_then(|n| self.truth.keys().nth(n).copied())
    }

    fn some_action(&mut self) -> Option<Action> {
        let bytes: Arc<[u8]> = some_bytes(&mut self.random, LARGEST).into();
        let kind = self.random.below(100);
        if kind < 15 {
            let address = self.random.below(ADDRESSES) as u64;
            return (!self.truth.contains_key(&address)).then_some(Action::Create(address, bytes));
        }
        let address = self.some_record()?;
        Some(match kind {
            15..=39 if self.failing.readers.len() < 4 => Action::Read(address),
            40..=59 if self.failing.writer.is_none() => Action::Write(address),
            60..=74 if self.failing.writer.is_some() => Action::Changed(bytes),
            75..=77 => Action::Resize(address, bytes),
            15..=77 => Action::DropReader,
            78..=79 => Action::DropWriter,
            80..=84 => Action::Pin(address),
            85..=92 => Action::Unpin(address),
            93..=95 => Action::Discard(address),
            96..=97 => Action::Flush,
            _ => Action::Configure([1_024, 2_048, 4_096][self.random.below(3)], [0.3, 1.0][self.random.below(2)]),
        })
    }

    /// What the action makes of the records, if it is accepted.
    fn tell(&mut self, action: &Action, changed: Option<u64>) {
        match action {
            Action::Create(address, bytes) | Action::Resize(address, bytes) => {
                self.truth.insert(*address, bytes.to_vec());
            }
            Action::Changed(bytes) => {
                self.truth.insert(changed.unwrap(), bytes.to_vec());
            }
            Action::Discard(address) => drop(self.truth.remove(address)),
            _ => {}
        }
    }

    fn step(&mut self) {
        let Some(action) = self.some_action() else { return };
        let changed = self.failing.writer.as_ref().map(WriteGuard::address);
        let answer = self.failing.act(&action, true);
        assert_eq!(answer, self.reliable.act(&action, false), "{action:?}");
        if answer.is_ok() {
            self.tell(&action, changed);
        }
        self.check();
    }

    /// The writer's record was changed, but its release fails, and the writer gives up.
    fn give_up(&mut self) {
        let Some(guard) = self.failing.writer.take() else { return };
        let (address, bytes) = (guard.address(), some_bytes(&mut self.random, LARGEST));
        let host = &mut self.failing.host;
        host.store().good_calls.set(Some(self.random.below(4)));
        let answer = guard.changed(host, bytes.clone()).map_err(HostError::from);
        host.store().good_calls.set(None);
        let done = if answer.is_ok() { Action::Changed(bytes.into()) } else { Action::DropWriter };
        host.settle().unwrap();
        self.reliable.act(&done, false).unwrap();
        self.tell(&done, Some(address));
        self.check();
    }

    fn check(&self) {
        let host = &self.failing.host;
        assert_eq!(host.cache(), self.reliable.host.cache());
        books_agree(host);
        let disk = host.store().disk.borrow();
        for (address, bytes) in &self.truth {
            match host.record(*address) {
                Some(record) => assert_eq!(&record[..], bytes, "record {address} in memory"),
                None => assert_eq!(disk.durable.get(address), Some(bytes), "record {address} on disk"),
            }
        }
    }
}

#[test]
fn neither_books_nor_records_are_lost() {
    let mut failures = BTreeMap::new();
    for seed in 1..=20 {
        let (failing, reliable) = (Player::new(), Player::new());
        let mut play = Play { random: Random::new(seed), truth: BTreeMap::new(), failing, reliable };
        for _ in 0..1_000 {
            play.step();
            if play.random.below(10) == 0 {
                play.give_up();
            }
        }
        // Once nothing is held, a flush makes all of it durable.
        let Player { host, readers, writer } = &mut play.failing;
        readers.clear();
        *writer = None;
        with_each_failure(host, |host| host.settle()).unwrap();
        with_each_failure(host, |host| host.flush()).unwrap();
        let disk = host.store().disk.borrow();
        for (address, bytes) in &play.truth {
            assert_eq!(disk.durable.get(address), Some(bytes), "record {address} on disk");
        }
        for (call, times) in host.store().failures.borrow().iter() {
            *failures.entry(call.clone()).or_insert(0) += times;
        }
    }
    for call in ["size", "load", "write", "sync"] {
        assert!(failures.get(call).is_some_and(|times| *times > 100), "{call} failed often: {failures:?}");
    }
}
