//! What the referee knows of the world, apart from the hosts: each record as the last change left it that
//! both hosts have had, and the one change that is under way.

use super::failure::{told, Failure};
use crate::wire::message::Resident;
use crate::world;
use speldervacht::Change;
use std::collections::BTreeMap;
use std::fs::File;
use std::sync::Arc;

#[derive(Default)]
pub struct Journal {
    records: BTreeMap<u64, Arc<[u8]>>,
    /// The change that is under way. A kill may leave it at one host only.
    in_flight: Option<Change>,
    /// The number of the last change that was begun.
    number: u64,
    /// Changes that both hosts had.
    pub both: u64,
    /// Changes that were in flight at a kill: the survivor had them, or not.
    pub kept: u64,
    pub dropped: u64,
}

impl Journal {
    pub fn records(&self) -> &BTreeMap<u64, Arc<[u8]>> {
        &self.records
    }

    /// A change is about to be asked of both hosts. Answers its number.
    pub fn begin(&mut self, change: Change) -> u64 {
        self.in_flight = Some(change);
        self.number += 1;
        self.number
    }

    /// Both hosts have had the change.
    pub fn both_had(&mut self) {
        self.both += u64::from(self.in_flight.is_some());
        self.note();
    }

    fn note(&mut self) {
        match self.in_flight.take() {
            Some(Change::Discard { address }) => {
                self.records.remove(&address);
            }
            Some(change) => self.records.extend(change.bytes().map(|bytes| (change.address(), bytes.clone()))),
            None => {}
        }
    }

    /// A host was lost, and `last` is the last change that the survivor had. What was in flight counts if
    /// the survivor had it.
    pub fn survived(&mut self, last: u64) {
        if self.in_flight.is_some() && last == self.number {
            self.kept += 1;
            self.note();
        } else {
            self.dropped += u64::from(self.in_flight.take().is_some());
        }
    }

    /// A record that a host has read is as it should be.
    pub fn check_read(&self, place: usize, address: u64, read: &[u8]) -> Result<(), Failure> {
        match self.records.get(&address) {
            Some(expected) if expected[..] == *read => Ok(()),
            expected => Err(Failure::Lost {
                address,
                expected: expected.map_or("no record".into(), |expected| told(expected)),
                found: format!("{} as host {} read it", told(read), place + 1),
            }),
        }
    }

    /// Each record reads back as it should from where the host would get it: from its memory if it is dirty
    /// there, else from the file. Answers how many were checked.
    pub fn check(&self, place: usize, memory: &[Resident], file: &File) -> Result<u64, Failure> {
        let host = place + 1;
        let memory: BTreeMap<u64, &Resident> = memory.iter().map(|record| (record.address, record)).collect();
        for (address, expected) in &self.records {
            let lost = |found: String| Failure::Lost { address: *address, expected: told(expected), found };
            let resident = memory.get(address);
            if let Some(record) = resident.filter(|record| record.bytes[..] != expected[..]) {
                return Err(lost(format!("{} in the memory of host {host}", told(&record.bytes))));
            }
            if !resident.is_some_and(|record| record.dirty) {
                let found = match world::get(file, *address) {
                    Ok(record) if record[..] == expected[..] => continue,
                    Ok(record) => format!("{} in the file", told(&record)),
                    Err(error) => error.to_string(),
                };
                return Err(lost(format!("{found}, and not dirty at host {host}")));
            }
        }
        match memory.keys().find(|address| !self.records.contains_key(address)) {
            Some(address) => Err(Failure::Broken(format!("host {host} has record {address}, which was discarded"))),
            None => Ok(self.records.len() as u64),
        }
    }
}

#[cfg(test)]
mod tests {
    use super::*;
    use std::fs::{self, OpenOptions};

    /// A file with nothing in it, which has no name any more.
    fn world(name: &str) -> File {
        let path = std::env::temp_dir().join(format!("speldervacht-journal-{name}-{}", std::process::id()));
        let file = OpenOptions::new().read(true).write(true).create_new(true).open(&path).unwrap();
        fs::remove_file(path).unwrap();
        file.set_len(world::LENGTH).unwrap();
        file
    }

    fn insert(bytes: &[u8]) -> Change {
        Change::Insert { address: 7, bytes: bytes.into() }
    }

    /// A journal in which both hosts had record 7.
    fn journal() -> Journal {
        let mut journal = Journal::default();
        journal.begin(insert(b"new"));
        journal.both_had();
        journal
    }

    fn resident(dirty: bool, bytes: &[u8]) -> Resident {
        Resident { address: 7, dirty, bytes: bytes.to_vec() }
    }

    fn lost(checked: Result<u64, Failure>) -> String {
        match checked {
            Err(failure @ Failure::Lost { address: 7, .. }) => failure.to_string(),
            other => panic!("{other:?}"),
        }
    }

    #[test]
    fn a_dirty_record_is_read_from_memory() {
        let (journal, file) = (journal(), world("dirty"));
        assert_eq!(journal.check(0, &[resident(true, b"new")], &file).unwrap(), 1);
        assert!(lost(journal.check(0, &[resident(true, b"old")], &file)).contains("in the memory of host 1"));
    }

    #[test]
    fn a_clean_record_is_read_from_the_file() {
        let (journal, file) = (journal(), world("clean"));
        assert!(lost(journal.check(0, &[], &file)).contains("found no record in the file"));
        world::put(&file, 7, &world::slot_of(b"old")).unwrap();
        assert!(
            lost(journal.check(0, &[resident(false, b"new")], &file)).contains("in the file, and not dirty at host 1")
        );
        let slot = world::slot_of(b"new");
        world::put(&file, 7, &slot[..slot.len() - 1]).unwrap();
        assert!(lost(journal.check(0, &[], &file)).contains("a damaged record in the file"));
        world::put(&file, 7, &slot).unwrap();
        assert_eq!(journal.check(0, &[], &file).unwrap(), 1);
        lost(journal.check(0, &[resident(false, b"old")], &file));
    }

    #[test]
    fn a_change_in_flight_counts_if_the_survivor_had_it() {
        let file = world("flight");
        for (had, now, before) in [(true, &b"next"[..], &b"new"[..]), (false, b"new", b"next")] {
            let mut journal = journal();
            let number = journal.begin(insert(b"next"));
            journal.survived(if had { number } else { number - 1 });
            assert_eq!((journal.kept, journal.dropped), (u64::from(had), u64::from(!had)));
            assert_eq!(journal.check(0, &[resident(true, now)], &file).unwrap(), 1);
            lost(journal.check(0, &[resident(true, before)], &file));
        }
    }

    #[test]
    fn what_a_host_reads_is_compared() {
        let journal = journal();
        journal.check_read(0, 7, b"new").unwrap();
        assert!(lost(journal.check_read(0, 7, b"old").map(|()| 0)).contains("as host 1 read it"));
    }

    #[test]
    fn a_discarded_record_is_gone() {
        let mut journal = journal();
        journal.begin(Change::Discard { address: 7 });
        journal.both_had();
        let file = world("discarded");
        assert_eq!(journal.check(0, &[], &file).unwrap(), 0);
        assert!(matches!(journal.check(0, &[resident(true, b"new")], &file), Err(Failure::Broken(_))));
    }
}
