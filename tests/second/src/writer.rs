//! The library's writer of messages beside the model's, and messages that are read back.

use crate::cache::Difference;
use crate::library::{self, Written};
use crate::message::{self, message_bytes, ADDRESS_BYTES, MOST_LISTED};
use crate::messages::Message;
use crate::model::{self, Entry, Hold, Mode, Model, Settings, ALL_ONES, NONE_LEFT, ROW_LIMIT};
use crate::random::Random;
use crate::reached::WriterPlace;
use crate::run::Run;
use crate::shrink::shrink;
use crate::table::NEXT;
use crate::tally::Tally;
use std::collections::BTreeSet;

/// Bytes past those lent, which are watched too.
const BEYOND: usize = 16;

/// One use of the writer, with so many bytes lent.
#[derive(Clone, Debug)]
pub struct Writing {
    pub number: u64,
    pub list: Vec<u64>,
    pub lent: usize,
}

fn differ<T>(what: String, library: impl ToString, model: impl ToString) -> Result<T, Difference> {
    Err(Difference { what, library: library.to_string(), model: model.to_string() })
}

impl Writing {
    /// The refusal's number: bytes are judged before the list's length.
    fn refusal(&self) -> Option<u64> {
        if self.lent < message_bytes(self.list.len()) {
            Some(2)
        } else if self.list.len() > MOST_LISTED {
            Some(15)
        } else {
            None
        }
    }

    /// Compares what the library does, and gives the bytes lent as they are after it.
    pub fn compare(&self) -> Result<Vec<u8>, Difference> {
        let mut bytes: Vec<u8> = (0..self.lent + BEYOND).map(|i| (37 * i + 11) as u8).collect();
        let mut expected_bytes = bytes.clone();
        let expected = match self.refusal() {
            Some(number) => Written { number, bytes: 0 },
            None => {
                let message = message::write(self.number, &self.list);
                expected_bytes[..message.len()].copy_from_slice(&message);
                Written { number: 0, bytes: message.len() as u64 }
            }
        };
        let list_before = self.list.clone();
        let written = library::write_message(&mut bytes[..self.lent], self.number, &self.list);
        if written != expected {
            return differ("what the writing came to".to_string(), written, expected);
        }
        if let Some(at) = (0..bytes.len()).find(|at| bytes[*at] != expected_bytes[*at]) {
            return differ(format!("byte {at}"), bytes[at], expected_bytes[at]);
        }
        if self.list != list_before {
            return differ("the list".to_string(), "changed", "as it was");
        }
        bytes.truncate(self.lent);
        Ok(bytes)
    }

    /// Without addresses that the difference does not need; as many bytes too few or too many are lent.
    pub fn shortest(self) -> Writing {
        let needed = message_bytes(self.list.len());
        let with = |list: &[u64]| {
            let lent = (message_bytes(list.len()) + self.lent).saturating_sub(needed);
            Writing { number: self.number, list: list.to_vec(), lent }
        };
        with(&shrink(self.list.clone(), |list| with(list).compare().is_err()))
    }

    fn count(&self, tally: &mut Tally) {
        let mut mark = |place, when| tally.writer.mark_when(place, when);
        let (count, needed) = (self.list.len(), message_bytes(self.list.len()));
        match self.refusal() {
            None => {
                mark(WriterPlace::Written, true);
                mark(WriterPlace::WrittenExactly, self.lent == needed);
                mark(WriterPlace::WrittenInMore, self.lent > needed);
                mark(WriterPlace::WrittenEmpty, count == 0);
                mark(WriterPlace::WrittenLongest, count == MOST_LISTED);
                mark(WriterPlace::WrittenAllOnes, self.list.contains(&ALL_ONES));
                mark(WriterPlace::WrittenZero, self.number == 0);
            }
            Some(2) => {
                mark(WriterPlace::FewBytes, true);
                mark(WriterPlace::OneByteFewer, self.lent + 1 == needed);
                mark(WriterPlace::NoBytes, self.lent == 0);
                mark(WriterPlace::FewAndLong, count > MOST_LISTED);
            }
            _ => {
                mark(WriterPlace::LongList, true);
                mark(WriterPlace::JustTooLong, count == MOST_LISTED + 1);
            }
        }
    }
}

impl std::fmt::Display for Writing {
    fn fmt(&self, f: &mut std::fmt::Formatter) -> std::fmt::Result {
        let Writing { number, list, lent } = self;
        writeln!(f, "write number {number}, {} into {lent} bytes", message::list_text(list))
    }
}

/// The message of a numbered list as the library writes it, which is the model's.
pub fn written(number: u64, list: &[u64]) -> Result<Vec<u8>, Difference> {
    Writing { number, list: list.to_vec(), lent: message_bytes(list.len()) }.compare()
}

// ---- drawing

fn some_number(r: &mut Random) -> u64 {
    match r.below(8) {
        0 => 0,
        1 => u64::MAX,
        2 => r.between(1, 9),
        _ => r.word(),
    }
}

fn some_count(r: &mut Random) -> u64 {
    let most = MOST_LISTED as u64;
    match r.below(1_000) {
        0 | 1 => most,
        2 | 3 => most + 1,
        4 => most + r.between(2, 5_000),
        5 => r.between(ROW_LIMIT, most),
        n => match n % 10 {
            0 => 0,
            1..=6 => r.below(40),
            7 | 8 => r.below(300),
            _ => r.below(700),
        },
    }
}

fn some_lent(r: &mut Random, needed: usize) -> usize {
    match r.below(12) {
        0 | 1 => needed - 1,
        2 => needed + 1,
        3 => needed - ADDRESS_BYTES,
        4 => needed + ADDRESS_BYTES,
        5 => r.below(needed as u64) as usize,
        6 => r.pick(&[0, 1, needed / 2]),
        7 => needed + r.below(300) as usize,
        _ => needed,
    }
}

fn some_address(r: &mut Random) -> u64 {
    match r.below(60) {
        0 => ALL_ONES,
        1 => 0,
        _ => r.word() >> r.below(64),
    }
}

fn some_writing(r: &mut Random) -> Writing {
    let list: Vec<u64> = (0..some_count(r)).map(|_| some_address(r)).collect();
    Writing { number: some_number(r), lent: some_lent(r, message_bytes(list.len())), list }
}

/// Writes many lists; one that shows a difference comes back with it.
pub fn play(seed: u64, many: u64, tally: &mut Tally) -> Result<(), Box<(Writing, Difference)>> {
    let mut r = Random::new(seed);
    for _ in 0..many {
        let writing = some_writing(&mut r);
        match writing.compare() {
            Ok(_) => writing.count(tally),
            Err(difference) => return Err(Box::new((writing, difference))),
        }
    }
    Ok(())
}

// ---- reading back

/// A standby that has these records dirty and waits for this number.
pub fn standby_with(records: &[u64], next: u64) -> Model {
    let rows = records.len().max(1) as u64;
    let opened = model::open(rows, true, Some(Mode::Standby), 1, Settings::default_values(Mode::Standby));
    let mut m = opened.expect("a fresh standby");
    m.next = next;
    for (row, address) in records.iter().enumerate() {
        m.entries.insert(*address, Entry { size: 1, dirty: true, idle: 0, pinned: false, hold: Hold::Free, row });
        m.recency.push_front(*address);
    }
    m
}

fn some_records(r: &mut Random) -> Vec<u64> {
    let many = if r.chance(1) { ROW_LIMIT } else { r.below(300) };
    let records: BTreeSet<u64> = (0..2 * many).map(|_| some_address(r)).filter(|a| *a != ALL_ONES).collect();
    let mut records: Vec<u64> = records.into_iter().collect();
    r.shuffle(&mut records);
    records.truncate(many as usize);
    records
}

/// The library writes the message of some records, or of all, and a standby that has them takes it.
fn read_back(r: &mut Random, tally: &mut Tally) -> Result<(), Box<(Run, Difference)>> {
    let records = some_records(r);
    let number = some_number(r).max(1);
    let all = r.chance(50);
    let list = if all { &records[..] } else { &records[..r.below(records.len() as u64 + 1) as usize] };
    let mut bytes = vec![0; message_bytes(list.len())];
    library::write_message(&mut bytes, number, list);
    let run = Run::of_messages(&standby_with(&records, number), vec![Message { way: None, bytes }]);
    let next = match run.happen_all(tally) {
        Ok(cache) => cache.table[NEXT],
        Err((_, difference)) => return Err(Box::new((run, difference))),
    };
    if next != number.checked_add(1).unwrap_or(NONE_LEFT) {
        let what = "the taking of a message that the library wrote".to_string();
        let difference = Difference { what, library: "refused".to_string(), model: "accepted".to_string() };
        return Err(Box::new((run, difference)));
    }
    tally.writer.mark(WriterPlace::ReadBack);
    if list.len() as u64 == ROW_LIMIT {
        tally.writer.mark(WriterPlace::ReadBackMost);
    }
    Ok(())
}

/// Reads many messages back.
pub fn play_back(seed: u64, many: u64, tally: &mut Tally) -> Result<(), Box<(Run, Difference)>> {
    let mut r = Random::new(seed);
    (0..many).try_for_each(|_| read_back(&mut r, tally))
}
