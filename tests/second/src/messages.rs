//! Random messages for taking: right ones, and ones that are damaged or out of place in every way.

use crate::message::{self, message_bytes, Numbered, ADDRESS_BYTES, END_BYTES, HEAD_BYTES, MOST_LISTED};
use crate::model::{Mode, Model, ALL_ONES, NONE_LEFT, ROW_LIMIT};
use crate::random::Random;
use crate::reached::MessagePlace;
use crate::tally::Tally;
use std::ops::Range;

/// How a message is made.
#[derive(Clone, Copy, Debug, PartialEq, Eq)]
pub enum Way {
    Right,
    BadAddress,
    AllOnes,
    OtherNumber,
    Long,
    Cut,
    ByteChanged,
    ByteLikely,
    CountChanged,
    BytesAdded,
    BytesPut,
    BytesDropped,
    FieldsExchanged,
    FieldDropped,
    FieldTwice,
    LowByteFirst,
    TwoDamages,
    AnyBytes,
}

/// Each way, in the enum's order, with its name, its share of the messages, and answers that a standby
/// must be seen to give to them.
pub const WAYS: [(Way, &str, u64, &[u64]); 18] = [
    (Way::Right, "right", 900, &[0]),
    (Way::BadAddress, "an address twice or not dirty", 140, &[13]),
    (Way::AllOnes, "all ones among the addresses", 90, &[3]),
    (Way::OtherNumber, "another number", 180, &[16]),
    (Way::Long, "4,096 addresses or more", 6, &[3, 13, 14, 15, 16]),
    (Way::Cut, "cut", 90, &[14]),
    (Way::ByteChanged, "a byte changed", 90, &[13, 15, 16]),
    (Way::ByteLikely, "a byte changed to a likely one", 90, &[13, 15, 16]),
    (Way::CountChanged, "the count changed", 60, &[15]),
    (Way::BytesAdded, "bytes added at the end", 60, &[15]),
    (Way::BytesPut, "bytes put in", 40, &[15]),
    (Way::BytesDropped, "bytes dropped", 40, &[14, 15]),
    (Way::FieldsExchanged, "two fields exchanged", 60, &[0, 15]),
    (Way::FieldDropped, "a field dropped", 40, &[14, 15]),
    (Way::FieldTwice, "a field twice", 40, &[15]),
    (Way::LowByteFirst, "low byte first", 40, &[13, 15, 16]),
    (Way::TwoDamages, "two of these", 60, &[14, 15]),
    (Way::AnyBytes, "any bytes", 40, &[14, 15]),
];

/// The ways that damage bytes, whatever these are.
const OF_BYTES: [Way; 5] = [Way::Cut, Way::ByteChanged, Way::ByteLikely, Way::BytesAdded, Way::BytesDropped];
/// The ways that damage the fields of a right message.
const OF_FIELDS: [Way; 5] =
    [Way::CountChanged, Way::FieldsExchanged, Way::FieldDropped, Way::FieldTwice, Way::LowByteFirst];

/// Bytes, and how they were made if they were made for taking.
#[derive(Clone, Debug, Default)]
pub struct Message {
    pub way: Option<Way>,
    pub bytes: Vec<u8>,
}

/// What messages are made for: a cache's next number and its addresses.
pub struct Addressee {
    pub next: u64,
    pub dirty: Vec<u64>,
    pub clean: Vec<u64>,
}

impl Addressee {
    pub fn of(m: &Model) -> Addressee {
        let addresses = |dirty| m.entries.iter().filter(|(_, e)| e.dirty == dirty).map(|(a, _)| *a).collect();
        Addressee { next: m.next, dirty: addresses(true), clean: addresses(false) }
    }
}

// ---- numbers and lists

/// The next number of a state: few used, or few left, or any.
pub fn some_next(r: &mut Random) -> u64 {
    match r.below(20) {
        0..=11 => r.between(1, 9),
        12..=15 => u64::MAX - 2,
        16 => u64::MAX - r.below(300),
        17 => NONE_LEFT,
        _ => r.word(),
    }
}

pub fn other_number(r: &mut Random, next: u64) -> u64 {
    match r.below(12) {
        0..=2 => next.wrapping_sub(1),
        3..=5 => next.wrapping_add(1),
        6 => next.wrapping_sub(r.between(2, 300)),
        7 => next.wrapping_add(r.between(2, 300)),
        8 => 0,
        9 => next.swap_bytes(),
        10 => next ^ 1 << r.below(64),
        _ if r.chance(50) => u64::MAX,
        _ => r.word(),
    }
}

/// Some of the dirty addresses, or none, or all.
fn some_list(r: &mut Random, to: &Addressee) -> Vec<u64> {
    let mut list = match r.below(3) {
        0 => Vec::new(),
        1 => to.dirty.iter().copied().filter(|_| r.chance(30)).collect(),
        _ => to.dirty.clone(),
    };
    r.shuffle(&mut list);
    list
}

fn put_anywhere(r: &mut Random, list: &mut Vec<u64>, address: u64) {
    list.insert(r.below(list.len() as u64 + 1) as usize, address);
}

/// An address twice, a clean one, or one that is not in the cache.
fn bad_address(r: &mut Random, to: &Addressee, list: &[u64]) -> u64 {
    match r.below(4) {
        0 | 1 if !list.is_empty() => r.pick(list),
        2 if !to.clean.is_empty() => r.pick(&to.clean),
        _ => r.word() >> r.below(60),
    }
}

/// How many addresses a long message has.
fn long_count(r: &mut Random) -> u64 {
    match r.below(40) {
        0..=9 => ROW_LIMIT,
        10..=24 => ROW_LIMIT + 1,
        25..=37 => r.between(ROW_LIMIT, ROW_LIMIT + 600),
        38 => r.between(ROW_LIMIT, MOST_LISTED as u64),
        _ => MOST_LISTED as u64,
    }
}

/// A long list: the dirty addresses and others after them, at times with all ones.
fn long_list(r: &mut Random, to: &Addressee) -> Vec<u64> {
    let count = long_count(r) as usize;
    let mut list = to.dirty.clone();
    while list.len() < count {
        list.push(100 + list.len() as u64);
    }
    list.truncate(count);
    match r.below(6) {
        0 => *list.last_mut().unwrap() = ALL_ONES,
        1 => {
            let place = r.below(count as u64) as usize;
            list[place] = ALL_ONES;
        }
        _ => {}
    }
    list
}

// ---- damage

/// The fields of a right message.
fn fields(bytes: &[u8]) -> Vec<Range<usize>> {
    let end = bytes.len() - END_BYTES;
    let mut fields = vec![0..11, 11..HEAD_BYTES];
    fields.extend((HEAD_BYTES..end).step_by(ADDRESS_BYTES).map(|at| at..at + ADDRESS_BYTES));
    fields.push(end..bytes.len());
    fields
}

fn some_field(r: &mut Random, bytes: &[u8]) -> Range<usize> {
    let fields = fields(bytes);
    fields[r.below(fields.len() as u64) as usize].clone()
}

fn some_place(r: &mut Random, bytes: &[u8]) -> usize {
    r.below(bytes.len() as u64) as usize
}

fn cut(r: &mut Random, bytes: &mut Vec<u8>) {
    let length = match r.below(10) {
        0 => 0,
        1 => bytes.len().saturating_sub(1),
        2 => r.pick(&[1, 3, 11, 14, 16, 17, 27]).min(bytes.len().saturating_sub(1)),
        _ => r.below(bytes.len().max(1) as u64) as usize,
    };
    bytes.truncate(length);
}

/// A byte is changed, often one of the first fields or of the end.
fn change_byte(r: &mut Random, bytes: &mut [u8], likely: bool) {
    if bytes.is_empty() {
        return;
    }
    let place = match r.below(4) {
        0 => r.below(17).min(bytes.len() as u64 - 1) as usize,
        1 => bytes.len() - 1 - r.below(3).min(bytes.len() as u64 - 1) as usize,
        _ => some_place(r, bytes),
    };
    let old = bytes[place];
    let likely_byte = r.pick(&[0, 1, 2, 3, 8, 9, 10, 11, 0x7f, 0x80, 0xff, old.wrapping_sub(1), old.wrapping_add(1)]);
    bytes[place] = match likely {
        true if likely_byte == old => old.wrapping_add(1),
        true => likely_byte,
        false => old ^ r.between(1, 255) as u8,
    };
}

fn change_count(r: &mut Random, bytes: &mut [u8]) {
    let count = u16::from_be_bytes([bytes[14], bytes[15]]);
    let other = match r.below(8) {
        0 | 1 => count.wrapping_sub(1),
        2 if count != 0 => 0,
        3 if count != count.swap_bytes() => count.swap_bytes(),
        4 => r.pick(&[4_096, 4_097, u16::MAX]),
        5 => r.below(1 << 16) as u16,
        _ => count.wrapping_add(1),
    };
    bytes[14..16].copy_from_slice(&other.to_be_bytes());
}

fn some_bytes(r: &mut Random, most: u64) -> Vec<u8> {
    let likely = r.chance(50);
    let byte = |r: &mut Random| if likely { r.pick(&[0, 0, 1, 2, 3, 8, 9]) } else { r.below(256) as u8 };
    (0..r.between(1, most)).map(|_| byte(r)).collect()
}

fn add_bytes(r: &mut Random, bytes: &mut Vec<u8>) {
    match r.below(6) {
        0 => bytes.push(0),
        1 => bytes.extend([9, 0, 0]),
        2 => bytes.extend([3, 0, 8, 0, 0, 0, 0, 0, 0, 0, 100]),
        3 => bytes.extend_from_within(..),
        _ => bytes.extend(some_bytes(r, 20)),
    }
}

fn put_bytes(r: &mut Random, bytes: &mut Vec<u8>) {
    let place = some_place(r, bytes);
    bytes.splice(place..place, some_bytes(r, 12));
}

fn drop_bytes(r: &mut Random, bytes: &mut Vec<u8>) {
    if !bytes.is_empty() {
        let from = some_place(r, bytes);
        let to = bytes.len().min(from + r.between(1, 12) as usize);
        bytes.drain(from..to);
    }
}

fn exchange_fields(r: &mut Random, bytes: &mut Vec<u8>) {
    let fields = fields(bytes);
    let last = r.between(1, fields.len() as u64 - 1) as usize;
    let first = r.below(last as u64) as usize;
    let [first, last] = [first, last].map(|i| fields[i].clone());
    let whole = first.start..last.end;
    let exchanged = [&bytes[last.clone()], &bytes[first.end..last.start], &bytes[first]].concat();
    bytes.splice(whole, exchanged);
}

fn double_field(r: &mut Random, bytes: &mut Vec<u8>) {
    let field = some_field(r, bytes);
    let again = bytes[field.clone()].to_vec();
    bytes.splice(field.end..field.end, again);
}

/// A value or a length of a field stands with its low byte first, where that makes a difference.
fn turn_bytes(r: &mut Random, bytes: &mut [u8]) {
    let fields = fields(bytes);
    let Range { start, end } = fields[r.below(fields.len() as u64 - 1) as usize];
    let (length, value) = (start + 1..start + 3, start + 3..end);
    let value_is_same = bytes[value.clone()].iter().eq(bytes[value.clone()].iter().rev());
    let turned = if value_is_same || r.chance(30) { length } else { value };
    bytes[turned].reverse();
}

fn damage(r: &mut Random, bytes: &mut Vec<u8>, way: Way) {
    match way {
        Way::Right | Way::BadAddress | Way::AllOnes | Way::OtherNumber | Way::Long => {}
        Way::Cut => cut(r, bytes),
        Way::ByteChanged => change_byte(r, bytes, false),
        Way::ByteLikely => change_byte(r, bytes, true),
        Way::CountChanged => change_count(r, bytes),
        Way::BytesAdded => add_bytes(r, bytes),
        Way::BytesPut => put_bytes(r, bytes),
        Way::BytesDropped => drop_bytes(r, bytes),
        Way::FieldsExchanged => exchange_fields(r, bytes),
        Way::FieldDropped => {
            let field = some_field(r, bytes);
            bytes.drain(field);
        }
        Way::FieldTwice => double_field(r, bytes),
        Way::LowByteFirst => turn_bytes(r, bytes),
        Way::TwoDamages => {
            let first = if r.chance(50) { r.pick(&OF_FIELDS) } else { r.pick(&OF_BYTES) };
            damage(r, bytes, first);
            let second = r.pick(&OF_BYTES);
            damage(r, bytes, second);
        }
        Way::AnyBytes => *bytes = some_bytes(r, 60),
    }
}

/// A right message with one of these damages.
pub fn damaged(r: &mut Random, mut bytes: Vec<u8>) -> Vec<u8> {
    let way = if r.chance(50) { r.pick(&OF_FIELDS) } else { r.pick(&OF_BYTES) };
    damage(r, &mut bytes, way);
    bytes
}

// ---- drawing

fn some_way(r: &mut Random) -> Way {
    let mut at = r.below(WAYS.iter().map(|(.., share, _)| share).sum());
    for (way, _, share, _) in WAYS {
        if at < share {
            return way;
        }
        at -= share;
    }
    Way::Right
}

/// A message made in this way.
pub fn made(r: &mut Random, to: &Addressee, way: Way) -> Message {
    let mut number = to.next;
    let mut list = if way == Way::Long { long_list(r, to) } else { some_list(r, to) };
    let mut damage_way = way;
    match way {
        Way::BadAddress => {
            let address = bad_address(r, to, &list);
            put_anywhere(r, &mut list, address);
        }
        Way::AllOnes => put_anywhere(r, &mut list, ALL_ONES),
        Way::OtherNumber => {
            number = other_number(r, to.next);
            if r.chance(20) {
                let address = if r.chance(50) { ALL_ONES } else { bad_address(r, to, &list) };
                put_anywhere(r, &mut list, address);
            }
        }
        Way::Long => match r.below(8) {
            0 => number = other_number(r, to.next),
            1 | 2 => damage_way = r.pick(&OF_BYTES),
            _ => {}
        },
        _ => {}
    }
    let mut bytes = message::write(number, &list);
    damage(r, &mut bytes, damage_way);
    Message { way: Some(way), bytes }
}

pub fn draw(r: &mut Random, to: &Addressee) -> Message {
    let way = some_way(r);
    made(r, to, way)
}

// ---- counting

const FLUSH: u64 = 10;
const SYNC: u64 = 11;
const TAKE: u64 = 12;

fn count_take(m: &Model, message: &[u8], number: u64, tally: &mut Tally) {
    let mut mark = |place, when| tally.messages.mark_when(place, when);
    let limit = ROW_LIMIT as usize;
    let longer = message.len() > message_bytes(limit);
    mark(MessagePlace::Nothing, message.is_empty());
    mark(MessagePlace::AboveEndsEarly, longer && number == 14);
    mark(MessagePlace::AboveWrongByte, longer && number == 15);
    let Ok(Numbered { number: its_number, list }) = message::read(message) else { return };
    let above = list.len() > limit;
    mark(MessagePlace::AtLimitTaken, list.len() == limit && number == 0);
    mark(MessagePlace::AboveLimit, above);
    mark(MessagePlace::JustAbove, list.len() == limit + 1);
    mark(MessagePlace::Longest, list.len() == MOST_LISTED);
    mark(MessagePlace::AboveNumber, above && number == 16);
    mark(MessagePlace::AboveAllOnes, above && number == 3);
    mark(MessagePlace::AllOnesBeyond, above && number == 3 && !list[..limit].contains(&ALL_ONES));
    mark(MessagePlace::AboveNotDirty, above && number == 13);
    let left = m.next != NONE_LEFT;
    mark(MessagePlace::NumberBefore, left && its_number == m.next.wrapping_sub(1));
    mark(MessagePlace::NumberAfter, left && its_number == m.next.wrapping_add(1));
    mark(MessagePlace::NumberZero, left && its_number == 0);
    mark(MessagePlace::NumberFirst, number == 16 && list.contains(&ALL_ONES));
    mark(MessagePlace::NoneLeftTake, !left);
    mark(MessagePlace::NoneLeftZero, !left && its_number == 0);
}

/// Counts what a request of a kind, answered with this number, has to do with messages and numbers. The
/// model is as before it.
pub fn count(m: &Model, kind: u64, message: &[u8], number: u64, tally: &mut Tally) {
    let none_left = m.next == NONE_LEFT;
    let place = match (m.mode, kind, number) {
        (Mode::Standby, TAKE, _) => return count_take(m, message, number, tally),
        (Mode::Lead, FLUSH, 16) => MessagePlace::NoneLeftFlush,
        (Mode::Lead, FLUSH, 8) if none_left => MessagePlace::NoneLeftHeld,
        (Mode::Lead, FLUSH, 2) if none_left => MessagePlace::NoneLeftShort,
        (Mode::Lead, SYNC, 16) => MessagePlace::NoneLeftSync,
        (Mode::Lead, SYNC, 2) if none_left => MessagePlace::NoneLeftSyncShort,
        (Mode::Alone, FLUSH, 0) if none_left => MessagePlace::NoneLeftAlone,
        _ => return,
    };
    tally.messages.mark(place);
}
