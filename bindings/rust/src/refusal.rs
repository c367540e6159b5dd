//! Why a request was refused.

use crate::{
    message_bytes, order_words, raw, reason_words, Mode, Request, View, LARGEST_ENTRY, LARGEST_THRESHOLD, MOST_LISTED,
};
use core::fmt;

/// A hold on an entry.
#[derive(Clone, Copy, Debug, PartialEq, Eq)]
pub enum Hold {
    /// So many readers, 1 to 65,535.
    Readers(u64),
    Writer,
}

/// A refusal. It gave no orders and changed no word.
#[derive(Clone, Copy, Debug, PartialEq, Eq)]
#[non_exhaustive]
pub enum Refusal {
    /// 1: the row count is out of limits, the table is too short, or its words picture no cache.
    BadTable,
    /// 2: the request can give orders, and too few words were lent for them.
    FewOrderWords { needed: usize, lent: usize },
    /// 2, of [`explain`](crate::explain): the request can give orders, and too few words were lent for their
    /// reasons.
    FewReasonWords { needed: usize, lent: usize },
    /// 2, of [`write_message`](crate::write_message): too few bytes were lent for the message.
    FewBytes { needed: usize, lent: usize },
    /// 3: all ones is no address.
    BadAddress,
    /// 4: a size is 1 to 134,217,728 bytes.
    BadSize { size: u64 },
    /// 5: the request is not for a cache in this mode.
    WrongMode { mode: Mode },
    /// 5: a threshold is 1 to 1,073,741,824 bytes.
    BadThreshold { threshold: u64 },
    /// 6: the cache has no entry at the address.
    NotInCache { address: u64 },
    /// 7: the cache has an entry at the address.
    InCache { address: u64 },
    /// 8: the entry's hold forbids it.
    Held { address: u64, hold: Hold },
    /// 8, in a batch: an entry is held for writing or by readers, which forbids the request. Requests
    /// behind it have changed the table since, so the hold is not told.
    HeldInBatch,
    /// 9: the entry lacks the hold that the request needs.
    NotHeld { address: u64 },
    /// 10: the entry is pinned.
    Pinned { address: u64 },
    /// 10: the entry is not pinned.
    NotPinned { address: u64 },
    /// 11: no row is free, and no entry may be evicted.
    NoRow,
    /// 12: a setting is bad; its number is 1 to 12.
    BadSetting { field: u64 },
    /// 13: the list names an address twice, or one that is not dirty here.
    BadList,
    /// 14: the message's bytes end early.
    CutMessage,
    /// 15: the message has a byte that no right message can have there.
    BadMessage,
    /// 15, of [`write_message`](crate::write_message): a message has at most 65,535 addresses.
    LongList { addresses: usize },
    /// 16, of a take: the message is right and does not have the next number. 0: no number is left, and
    /// no message can be taken.
    WrongNumber { next: u64 },
    /// 16, of a lead's flush or sync: no number is left to send.
    NoNumberLeft,
    /// A number that this crate does not know.
    Other { number: u64 },
}

/// The names of the settings by number.
const FIELDS: [&str; 12] = [
    "evictions",
    "whether the initial size is set",
    "the initial size",
    "the minimum clean fraction",
    "the maximum size",
    "the minimum size",
    "the epoch length",
    "the increase rule",
    "the cap on one increase",
    "the flash rule",
    "the decrease rule",
    "the cap on one decrease",
];

/// The name of a setting.
pub(crate) fn name_of_field(field: u64) -> &'static str {
    field.checked_sub(1).and_then(|i| FIELDS.get(i as usize)).unwrap_or(&"unknown")
}

impl Refusal {
    /// The number, 1 to 16.
    #[must_use]
    pub fn number(&self) -> u64 {
        match *self {
            Refusal::BadTable => 1,
            Refusal::FewOrderWords { .. } | Refusal::FewReasonWords { .. } | Refusal::FewBytes { .. } => 2,
            Refusal::BadAddress => 3,
            Refusal::BadSize { .. } => 4,
            Refusal::WrongMode { .. } | Refusal::BadThreshold { .. } => 5,
            Refusal::NotInCache { .. } => 6,
            Refusal::InCache { .. } => 7,
            Refusal::Held { .. } | Refusal::HeldInBatch => 8,
            Refusal::NotHeld { .. } => 9,
            Refusal::Pinned { .. } | Refusal::NotPinned { .. } => 10,
            Refusal::NoRow => 11,
            Refusal::BadSetting { .. } => 12,
            Refusal::BadList => 13,
            Refusal::CutMessage => 14,
            Refusal::BadMessage | Refusal::LongList { .. } => 15,
            Refusal::WrongNumber { .. } | Refusal::NoNumberLeft => 16,
            Refusal::Other { number } => number,
        }
    }

    pub(crate) fn of_opening(answer: raw::Answer, threshold: u64) -> Refusal {
        match answer.number {
            1 => Refusal::BadTable,
            5 => Refusal::BadThreshold { threshold },
            12 => Refusal::BadSetting { field: answer.field },
            number => Refusal::Other { number },
        }
    }

    pub(crate) fn of_writing(number: u64, lent: usize, addresses: usize) -> Refusal {
        match number {
            2 => Refusal::FewBytes { needed: message_bytes(addresses), lent },
            15 => Refusal::LongList { addresses },
            number => Refusal::Other { number },
        }
    }

    /// The refusal of a request, with what the untouched table tells of it.
    pub(crate) fn of_request(verdict: raw::Verdict, table: &[u64], lent: usize, request: &Request) -> Refusal {
        let table = View::unjudged(table);
        match verdict.number {
            2 => Refusal::few_order_words(table, lent),
            8 => held(table, request),
            12 => Refusal::BadSetting { field: verdict.field },
            16 if matches!(request, Request::Take { .. }) => Refusal::WrongNumber { next: table.next_number() },
            number => Refusal::by_request(number, table.mode(), request),
        }
    }

    /// The refusal of a request that was to be explained, with so many order words and reason words lent.
    pub(crate) fn of_explanation(
        verdict: raw::Verdict,
        table: &[u64],
        orders: usize,
        reasons: usize,
        request: &Request,
    ) -> Refusal {
        let rows = View::unjudged(table).rows();
        match verdict.number {
            2 if orders >= order_words(rows) => Refusal::FewReasonWords { needed: reason_words(rows), lent: reasons },
            _ => Refusal::of_request(verdict, table, orders, request),
        }
    }

    /// The refusal of a request in a batch, whose table has gone on since.
    pub(crate) fn in_batch(number: u64, mode: Mode, request: &Request) -> Refusal {
        match number {
            8 => Refusal::HeldInBatch,
            number => Refusal::by_request(number, mode, request),
        }
    }

    pub(crate) fn few_order_words(table: View, lent: usize) -> Refusal {
        Refusal::FewOrderWords { needed: order_words(table.rows()), lent }
    }

    /// The refusal, with what the request and the mode tell of it.
    fn by_request(number: u64, mode: Mode, request: &Request) -> Refusal {
        let address = request.address();
        match number {
            1 => Refusal::BadTable,
            3 => Refusal::BadAddress,
            4 => Refusal::BadSize { size: request.size() },
            5 => Refusal::WrongMode { mode },
            6 => Refusal::NotInCache { address },
            7 => Refusal::InCache { address },
            9 => Refusal::NotHeld { address },
            10 => match request {
                Request::Unpin { .. } => Refusal::NotPinned { address },
                _ => Refusal::Pinned { address },
            },
            11 => Refusal::NoRow,
            13 => Refusal::BadList,
            14 => Refusal::CutMessage,
            15 => Refusal::BadMessage,
            16 => Refusal::NoNumberLeft,
            number => Refusal::Other { number },
        }
    }
}

/// The held entry that a request met: the one it names, or the first of all for a flush.
fn held(table: View, request: &Request) -> Refusal {
    let meant = |address| matches!(request, Request::Flush) || address == request.address();
    let mut met = table.rows_used().filter(|entry| meant(entry.address));
    let found = met.find_map(|entry| entry.hold.map(|hold| Refusal::Held { address: entry.address, hold }));
    found.unwrap_or(Refusal::Other { number: 8 })
}

impl fmt::Display for Refusal {
    fn fmt(&self, f: &mut fmt::Formatter) -> fmt::Result {
        match *self {
            Refusal::BadTable => {
                write!(f, "the row count is out of limits, the table is too short, or its words picture no cache")
            }
            Refusal::FewOrderWords { needed, lent } => {
                write!(f, "the request needs {needed} words for orders and was lent {lent}")
            }
            Refusal::FewReasonWords { needed, lent } => {
                write!(f, "the request needs {needed} words for reasons and was lent {lent}")
            }
            Refusal::FewBytes { needed, lent } => {
                write!(f, "the message needs {needed} bytes and was lent {lent}")
            }
            Refusal::BadAddress => write!(f, "all ones is no address"),
            Refusal::BadSize { size } => {
                write!(f, "a size of {size} is not within 1 to {LARGEST_ENTRY} bytes")
            }
            Refusal::WrongMode { mode } => {
                let mode = match mode {
                    Mode::Alone => "alone",
                    Mode::Lead => "a lead",
                    Mode::Standby => "a standby",
                };
                write!(f, "the request is not for a cache that is {mode}")
            }
            Refusal::BadThreshold { threshold } => {
                write!(f, "a threshold of {threshold} is not within 1 to {LARGEST_THRESHOLD} bytes")
            }
            Refusal::NotInCache { address } => write!(f, "the cache has no entry at {address}"),
            Refusal::InCache { address } => write!(f, "the cache has an entry at {address}"),
            Refusal::Held { address, hold: Hold::Writer } => write!(f, "the entry at {address} is held for writing"),
            Refusal::Held { address, hold: Hold::Readers(1) } => {
                write!(f, "the entry at {address} is held by 1 reader")
            }
            Refusal::Held { address, hold: Hold::Readers(n) } => {
                write!(f, "the entry at {address} is held by {n} readers")
            }
            Refusal::HeldInBatch => {
                write!(f, "an entry is held for writing or by readers, which forbids the request")
            }
            Refusal::NotHeld { address } => {
                write!(f, "the entry at {address} lacks the hold that the request needs")
            }
            Refusal::Pinned { address } => write!(f, "the entry at {address} is pinned"),
            Refusal::NotPinned { address } => write!(f, "the entry at {address} is not pinned"),
            Refusal::NoRow => write!(f, "no row is free and no entry may be evicted"),
            Refusal::BadSetting { field } => {
                write!(f, "setting {field}, {}, is bad", name_of_field(field))
            }
            Refusal::BadList => {
                write!(f, "the list names an address twice, or one that is not dirty here")
            }
            Refusal::CutMessage => write!(f, "the message's bytes end early"),
            Refusal::BadMessage => write!(f, "the message has a byte that no right message can have there"),
            Refusal::LongList { addresses } => {
                write!(f, "the list to write has {addresses} addresses, and a message can have {MOST_LISTED}")
            }
            Refusal::WrongNumber { next: 0 } => write!(f, "the message does not have the next number: none is left"),
            Refusal::WrongNumber { next } => write!(f, "the message does not have the next number, {next}"),
            Refusal::NoNumberLeft => write!(f, "no number is left to send"),
            Refusal::Other { .. } => write!(f, "the request was refused"),
        }?;
        write!(f, " ({})", self.number())
    }
}

impl core::error::Error for Refusal {}
