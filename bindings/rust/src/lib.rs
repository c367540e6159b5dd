//! Speldervacht: a metadata cache that keeps the books, while the host reads and writes the
//! records.
//!
//! A request is accepted, and its orders (write, evict, load) are carried out in turn, or it is refused,
//! and then nothing has changed. docs/RULES.md has each rule. There are three ways to use the crate, one
//! above the other:
//!
//! - [`Host`] has a cache, the records in memory and a [`Store`] that they come from. It carries out the
//!   orders, and has guards that release a record when dropped. It needs the feature `std`, which is on
//!   by default.
//! - [`Cache`] owns its words, and has a method for each request. The caller carries out the orders. It
//!   needs the feature `alloc`.
//! - [`open`], [`step`], [`explain`], [`batch`], [`ask`] and [`report`] work on lent words, and [`View`] reads them.
//!   [`write_message`] writes what a lead sends. They need neither `std` nor an allocator.
//!
//! Two words have two senses. An entry is *held* while readers or a writer hold it, between protect
//! and release; *held bytes* are the sizes of all entries, held or not. An entry is *clean* if it is
//! not dirty; *minimum clean bytes* are what the settings want to be clean or unused.
//!
//! # A cache alone
//!
//! ```
//! use speldervacht::{Access, Cache, Mode, Settings};
//!
//! // A cache of four entries and 4,096 bytes.
//! let settings = Settings { clean_fraction: 0.0, ..Settings::fixed(Mode::Alone, 4_096) };
//! let mut cache = Cache::builder().rows(4).settings(settings).open()?;
//!
//! // Two new records fit. The third needs room: both are written, and the oldest leaves.
//! cache.insert(100, 3_000)?;
//! cache.insert(200, 1_000)?;
//! let orders: Vec<String> = cache.insert(300, 500)?.map(|order| order.to_string()).collect();
//! assert_eq!(orders, ["write 100 3000", "write 200 1000", "evict 100 3000"]);
//!
//! let figures = cache.report()?;
//! assert_eq!((figures.held, figures.dirty, figures.entries), (1_500, 500, 2));
//! assert!(cache.get(300).is_some_and(|entry| entry.dirty));
//!
//! // A record is held while it is used. This one is not there any more: the orders load it.
//! let protected = cache.protect_for_reading(100, 3_000)?;
//! assert_eq!(protected.access, Access::Miss);
//! assert_eq!(protected.orders.last().unwrap().to_string(), "load 100 3000");
//! cache.release(100)?;
//!
//! // What a cache does not allow, it refuses.
//! let refusal = cache.unpin(100).unwrap_err();
//! assert_eq!(refusal.to_string(), "the entry at 100 is not pinned (10)");
//! # Ok::<(), speldervacht::Refusal>(())
//! ```
//!
//! # Why did 100 leave?
//!
//! [`Cache::explain`] does a request as [`Cache::step`] does it, and has the [`Reason`] of each order, and of a
//! change of the maximum the [`Cause`] and the [`Bound`] that held its value. Nothing tells it afterwards: so a
//! host that wants to know does its requests that way, and keeps what it is told.
//!
//! ```
//! use speldervacht::{Cache, Mode, Request, Settings};
//!
//! let settings = Settings { clean_fraction: 0.0, ..Settings::fixed(Mode::Alone, 4_096) };
//! let mut cache = Cache::builder().rows(4).settings(settings).open()?;
//! cache.insert(100, 3_000)?;
//! cache.insert(200, 1_000)?;
//!
//! let explained = cache.explain(&Request::Insert { address: 300, size: 500 })?;
//! let told: Vec<String> = explained.orders.map(|(order, reason)| order.because(reason).to_string()).collect();
//! println!("{}", told[2]);
//! assert_eq!(told[2], "evicted 100 (3,000 bytes): room by bytes");
//! # assert_eq!(told[..2], ["wrote 100 (3,000 bytes): room by bytes", "wrote 200 (1,000 bytes): room by bytes"]);
//! assert_eq!(explained.change, None);
//! # Ok::<(), speldervacht::Refusal>(())
//! ```
//!
//! # A lead and its standby
//!
//! They have the same dirty records at the same sizes, and the same byte count, if both are opened
//! with the same threshold, both get every insert, changed release, resize and discard before the
//! next one, the standby takes each message before the next message or change, and no such change is
//! refused by only one of them. So the host asks both about a change, and does it at both if both
//! would accept it; a cache gets no other request between its yes and the doing. What helps where one
//! would refuse:
//!
//! - [`Refusal::NoRow`]: the lead flushes, and the standby takes the message. What became clean
//!   may be evicted.
//! - [`Refusal::NotInCache`], [`Refusal::Held`], [`Refusal::NotHeld`], [`Refusal::Pinned`]: the entry is
//!   protected, released or unpinned there.
//!
//! docs/RULES.md, "A change that one of them refuses", has an example and each number.
//!
//! ```
//! use speldervacht::{Cache, Message, Mode, Refusal, Request, Settings};
//!
//! let small = Cache::builder().rows(2).threshold(1_000).settings(Settings::fixed(Mode::Lead, 4_096));
//! let mut lead = small.mode(Mode::Lead).open()?;
//! let mut standby = small.mode(Mode::Standby).open()?;
//! for address in [100, 200] {
//!     lead.insert(address, 50)?;
//!     standby.insert(address, 50)?;
//! }
//!
//! // Both rows are dirty at both: neither has room for a third record, and neither is changed.
//! let insert = Request::Insert { address: 300, size: 50 };
//! assert_eq!(lead.ask(&insert), Err(Refusal::NoRow));
//! assert_eq!(standby.ask(&insert), Err(Refusal::NoRow));
//!
//! // The lead writes, and sends what it wrote as a message. Half of its bytes are no message.
//! let message = Message::of(lead.next_number(), lead.flush()?);
//! assert!(message.addresses().eq([100, 200]));
//! assert_eq!(standby.take(&message.as_bytes()[..20]), Err(Refusal::CutMessage));
//!
//! // The standby takes each message once, in the order of their numbers.
//! standby.take(message.as_bytes())?;
//! assert_eq!(standby.take(message.as_bytes()), Err(Refusal::WrongNumber { next: 2 }));
//!
//! // Now both say yes, so both accept it.
//! assert!(lead.ask(&insert).is_ok() && standby.ask(&insert).is_ok());
//! lead.step(&insert)?;
//! standby.step(&insert)?;
//! assert!(lead.dirty().eq(standby.dirty()));
//! # Ok::<(), Refusal>(())
//! ```
//!
//! [`Host`] has the same with the records in it.
//!
//! # Lent words
//!
//! The host lends a *table* that holds the cache from one request to the next, words for the *orders*
//! that a request gives, and bytes for the *message* that a lead writes or a standby takes. A table has no pointers: it may be
//! copied, moved or stored between requests, and nobody else may write to it.
//!
//! ```
//! use speldervacht::{open, order_words, step, table_words, Mode, Request, Settings, View, DEFAULT_THRESHOLD};
//!
//! let mut table = [0; table_words(4)];
//! let mut orders = [0; order_words(4)];
//! open(&mut table, 4, Mode::Alone, DEFAULT_THRESHOLD, &Settings::fixed(Mode::Alone, 4_096))?;
//! let given = step(&mut table, &mut orders, &Request::Insert { address: 100, size: 3_000 })?;
//! assert_eq!(given.len(), 0);
//! assert_eq!(View::of(&table)?.entries().len(), 1);
//! # Ok::<(), speldervacht::Refusal>(())
//! ```

#![no_std]
#![warn(clippy::pedantic)]
// The library is for 64-bit machines.
#![allow(clippy::cast_possible_truncation)]

#[cfg(feature = "alloc")]
extern crate alloc;
#[cfg(feature = "std")]
extern crate std;

mod batch;
#[cfg(feature = "alloc")]
mod cache;
#[cfg(feature = "alloc")]
mod change;
mod explain;
#[cfg(feature = "std")]
mod host;
mod layout;
#[cfg(feature = "alloc")]
mod message;
mod order;
mod plain;
pub mod raw;
mod refusal;
mod request;
mod settings;
mod view;
mod writer;

pub use batch::{batch, Answers};
#[cfg(feature = "alloc")]
pub use cache::{Access, Builder, Cache, Protected};
#[cfg(feature = "alloc")]
pub use change::Change;
pub use explain::{explain, Because, Bound, Cause, Explained, ExplainedOrders, MaximumChange, Reason};
#[cfg(feature = "std")]
pub use host::{Call, Host, HostError, NotBroughtIn, NotChanged, ReadGuard, Store, WriteGuard};
pub use layout::{order_words, reason_words, table_words};
#[cfg(feature = "alloc")]
pub use message::Message;
pub use order::{Order, OrderKind, Orders};
pub use plain::PlainRequest;
pub use refusal::{Hold, Refusal};
pub use request::Request;
pub use settings::{Decrease, Flash, Increase, Settings};
pub use view::{Entries, Entry, View};
pub use writer::{message_bytes, write_message};

/// The most rows of a table.
pub const MOST_ROWS: usize = 4_096;
/// The largest entry, in bytes.
pub const LARGEST_ENTRY: u64 = 134_217_728;
/// The dirty-byte threshold that fits most hosts, in bytes.
pub const DEFAULT_THRESHOLD: u64 = 262_144;
/// The largest dirty-byte threshold, in bytes.
pub const LARGEST_THRESHOLD: u64 = 1_073_741_824;
/// Where the byte count stops.
pub const COUNT_STOP: u64 = 1_099_511_627_776;
/// The most addresses of a message.
pub const MOST_LISTED: usize = 65_535;
/// The one number that is no address.
pub const NO_ADDRESS: u64 = u64::MAX;

/// What part a cache plays. It is fixed at opening.
#[derive(Clone, Copy, Debug, PartialEq, Eq)]
pub enum Mode {
    /// The one cache of its world: dirty entries are written as room is made.
    Alone,
    /// Writes only at a flush or sync, and tells the standby by a message.
    Lead,
    /// Never writes; takes the lead's messages.
    Standby,
}

/// The figures of a cache. All but `entries`, `due` and `next` are in bytes.
#[derive(Clone, Copy, Debug, PartialEq, Eq)]
pub struct Report {
    /// Held bytes: the sizes of all entries, held or not.
    pub held: u64,
    /// The sizes of the dirty ones.
    pub dirty: u64,
    pub entries: u64,
    /// What the cache tries to keep the held bytes within.
    pub maximum: u64,
    /// Minimum clean bytes: what is to be clean or unused.
    pub minimum_clean: u64,
    /// Missing clean bytes: what the clean entries of the recency list and the unused bytes lack of the
    /// minimum clean bytes, 0 if nothing. Unused bytes are the maximum less the held bytes, not below 0.
    /// Held and pinned entries are not in the list: so bytes can be missing with nothing dirty.
    pub missing_clean: u64,
    /// Bytes made dirty since the last list.
    pub count: u64,
    /// Whether the count exceeds the threshold, so that a list is due.
    pub due: bool,
    /// The number of the next message: the one that a lead sends, or the one that a standby takes. 0: no
    /// number is left.
    pub next: u64,
    /// The sizes of the entries with idle count 0, 1 and so on to 10.
    pub totals: [u64; 11],
}

/// Opens a fresh cache in the table, whatever its words were.
///
/// The table needs [`table_words`] of the rows, which are 1 to [`MOST_ROWS`]; words past these are
/// left alone. The threshold is the byte count above which a list is due.
///
/// # Errors
///
/// [`Refusal::BadTable`] for the row count or a short table, [`Refusal::BadThreshold`],
/// [`Refusal::BadSetting`].
pub fn open(table: &mut [u64], rows: usize, mode: Mode, threshold: u64, settings: &Settings) -> Result<(), Refusal> {
    let mode = match mode {
        Mode::Alone => 0,
        Mode::Lead => 1,
        Mode::Standby => 2,
    };
    // SAFETY: the slice is ours for the call.
    let answer = unsafe {
        raw::speldervacht_open(table.as_mut_ptr(), table.len(), rows as u64, mode, threshold, settings.to_raw())
    };
    match answer.number {
        0 => Ok(()),
        _ => Err(Refusal::of_opening(answer, threshold)),
    }
}

/// Does one request on the cache in the table, and gives its orders.
///
/// Insert, protect, release, flush, sync and configure can give orders and need [`order_words`] of
/// the rows; words past the last order are left alone.
///
/// # Errors
///
/// The refusal of the request. docs/RULES.md, "Refusals", has those of each request.
pub fn step<'o>(table: &mut [u64], orders: &'o mut [u64], request: &Request) -> Result<Orders<'o>, Refusal> {
    let message = request.message();
    // SAFETY: the slices are ours for the call, and borrowed apart.
    let answer = unsafe {
        raw::speldervacht_step(
            table.as_mut_ptr(),
            table.len(),
            orders.as_mut_ptr(),
            orders.len(),
            message.as_ptr(),
            message.len(),
            request.to_raw(),
        )
    };
    match answer.number {
        0 => Ok(Orders::new(&orders[..layout::ORDER_WORDS * answer.orders as usize])),
        number => {
            let verdict = raw::Verdict { number, field: answer.field };
            Err(Refusal::of_request(verdict, table, orders.len(), request))
        }
    }
}

/// Tells what [`step`] would answer to a request with so many order words, and changes nothing.
///
/// What it tells holds as long as the table gets no other request. It costs what judging the table
/// and testing the request cost, never more than the request itself.
///
/// # Errors
///
/// The refusal that the request would get.
pub fn ask(table: &[u64], order_words: usize, request: &Request) -> Result<(), Refusal> {
    let message = request.message();
    // SAFETY: the slices are borrowed for the call.
    let verdict = unsafe {
        raw::speldervacht_ask(
            table.as_ptr(),
            table.len(),
            order_words,
            message.as_ptr(),
            message.len(),
            request.to_raw(),
        )
    };
    match verdict.number {
        0 => Ok(()),
        _ => Err(Refusal::of_request(verdict, table, order_words, request)),
    }
}

/// Tells the figures of the cache in the table.
///
/// # Errors
///
/// [`Refusal::BadTable`] if the words picture no cache.
pub fn report(table: &[u64]) -> Result<Report, Refusal> {
    // SAFETY: the slice is borrowed for the call.
    let figures = unsafe { raw::speldervacht_report(table.as_ptr(), table.len()) };
    match figures.number {
        0 => Ok(Report {
            held: figures.held,
            dirty: figures.dirty,
            entries: figures.entries,
            maximum: figures.maximum,
            minimum_clean: figures.clean,
            missing_clean: figures.missing,
            count: figures.count,
            due: figures.due != 0,
            next: figures.next,
            totals: figures.totals,
        }),
        1 => Err(Refusal::BadTable),
        number => Err(Refusal::Other { number }),
    }
}
