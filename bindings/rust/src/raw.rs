//! The C interface, as speldervacht.h declares it. The functions of the crate's root are safe; use
//! these only where numbers outside the enums are wanted.

/// The settings: flags are on unless 0; kinds are numbers; the other words count where their kind
/// has them.
#[repr(C)]
#[derive(Clone, Copy, Debug, Default, PartialEq)]
pub struct Settings {
    pub evictions: u64,
    pub preset: u64,
    pub initial: u64,
    pub clean: f64,
    pub largest: u64,
    pub smallest: u64,
    pub epoch: u64,
    pub increase_kind: u64,
    pub increase_lower: f64,
    pub increase_multiplier: f64,
    pub increment_kind: u64,
    pub increment_bytes: u64,
    pub flash_kind: u64,
    pub flash_multiple: f64,
    pub flash_threshold: f64,
    pub decrease_kind: u64,
    pub decrease_upper: f64,
    pub decrease_multiplier: f64,
    pub decrease_epochs: u64,
    pub decrease_reserve: f64,
    pub decrement_kind: u64,
    pub decrement_bytes: u64,
}

/// A request: a kind from 1 to 13, and what the kind reads.
#[repr(C)]
#[derive(Clone, Copy, Debug, Default, PartialEq)]
pub struct Request {
    pub kind: u64,
    pub address: u64,
    pub size: u64,
    pub settings: Settings,
}

/// An answer: 0 or a refusal's number, the bad field with 12, and how many orders were given.
#[repr(C)]
#[derive(Clone, Copy, Debug, Default, PartialEq, Eq)]
pub struct Answer {
    pub number: u64,
    pub field: u64,
    pub orders: u64,
}

/// The answer to a request that is explained: as [`Answer`], and the cause and the bound of a change of the
/// maximum.
#[repr(C)]
#[derive(Clone, Copy, Debug, Default, PartialEq, Eq)]
pub struct Explanation {
    pub number: u64,
    pub field: u64,
    pub orders: u64,
    pub cause: u64,
    pub bound: u64,
}

/// What a request would be answered: 0 or a refusal's number, and the bad field with 12.
#[repr(C)]
#[derive(Clone, Copy, Debug, Default, PartialEq, Eq)]
pub struct Verdict {
    pub number: u64,
    pub field: u64,
}

/// What a batch came to: 0, 1 or 2, how many requests were answered, and how many orders they gave.
#[repr(C)]
#[derive(Clone, Copy, Debug, Default, PartialEq, Eq)]
pub struct Batched {
    pub number: u64,
    pub done: u64,
    pub orders: u64,
}

/// What a writing came to: 0 or a refusal's number, and how many bytes were written.
#[repr(C)]
#[derive(Clone, Copy, Debug, Default, PartialEq, Eq)]
pub struct Written {
    pub number: u64,
    pub bytes: u64,
}

/// The figures of a cache; with number 1 all else is 0.
#[repr(C)]
#[derive(Clone, Copy, Debug, Default, PartialEq, Eq)]
pub struct Figures {
    pub number: u64,
    pub held: u64,
    pub dirty: u64,
    pub entries: u64,
    pub maximum: u64,
    pub clean: u64,
    pub missing: u64,
    pub count: u64,
    pub due: u64,
    pub next: u64,
    pub totals: [u64; 11],
}

const _: () = assert!(size_of::<Settings>() == 176);
const _: () = assert!(size_of::<Request>() == 200);
const _: () = assert!(size_of::<Answer>() == 24);
const _: () = assert!(size_of::<Explanation>() == 40);
const _: () = assert!(size_of::<Verdict>() == 16);
const _: () = assert!(size_of::<Batched>() == 24);
const _: () = assert!(size_of::<Written>() == 16);
const _: () = assert!(size_of::<Figures>() == 168);

extern "C" {
    /// Opens a fresh cache in the table.
    ///
    /// # Safety
    /// `table` has `table_words` words that nothing else touches during the call.
    pub fn speldervacht_open(
        table: *mut u64,
        table_words: usize,
        rows: u64,
        mode: u64,
        threshold: u64,
        settings: Settings,
    ) -> Answer;

    /// Does one request. The message is read by take alone.
    ///
    /// # Safety
    /// Each pointer has as many words or bytes as its length says, nothing else touches them during
    /// the call, and no two of the three overlap.
    pub fn speldervacht_step(
        table: *mut u64,
        table_words: usize,
        orders: *mut u64,
        order_words: usize,
        message: *const u8,
        message_bytes: usize,
        request: Request,
    ) -> Answer;

    /// Does one request as `speldervacht_step` does it, and writes the reason of each order.
    ///
    /// # Safety
    /// Each pointer has as many words or bytes as its length says, nothing else touches them during
    /// the call, and no two of the four overlap.
    pub fn speldervacht_explain(
        table: *mut u64,
        table_words: usize,
        orders: *mut u64,
        order_words: usize,
        reasons: *mut u64,
        reason_words: usize,
        message: *const u8,
        message_bytes: usize,
        request: Request,
    ) -> Explanation;

    /// Does many requests, of three words each, and answers each with two.
    ///
    /// # Safety
    /// Each pointer has as many words as its length says, nothing else touches them during the
    /// call, and no two of the four overlap.
    pub fn speldervacht_batch(
        table: *mut u64,
        table_words: usize,
        orders: *mut u64,
        order_words: usize,
        requests: *const u64,
        request_words: usize,
        answers: *mut u64,
        answer_words: usize,
    ) -> Batched;

    /// Tells what `speldervacht_step` would answer to a request, with so many order words lent.
    ///
    /// # Safety
    /// `table` has as many words and `message` as many bytes as their lengths say, which nothing
    /// writes during the call.
    pub fn speldervacht_ask(
        table: *const u64,
        table_words: usize,
        order_words: usize,
        message: *const u8,
        message_bytes: usize,
        request: Request,
    ) -> Verdict;

    /// Writes the message that has the number and the list's addresses.
    ///
    /// # Safety
    /// `bytes` has as many bytes and `list` as many words as their lengths say, nothing else touches
    /// them during the call, and they do not overlap.
    pub fn speldervacht_write_message(
        bytes: *mut u8,
        byte_count: usize,
        number: u64,
        list: *const u64,
        list_words: usize,
    ) -> Written;

    /// Tells the figures of the cache in the table.
    ///
    /// # Safety
    /// `table` has `table_words` words that nothing writes during the call.
    pub fn speldervacht_report(table: *const u64, table_words: usize) -> Figures;
}
