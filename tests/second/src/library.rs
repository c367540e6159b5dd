//! The library through its C interface, on slices.

use crate::boundary::{Asked, SettingsWords};
use crate::model::{Done, Refusal, Report};
use speldervacht::raw;

#[derive(Clone, Copy, Debug, PartialEq, Eq)]
pub struct Answer {
    pub number: u64,
    pub field: u64,
    pub orders: u64,
}

/// A request's answer with the cause and the bound of a change of the maximum.
#[derive(Clone, Copy, Debug, PartialEq, Eq)]
pub struct Explanation {
    pub answer: Answer,
    pub cause: u64,
    pub bound: u64,
}

/// What a request is answered, but for its orders.
#[derive(Clone, Copy, Debug, PartialEq, Eq)]
pub struct Verdict {
    pub number: u64,
    pub field: u64,
}

/// What a batch came to.
#[derive(Clone, Copy, Debug, PartialEq, Eq)]
pub struct Batched {
    pub number: u64,
    pub done: u64,
    pub orders: u64,
}

/// What a writing came to.
#[derive(Clone, Copy, Debug, PartialEq, Eq)]
pub struct Written {
    pub number: u64,
    pub bytes: u64,
}

impl Explanation {
    /// As the model has it.
    pub fn of(outcome: &Result<Done, Refusal>) -> Explanation {
        let refused = |r: &Refusal| Answer { number: r.number, field: r.field, orders: 0 };
        let accepted = |done: &Done| Answer { number: 0, field: 0, orders: done.orders.len() as u64 };
        let [cause, bound] = outcome.as_ref().map_or([0, 0], Done::change_words);
        Explanation { answer: outcome.as_ref().map_or_else(refused, accepted), cause, bound }
    }
}

impl Answer {
    pub fn verdict(&self) -> Verdict {
        Verdict { number: self.number, field: self.field }
    }
}

impl std::fmt::Display for Verdict {
    fn fmt(&self, f: &mut std::fmt::Formatter) -> std::fmt::Result {
        match self.number {
            0 => write!(f, "accepted"),
            number => write!(f, "refused {number}"),
        }?;
        match self.field {
            0 => Ok(()),
            field => write!(f, ", field {field}"),
        }
    }
}

impl std::fmt::Display for Answer {
    fn fmt(&self, f: &mut std::fmt::Formatter) -> std::fmt::Result {
        write!(f, "{}", self.verdict())?;
        match (self.number, self.orders) {
            (0, 0) => write!(f, ", no orders"),
            (_, 0) => Ok(()),
            (_, orders) => write!(f, ", {orders} orders"),
        }
    }
}

impl std::fmt::Display for Explanation {
    fn fmt(&self, f: &mut std::fmt::Formatter) -> std::fmt::Result {
        write!(f, "{}; change of the maximum: cause {}, bound {}", self.answer, self.cause, self.bound)
    }
}

impl std::fmt::Display for Batched {
    fn fmt(&self, f: &mut std::fmt::Formatter) -> std::fmt::Result {
        write!(f, "number {}, {} requests answered, {} orders", self.number, self.done, self.orders)
    }
}

impl std::fmt::Display for Written {
    fn fmt(&self, f: &mut std::fmt::Formatter) -> std::fmt::Result {
        write!(f, "{}, {} bytes", Verdict { number: self.number, field: 0 }, self.bytes)
    }
}

fn answer_of(a: raw::Answer) -> Answer {
    Answer { number: a.number, field: a.field, orders: a.orders }
}

fn settings_of(w: &SettingsWords) -> raw::Settings {
    let float = |i: usize| f64::from_bits(w[i]);
    raw::Settings {
        evictions: w[0],
        preset: w[1],
        initial: w[2],
        clean: float(3),
        largest: w[4],
        smallest: w[5],
        epoch: w[6],
        increase_kind: w[7],
        increase_lower: float(8),
        increase_multiplier: float(9),
        increment_kind: w[10],
        increment_bytes: w[11],
        flash_kind: w[12],
        flash_multiple: float(13),
        flash_threshold: float(14),
        decrease_kind: w[15],
        decrease_upper: float(16),
        decrease_multiplier: float(17),
        decrease_epochs: w[18],
        decrease_reserve: float(19),
        decrement_kind: w[20],
        decrement_bytes: w[21],
    }
}

fn request_of(asked: &Asked) -> raw::Request {
    let Asked { kind, address, size, ref settings } = *asked;
    raw::Request { kind, address, size, settings: settings_of(settings) }
}

/// No words or bytes are lent as NULL.
fn start<T>(lent: &[T]) -> *const T {
    if lent.is_empty() {
        std::ptr::null()
    } else {
        lent.as_ptr()
    }
}

fn start_mut<T>(lent: &mut [T]) -> *mut T {
    if lent.is_empty() {
        std::ptr::null_mut()
    } else {
        lent.as_mut_ptr()
    }
}

pub fn open(table: &mut [u64], rows: u64, mode: u64, threshold: u64, settings: &SettingsWords) -> Answer {
    let length = table.len();
    // SAFETY: the slice is ours for the call.
    answer_of(unsafe { raw::speldervacht_open(start_mut(table), length, rows, mode, threshold, settings_of(settings)) })
}

pub fn step(table: &mut [u64], orders: &mut [u64], message: &[u8], asked: &Asked) -> Answer {
    let (table_words, order_words) = (table.len(), orders.len());
    // SAFETY: the slices are ours for the call, and borrowed apart.
    answer_of(unsafe {
        raw::speldervacht_step(
            start_mut(table),
            table_words,
            start_mut(orders),
            order_words,
            start(message),
            message.len(),
            request_of(asked),
        )
    })
}

pub fn explain(
    table: &mut [u64],
    orders: &mut [u64],
    reasons: &mut [u64],
    message: &[u8],
    asked: &Asked,
) -> Explanation {
    let (table_words, order_words, reason_words) = (table.len(), orders.len(), reasons.len());
    // SAFETY: the slices are ours for the call, and borrowed apart.
    let raw::Explanation { number, field, orders, cause, bound } = unsafe {
        raw::speldervacht_explain(
            start_mut(table),
            table_words,
            start_mut(orders),
            order_words,
            start_mut(reasons),
            reason_words,
            start(message),
            message.len(),
            request_of(asked),
        )
    };
    Explanation { answer: Answer { number, field, orders }, cause, bound }
}

pub fn batch(table: &mut [u64], orders: &mut [u64], requests: &[u64], answers: &mut [u64]) -> Batched {
    let (table_words, order_words, answer_words) = (table.len(), orders.len(), answers.len());
    // SAFETY: the slices are ours for the call, and borrowed apart.
    let b = unsafe {
        raw::speldervacht_batch(
            start_mut(table),
            table_words,
            start_mut(orders),
            order_words,
            start(requests),
            requests.len(),
            start_mut(answers),
            answer_words,
        )
    };
    Batched { number: b.number, done: b.done, orders: b.orders }
}

pub fn ask(table: &[u64], order_words: usize, message: &[u8], asked: &Asked) -> Verdict {
    // SAFETY: the slices are borrowed for the call.
    let v = unsafe {
        raw::speldervacht_ask(start(table), table.len(), order_words, start(message), message.len(), request_of(asked))
    };
    Verdict { number: v.number, field: v.field }
}

/// The number and the figures, which are all 0 where the number is not.
pub fn report(table: &[u64]) -> (u64, Report, u64) {
    // SAFETY: the slice is borrowed for the call.
    let f = unsafe { raw::speldervacht_report(start(table), table.len()) };
    let report = Report {
        held: f.held,
        dirty: f.dirty,
        entries: f.entries,
        maximum: f.maximum,
        minimum_clean: f.clean,
        missing: f.missing,
        count: f.count,
        due: f.due == 1,
        next: f.next,
        totals: f.totals,
    };
    (f.number, report, f.due)
}

pub fn write_message(bytes: &mut [u8], number: u64, list: &[u64]) -> Written {
    let byte_count = bytes.len();
    // SAFETY: the slices are ours for the call, and borrowed apart.
    let w = unsafe { raw::speldervacht_write_message(start_mut(bytes), byte_count, number, start(list), list.len()) };
    Written { number: w.number, bytes: w.bytes }
}
