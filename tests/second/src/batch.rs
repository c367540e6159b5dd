//! Many requests in one call: by the rules on the model, and by single steps of the library.

use crate::boundary::{request_of, Asked};
use crate::library::{self, Batched};
use crate::model::{Model, Order, Refusal, Request, NONE_LEFT};
use std::ops::RangeInclusive;

/// What a batch does: insert to sync.
pub const KINDS: RangeInclusive<u64> = 1..=11;
pub const REQUEST_WORDS: usize = 3;
pub const ANSWER_WORDS: usize = 2;
const ORDER_WORDS: usize = 3;

const ALL_ANSWERED: u64 = 0;
const NO_CACHE: u64 = 1;
const FEW_WORDS: u64 = 2;
const NOT_IN_A_BATCH: u64 = 5;

/// A request of three words has no settings and no message.
fn asked_of(words: &[u64]) -> Asked {
    Asked { kind: words[0], address: words[1], size: words[2], settings: [0; 22] }
}

/// The request that three words stand for, in a batch.
fn plain_of(words: &[u64]) -> Request {
    if KINDS.contains(&words[0]) {
        request_of(&asked_of(words))
    } else {
        Request::Unknown
    }
}

/// What a batch comes to.
#[derive(Default)]
pub struct Came {
    pub number: u64,
    /// For each request that was answered, its number and how many orders it gave.
    pub answers: Vec<[u64; ANSWER_WORDS]>,
    pub orders: Vec<Order>,
    /// Whether one of its requests used the last number.
    pub used_last: bool,
}

impl Came {
    /// Of a table that pictures no cache.
    pub fn to_nothing() -> Came {
        Came { number: NO_CACHE, ..Came::default() }
    }

    pub fn batched(&self) -> Batched {
        Batched { number: self.number, done: self.answers.len() as u64, orders: self.orders.len() as u64 }
    }

    /// Whether it stopped because no two answer words were left.
    pub fn stopped_for_answers(&self, answer_words: usize) -> bool {
        self.number == FEW_WORDS && self.answers.len() == answer_words / ANSWER_WORDS
    }
}

/// The requests in turn, with so many words for all orders and all answers.
pub fn on_model(m: &mut Model, requests: &[u64], order_words: usize, answer_words: usize) -> Came {
    let mut came = Came { number: ALL_ANSWERED, ..Came::default() };
    for words in requests.chunks_exact(REQUEST_WORDS) {
        let answer_words_left = answer_words - ANSWER_WORDS * came.answers.len();
        let order_words_left = order_words - ORDER_WORDS * came.orders.len();
        if answer_words_left < ANSWER_WORDS {
            came.number = FEW_WORDS;
            break;
        }
        let number_before = m.next;
        match m.step(&plain_of(words), &[], order_words_left) {
            Err(Refusal { number: FEW_WORDS, .. }) => {
                came.number = FEW_WORDS;
                break;
            }
            Err(Refusal { number, .. }) => came.answers.push([number, 0]),
            Ok(orders) => {
                came.used_last |= number_before != NONE_LEFT && m.next == NONE_LEFT;
                came.answers.push([0, orders.len() as u64]);
                came.orders.extend(orders);
            }
        }
    }
    came
}

/// The same by single steps of the library, on a table that pictures a cache.
pub fn by_steps(table: &mut [u64], orders: &mut [u64], requests: &[u64], answers: &mut [u64]) -> Batched {
    let mut batched = Batched { number: ALL_ANSWERED, done: 0, orders: 0 };
    let mut answers = answers.chunks_exact_mut(ANSWER_WORDS);
    for words in requests.chunks_exact(REQUEST_WORDS) {
        let Some(answer_words) = answers.next() else {
            return Batched { number: FEW_WORDS, ..batched };
        };
        let left = &mut orders[ORDER_WORDS * batched.orders as usize..];
        let (number, given) = match plain_of(words) {
            Request::Unknown => (NOT_IN_A_BATCH, 0),
            _ => {
                let answer = library::step(table, left, &[], &asked_of(words));
                (answer.number, answer.orders)
            }
        };
        if number == FEW_WORDS {
            return Batched { number, ..batched };
        }
        answer_words.copy_from_slice(&[number, given]);
        batched.done += 1;
        batched.orders += given;
    }
    batched
}
