//! Millions of damaged messages at standbys with few rows, each offered to the same state; and messages
//! of about as many addresses as a cache can have.

use crate::boundary::TAKE;
use crate::cache::Difference;
use crate::library::{self, Answer, Verdict};
use crate::message::{self, MOST_LISTED};
use crate::messages::{self, Addressee, Message, Way, WAYS};
use crate::model::{Mode, Model, Request, ALL_ONES, ROW_LIMIT};
use crate::random::Random;
use crate::requests::{self, Scale};
use crate::run::Run;
use crate::table;
use crate::tally::Tally;
use crate::writer::standby_with;

/// How many messages each state is offered.
const EACH_STATE: u64 = 5_000;
/// One of so many messages is asked about too.
const ASKED_SHARE: u64 = 4;
/// Where the ways that damage a message begin among all.
const DAMAGES: usize = Way::Cut as usize;
/// The most entries that a cache can have.
const LIMIT: usize = ROW_LIMIT as usize;

type Outcome = Result<(), Box<(Run, Difference)>>;

/// A standby to which messages are offered. What is taken is undone.
struct Standby {
    state: Model,
    words: Vec<u64>,
    table: Vec<u64>,
    offered: u64,
}

impl Standby {
    fn new(state: Model) -> Standby {
        let words = table::picture(&state);
        Standby { state, table: words.clone(), words, offered: 0 }
    }

    fn words_after(&self, message: &[u8]) -> Vec<u64> {
        let mut m = self.state.clone();
        m.step(&Request::Take, message, 0).expect("a message that is taken");
        table::picture(&m)
    }

    /// The answer's number, if the library does with the message what the model does.
    fn compare(&mut self, message: &[u8]) -> Option<u64> {
        let number = self.state.refusal(&Request::Take, message, 0).map_or(0, |r| r.number);
        if self.offered.is_multiple_of(ASKED_SHARE)
            && library::ask(&self.table, 0, message, &TAKE) != (Verdict { number, field: 0 })
        {
            return None;
        }
        self.offered += 1;
        let answer = library::step(&mut self.table, &mut [], message, &TAKE);
        let mut same = answer == Answer { number, field: 0, orders: 0 };
        if number == 0 {
            same &= self.table == self.words_after(message);
            self.table.copy_from_slice(&self.words);
        } else {
            same &= self.table == self.words;
        }
        same.then_some(number)
    }

    fn offer(&mut self, message: Message, tally: &mut Tally) -> Outcome {
        let Some(number) = self.compare(&message.bytes) else {
            return Err(Box::new(self.difference(message)));
        };
        tally.offered += 1;
        if let Some(way) = message.way {
            tally.message(way, number);
        }
        Ok(())
    }

    /// The message alone, offered to the same state.
    fn difference(&self, message: Message) -> (Run, Difference) {
        let run = Run::of_messages(&self.state, vec![message]);
        let unclear = || Difference {
            what: "a message at a standby".to_string(),
            library: "another answer or other words".to_string(),
            model: "the same when offered alone".to_string(),
        };
        let difference = run.replay().map_or_else(unclear, |(_, difference)| difference);
        (run, difference)
    }
}

/// Every beginning of a message, every byte with every other value, and every byte added; of short ones
/// also every byte changed in every beginning.
fn every_damage(addresses: &[u64], next: u64, tally: &mut Tally) -> Outcome {
    let mut standby = Standby::new(standby_with(addresses, next));
    let right = message::write(next, addresses);
    let mut offer = |way, bytes: &[u8]| standby.offer(Message { way: Some(way), bytes: bytes.to_vec() }, tally);
    for length in 0..right.len() {
        offer(Way::Cut, &right[..length])?;
    }
    for byte in 0..=u8::MAX {
        offer(Way::BytesAdded, &[&right[..], &[byte]].concat())?;
    }
    let mut changed = right.clone();
    for place in 0..right.len() {
        for byte in (0..=u8::MAX).filter(|byte| *byte != right[place]) {
            changed[place] = byte;
            offer(Way::ByteChanged, &changed)?;
            let lengths = if addresses.len() < 2 { place + 1..right.len() } else { 0..0 };
            for length in lengths {
                offer(Way::TwoDamages, &changed[..length])?;
            }
        }
        changed[place] = right[place];
    }
    Ok(())
}

/// Random messages, nearly all damaged, at one state.
fn random_damage(r: &mut Random, many: u64, tally: &mut Tally) -> Outcome {
    let (rows, scale) = (r.between(1, 6) as usize, Scale::any(r));
    let mut standby = Standby::new(requests::state(r, rows, Mode::Standby, scale));
    let to = Addressee::of(&standby.state);
    for _ in 0..many {
        let way = match r.below(20) {
            0 => r.pick(&[Way::Right, Way::BadAddress, Way::AllOnes, Way::OtherNumber]),
            _ => WAYS[r.between(DAMAGES as u64, WAYS.len() as u64 - 1) as usize].0,
        };
        let message = messages::made(r, &to, way);
        standby.offer(message, tally)?;
    }
    Ok(())
}

/// Lists above 4,096 addresses, and above them with all ones at places on both sides of the 4,096th.
fn lists_above_limit(addresses: &[u64]) -> Vec<Vec<u64>> {
    let mut lists = Vec::new();
    for count in [LIMIT + 1, MOST_LISTED] {
        lists.push(addresses[..count].to_vec());
        for place in [0, LIMIT - 1, LIMIT, count - 1] {
            let mut list = addresses[..count].to_vec();
            list[place] = ALL_ONES;
            lists.push(list);
        }
    }
    lists.push([&addresses[..LIMIT], &addresses[..1]].concat());
    lists
}

/// Messages about the limit, for a standby that has the first 4,096 addresses dirty. It takes the last.
fn messages_at_limit(addresses: &[u64], next: u64) -> Vec<Vec<u8>> {
    let lists = lists_above_limit(addresses);
    let mut messages: Vec<Vec<u8>> = lists.iter().map(|list| message::write(next, list)).collect();
    let right = messages[0].clone();
    messages.push(message::write(next.wrapping_add(1), &lists[0]));
    messages.push(right[..right.len() - 1].to_vec());
    messages.push([&right[..], &[0]].concat());
    messages.push(message::write(next, &addresses[..LIMIT]));
    messages
}

fn at_limit(r: &mut Random, tally: &mut Tally) -> Outcome {
    let next = messages::some_next(r).max(1);
    let mut addresses: Vec<u64> = (0..MOST_LISTED as u64).map(|i| 7 * i).collect();
    r.shuffle(&mut addresses);
    let offered = messages_at_limit(&addresses, next).into_iter();
    let offered = offered.map(|bytes| Message { way: Some(Way::Long), bytes }).collect();
    let run = Run::of_messages(&standby_with(&addresses[..LIMIT], next), offered);
    match run.happen_all(tally) {
        Ok(_) => Ok(()),
        Err((_, difference)) => Err(Box::new((run, difference))),
    }
}

/// Offers so many messages; one that shows a difference comes back with it.
pub fn play(seed: u64, many: u64, tally: &mut Tally) -> Outcome {
    let mut r = Random::new(seed);
    at_limit(&mut r, tally)?;
    for count in 0..=3 {
        for next in [1, 0x0102_0304_0506_0708] {
            every_damage(&[100, 0x0203_0809_0003_0008, 3][..count], next, tally)?;
        }
    }
    while tally.offered < many {
        random_damage(&mut r, EACH_STATE.min(many - tally.offered), tally)?;
    }
    Ok(())
}
