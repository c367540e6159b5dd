//! Compares long random runs of the library with the model, then damaged messages and the writer.
//!
//!     second [SEED [REQUESTS]]
//!
//! A difference is printed with the shortest run found that shows it, and ends the program with 1. So
//! does a place that no run reached, unless fewer requests are asked for than by default. With fewer or
//! more requests, messages and writings are fewer or more likewise.

use second::cache::Difference;
use second::damaged;
use second::messages::Message;
use second::pair::{self, Aside, Pair};
use second::random::Random;
use second::run::{self, Event, Run};
use second::shrink::{shrink, shrink_message};
use second::tally::Tally;
use second::writer::{self, Writing};
use std::process::ExitCode;
use std::time::Instant;

const SEED: u64 = 1;
const REQUESTS: u64 = 2_000_000;
/// Of these, one of so many is asked in a large table, after the small ones.
const LARGE_SHARE: u64 = 400;
/// Damaged messages, lists written, and messages read back, for as many requests.
const MESSAGES: u64 = 12_000_000;
const WRITINGS: u64 = 20_000;
const READ_BACK: u64 = 2_000;

/// The run, without what its difference does not need.
fn shortest_run(mut run: Run, first: Difference) -> (Run, Difference) {
    let with = |run: &Run, events: &[Event]| Run { events: events.to_vec(), ..run.clone() };
    let base = run.clone();
    run.events = shrink(run.events, |events| with(&base, events).replay().is_some());
    for i in 0..run.events.len() {
        let base = run.clone();
        let with = |event: Event| {
            let mut run = base.clone();
            run.events[i] = event;
            run
        };
        let shows = |event: Event| with(event).replay().is_some();
        match run.events[i].clone() {
            Event::Put { words } => {
                let put = |words: &[(usize, u64)]| Event::Put { words: words.to_vec() };
                run = with(put(&shrink(words, |words| shows(put(words)))));
            }
            Event::Batch { lent, order_lent, answer_lent, requests, part } => {
                let batch = |requests: &[[u64; 3]]| Event::Batch {
                    lent,
                    order_lent,
                    answer_lent,
                    requests: requests.to_vec(),
                    part: part.clone(),
                };
                run = with(batch(&shrink(requests, |requests| shows(batch(requests)))));
            }
            Event::Step { lent, order_lent, reason_lent, message, asked } => {
                let step = |bytes: &[u8]| {
                    let message = Message { way: None, bytes: bytes.to_vec() };
                    Event::Step { lent, order_lent, reason_lent, message, asked }
                };
                run = with(step(&shrink_message(message.bytes, |bytes| shows(step(bytes)))));
            }
            _ => {}
        }
    }
    let difference = match run.replay() {
        Some((taken, difference)) => {
            run.events.truncate(taken);
            difference
        }
        None => first,
    };
    (run, difference)
}

fn shortest_pair(mut pair: Pair, first: Difference) -> (Pair, Difference) {
    let base = pair.clone();
    pair.events = shrink(pair.events, |events| Pair { events: events.to_vec(), ..base.clone() }.replay().is_some());
    for i in 0..pair.events.len() {
        if let Some(between) = pair.events[i].between().cloned() {
            let base = pair.clone();
            let with = |asides: &[Aside]| {
                let mut pair = base.clone();
                *pair.events[i].between().unwrap() = asides.to_vec();
                pair
            };
            pair = with(&shrink(between, |asides| with(asides).replay().is_some()));
        }
    }
    let difference = pair.replay().map_or(first, |(_, difference)| difference);
    (pair, difference)
}

/// A difference with the shortest that was found to show it.
struct Found {
    title: String,
    shown: String,
    difference: Difference,
}

fn found_run(what: String, (run, first): (Run, Difference)) -> Found {
    println!("a difference: {}", first.what);
    let (run, difference) = shortest_run(run, first);
    Found { title: title(&what, run.events.len()), shown: run.to_string(), difference }
}

fn found_pair(what: String, (pair, first): (Pair, Difference)) -> Found {
    println!("a difference: {}", first.what);
    let (pair, difference) = shortest_pair(pair, first);
    Found { title: title(&what, pair.events.len()), shown: pair.to_string(), difference }
}

fn found_writing((writing, first): (Writing, Difference)) -> Found {
    println!("a difference: {}", first.what);
    let writing = writing.shortest();
    let difference = writing.compare().err().unwrap_or(first);
    Found { title: "a list is written otherwise".to_string(), shown: writing.to_string(), difference }
}

fn title(what: &str, events: usize) -> String {
    format!("{what} differs; the shortest run found has {events} events")
}

impl Found {
    fn print(&self) {
        println!("\n{}:\n\n{}", self.title, self.shown);
        println!("{}", self.difference.what);
        println!("  library: {}", self.difference.library);
        println!("  model:   {}", self.difference.model);
    }
}

/// Runs of one cache and of pairs, until so many requests were made.
fn play_runs(r: &mut Random, requests: u64, tally: &mut Tally) -> Result<(), Found> {
    while tally.requests < requests {
        let number = tally.runs;
        let run_seed = r.word();
        let large = tally.requests >= requests - requests / LARGE_SHARE;
        let what = |tally: &Tally| format!("run {number}, after {} requests,", tally.requests);
        if !large && r.chance(30) {
            pair::play(run_seed, tally).map_err(|differs| found_pair(what(tally), *differs))?;
        } else {
            run::play(run_seed, large, tally).map_err(|differs| found_run(what(tally), *differs))?;
        }
    }
    println!(
        "{} requests in {} runs, of them {} requests in {} runs with 4,096 rows",
        tally.requests, tally.runs, tally.largest_requests, tally.largest_runs,
    );
    Ok(())
}

/// Damaged messages, lists written, and messages read back, as many as befit the requests.
fn play_messages(r: &mut Random, requests: u64, tally: &mut Tally) -> Result<(), Found> {
    let many = |of_all: u64| (of_all as f64 * (requests as f64 / REQUESTS as f64)) as u64;
    damaged::play(r.word(), many(MESSAGES), tally).map_err(|differs| found_run("a message".to_string(), *differs))?;
    println!("{} messages at standbys with few rows", tally.offered);
    writer::play(r.word(), many(WRITINGS), tally).map_err(|differs| found_writing(*differs))?;
    writer::play_back(r.word(), many(READ_BACK), tally)
        .map_err(|differs| found_run("what was written".to_string(), *differs))
}

fn argument(at: usize, default: u64) -> Result<u64, String> {
    match std::env::args().nth(at) {
        None => Ok(default),
        Some(text) => text.parse().map_err(|_| format!("{text} is no number; usage: second [SEED [REQUESTS]]")),
    }
}

fn main() -> ExitCode {
    let (seed, requests) = match (argument(1, SEED), argument(2, REQUESTS)) {
        (Ok(seed), Ok(requests)) => (seed, requests),
        (Err(message), _) | (_, Err(message)) => {
            eprintln!("{message}");
            return ExitCode::from(2);
        }
    };
    println!("seed {seed}, {requests} requests");
    let start = Instant::now();
    let mut r = Random::new(seed);
    let mut tally = Tally::default();
    let outcome = play_runs(&mut r, requests, &mut tally).and_then(|()| play_messages(&mut r, requests, &mut tally));
    if let Err(found) = outcome {
        found.print();
        println!("\nto see it again: second {seed} {requests}");
        return ExitCode::FAILURE;
    }
    println!("{:.1} s", start.elapsed().as_secs_f64());
    tally.print();
    println!("\nno difference");
    let missed = tally.never_reached();
    if requests >= REQUESTS && !missed.is_empty() {
        println!("but the runs never reached: {}", missed.join("; "));
        return ExitCode::FAILURE;
    }
    ExitCode::SUCCESS
}
