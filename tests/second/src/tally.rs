//! What the runs did, counted.

use crate::boundary::KINDS;
use crate::explained::Explained;
use crate::library::Answer;
use crate::messages::{Way, WAYS};
use crate::reached::{
    AskReached, BatchReached, MessageReached, MissingReached, PairReached, Reached, TableReached, WriterReached,
};

/// How many answers there are: 0 is accepted, the others are refusals.
const NUMBERS: usize = 17;

#[derive(Clone, Default)]
pub struct Tally {
    pub runs: u64,
    pub largest_runs: u64,
    pub pair_runs: u64,
    pub pair_runs_by_asking: u64,
    pub pair_runs_to_last: u64,
    /// Openings, steps and requests that batches answered.
    pub requests: u64,
    pub largest_requests: u64,
    pub reports: u64,
    pub orders: u64,
    /// By kind (14 is opening) and by the answer's number.
    answers: Answers,
    /// Of these, what explaining answered.
    explained_answers: Answers,
    /// By the field that came with 12.
    fields: [u64; 13],
    /// By the way that a taken message was made, and by the answer's number.
    ways: [[u64; NUMBERS]; WAYS.len()],
    pub damaged_bad: u64,
    pub damaged_good: u64,
    pub states: u64,
    /// Messages offered one by one to standbys with few rows.
    pub offered: u64,
    pub longest_list: u64,
    pub reached: Reached,
    pub tables: TableReached,
    pub missing: MissingReached,
    pub asked: AskReached,
    pub explained: Explained,
    pub batches: BatchReached,
    pub pairs: PairReached,
    pub messages: MessageReached,
    pub writer: WriterReached,
}

/// How often each answer was given, by kind.
type Answers = [[u64; NUMBERS]; OPENING + 1];

pub const OPENING: usize = 14;
/// The answer of a lead and of a cache alone to every message.
const NOT_A_STANDBY: u64 = 5;

/// The answers that each kind of request can have, by kind.
const CAN_HAVE: [&[usize]; OPENING + 1] = [
    &[1, 5],
    &[0, 1, 2, 3, 4, 7, 11],
    &[0, 1, 2, 3, 4, 8, 11],
    &[0, 1, 2, 3, 4, 8, 11],
    &[0, 1, 2, 3, 6, 9],
    &[0, 1, 2, 3, 4, 6, 8, 9],
    &[0, 1, 3, 6, 9, 10],
    &[0, 1, 3, 6, 10],
    &[0, 1, 3, 4, 6, 8, 9],
    &[0, 1, 3, 8, 10],
    &[0, 1, 2, 5, 8, 16],
    &[0, 1, 2, 5, 16],
    &[0, 1, 3, 5, 13, 14, 15, 16],
    &[0, 1, 2, 12],
    &[0, 1, 5, 12],
];

fn name_of_kind(kind: usize) -> &'static str {
    if kind == OPENING {
        "open"
    } else {
        KINDS[kind]
    }
}

/// A table of how often each answer was given.
fn print_answers<'a>(what: &str, rows: impl Iterator<Item = (&'a str, &'a [u64; NUMBERS])>) {
    print!("\n{what} (0 is accepted)\n{:32}", "");
    for number in 0..NUMBERS {
        print!("{number:>8}");
    }
    println!();
    for (name, by_number) in rows {
        print!("{name:32}");
        for times in by_number {
            match times {
                0 => print!("{:>8}", "."),
                n => print!("{n:>8}"),
            }
        }
        println!();
    }
}

fn by_kind(answers: &Answers) -> impl Iterator<Item = (&str, &[u64; NUMBERS])> {
    answers.iter().enumerate().map(|(kind, answers)| (name_of_kind(kind), answers))
}

/// The answers that the first kinds can have and were never given.
fn never_given<'a>(how: &'a str, answers: &'a Answers, kinds: usize) -> impl Iterator<Item = String> + 'a {
    let kinds = CAN_HAVE.iter().zip(answers).enumerate().take(kinds);
    kinds.flat_map(move |(kind, (numbers, answers))| {
        let never = numbers.iter().filter(|number| answers[**number] == 0);
        never.map(move |number| format!("{}{how}: answer {number}", name_of_kind(kind)))
    })
}

impl Tally {
    pub fn answer(&mut self, kind: usize, answer: &Answer) {
        self.requests += 1;
        self.orders += answer.orders;
        self.answers[kind][answer.number as usize] += 1;
        if answer.number == 12 {
            self.fields[answer.field as usize] += 1;
        }
    }

    /// An answer that explaining gave; it is among the others too.
    pub fn explained_answer(&mut self, kind: usize, answer: &Answer) {
        self.explained_answers[kind][answer.number as usize] += 1;
    }

    /// The answer to a message that was made in this way.
    pub fn message(&mut self, way: Way, number: u64) {
        self.ways[way as usize][number as usize] += 1;
    }

    /// All requests but openings and those in batches.
    fn steps(&self) -> u64 {
        self.answers[..OPENING].iter().flatten().sum()
    }

    fn print_rules(&self) {
        println!("rules, and of these by explained requests");
        for ((name, times), (_, explained)) in self.reached.iter().zip(self.explained.rules.iter()) {
            println!("  {name:44}{times:>10}{explained:>10}");
        }
    }

    pub fn print(&self) {
        print_answers("answers by kind of request", by_kind(&self.answers));
        print_answers("of these, by explaining", by_kind(&self.explained_answers).take(OPENING));
        let by_way = WAYS.iter().zip(&self.ways).map(|((_, name, ..), answers)| (*name, answers));
        print_answers("answers to messages by how they were made", by_way);
        print!("\nbad settings by field:");
        for (field, times) in self.fields.iter().enumerate().skip(1) {
            print!(" {field}: {times}");
        }
        let line = |(name, times)| println!("  {name:44}{times:>10}");
        println!("\n");
        self.print_rules();
        println!("\ntables");
        line(("any allowed state put into the table", self.states));
        line(("damaged, and still a cache", self.damaged_good));
        line(("damaged, and no cache", self.damaged_bad));
        self.tables.iter().for_each(line);
        line(("orders", self.orders));
        println!("\nreports");
        line(("reports", self.reports));
        self.missing.iter().for_each(line);
        println!("\nmessages and numbers");
        line(("messages offered to standbys with few rows", self.offered));
        self.messages.iter().for_each(line);
        println!("\nthe writer");
        self.writer.iter().for_each(line);
        println!("\nasking");
        line(("requests asked about and then done", self.steps()));
        self.asked.iter().for_each(line);
        println!("\nexplaining");
        self.explained.words.iter().for_each(line);
        self.explained.iter().for_each(|(name, times)| println!("  {name:44}{times:>10}"));
        println!("\nbatches");
        self.batches.iter().for_each(line);
        println!("\nlead and standby");
        line(("runs", self.pair_runs));
        line(("  by asking", self.pair_runs_by_asking));
        line(("  with few numbers left", self.pair_runs_to_last));
        line(("longest list", self.longest_list));
        self.pairs.iter().for_each(line);
    }

    /// What no run reached.
    pub fn never_reached(&self) -> Vec<String> {
        let rules = self.reached.iter().chain(self.tables.iter()).chain(self.missing.iter());
        let one_cache = rules.chain(self.asked.iter()).chain(self.explained.words.iter()).chain(self.batches.iter());
        let messages = self.messages.iter().chain(self.writer.iter());
        let places = one_cache.chain(messages).chain(self.pairs.iter());
        let places = places.map(|(name, times)| (name.trim_start().to_string(), times));
        let explained = self.explained.rules.iter();
        let explained = explained.map(|(name, times)| (format!("{}, explained", name.trim_start()), times));
        let places = places.chain(explained).chain(self.explained.iter());
        let places = places.filter(|(_, times)| *times == 0).map(|(name, _)| name);
        let answers = never_given("", &self.answers, OPENING + 1);
        let answers = answers.chain(never_given(", explained", &self.explained_answers, OPENING));
        let ways = WAYS.iter().zip(&self.ways).flat_map(|((_, name, _, numbers), answers)| {
            let never = numbers.iter().chain(&[NOT_A_STANDBY]).filter(|number| answers[**number as usize] == 0);
            never.map(move |number| format!("message, {name}: answer {number}"))
        });
        places.chain(answers).chain(ways).collect()
    }
}
