//! play: a log of requests, a line each, on the cache of a dump.

use crate::arguments::Arguments;
use crate::dump::{self, Dump};
use crate::layout::{Header, Table};
use crate::text::{counted, thousands};
use crate::{requests, settings, Failure, Status};
use speldervacht::{explain, order_words, reason_words, step, Message, Order, Refusal, Request};
use std::io::{Read, Write};

pub fn run(given: &Arguments, input: &mut dyn Read, out: &mut dyn Write) -> Result<Status, Failure> {
    let mut dump = Dump::read(given.file(0), input)?;
    let rows = dump.sound()?.0.rows;
    let log = dump::read_text(given.file(1), input)?;
    let mut player = Player {
        rows,
        orders: vec![0; order_words(rows)],
        reasons: given.has("--why").then(|| vec![0; reason_words(rows)]),
        out,
    };
    let mut status = Status::Good;
    for (number, line) in log.lines().enumerate() {
        let request = line.split('#').next().unwrap_or_default().trim();
        if request.is_empty() {
            continue;
        }
        let place = || format!("{}, line {}", dump::name(given.file(1)), number + 1);
        if !player.play(&mut dump.words, request).map_err(|failure| failure.at(place()))? {
            status = Status::Bad;
        }
    }
    if let Some(file) = given.value("--out") {
        dump.write(file)?;
    }
    Ok(status)
}

/// The mode of a lead.
const LEAD: u64 = 1;

struct Player<'o> {
    rows: usize,
    orders: Vec<u64>,
    /// If the reasons are to be told.
    reasons: Option<Vec<u64>>,
    out: &'o mut dyn Write,
}

/// What an accepted request gave: its orders, and what is printed of them and of a change of the maximum.
struct Played {
    orders: Vec<Order>,
    told: Vec<String>,
}

impl Player<'_> {
    /// Plays a line, and prints it with its answer, its orders and its message. Whether it was accepted.
    fn play(&mut self, words: &mut [u64], line: &str) -> Result<bool, Failure> {
        let mut message = Vec::new();
        let table = Table::new(words, self.rows);
        let request = requests::parse(line, settings::of(&table), &mut message).map_err(Failure::Input)?;
        let number = number_sent(&table, &request);
        writeln!(self.out, "{line}")?;
        let Played { orders, told } = match self.request(words, &request) {
            Ok(played) => played,
            Err(refusal) => {
                writeln!(self.out, "  refused: {refusal}")?;
                return Ok(false);
            }
        };
        match orders.len() {
            0 => writeln!(self.out, "  accepted")?,
            count => writeln!(self.out, "  accepted, {}", counted(count as u64, "order"))?,
        }
        told.iter().try_for_each(|line| writeln!(self.out, "  {line}"))?;
        if let Some(number) = number {
            writeln!(self.out, "  message {}", hexadecimal(Message::of(number, orders).as_bytes()))?;
        }
        Ok(true)
    }

    /// Does the request, with reasons if they are to be told.
    fn request(&mut self, words: &mut [u64], request: &Request) -> Result<Played, Refusal> {
        let Some(reasons) = &mut self.reasons else {
            let orders: Vec<Order> = step(words, &mut self.orders, request)?.collect();
            let told = orders.iter().map(Order::to_string).collect();
            return Ok(Played { orders, told });
        };
        let before = Table::new(words, self.rows).header(Header::Maximum);
        let explained = explain(words, &mut self.orders, reasons, request)?;
        let after = Table::new(words, self.rows).header(Header::Maximum);
        let sentences = explained.orders.clone().map(|(order, reason)| order.because(reason).to_string());
        let change = explained.change.map(|change| moved(&change.to_string(), before, after));
        let told = sentences.chain(change).collect();
        Ok(Played { orders: explained.orders.map(|(order, _)| order).collect(), told })
    }
}

/// A change of the maximum with its sizes.
fn moved(change: &str, before: u64, after: u64) -> String {
    format!("{change} ({} to {})", thousands(before), counted(after, "byte"))
}

/// The number of the message that an accepted request sends: a lead's flush or sync.
fn number_sent(table: &Table, request: &Request) -> Option<u64> {
    let sends = table.header(Header::Mode) == LEAD && matches!(request, Request::Flush | Request::Sync);
    sends.then(|| table.header(Header::Next))
}

/// Two digits for each byte.
fn hexadecimal(bytes: &[u8]) -> String {
    bytes.iter().map(|byte| format!("{byte:02x}")).collect()
}
