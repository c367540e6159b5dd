//! diff on pairs of a lead and a standby: the same, and with one record made different.

mod common;

use common::{bytes, command, folder};
use speldervacht::{open, order_words, step, table_words, Message, Mode, Request, Settings};
use speldervacht_command::layout::Header;

const ROWS: usize = 8;

struct Pair {
    lead: Vec<u64>,
    standby: Vec<u64>,
}

fn at(table: &mut [u64], request: Request) {
    let mut orders = vec![0; order_words(ROWS)];
    step(table, &mut orders, &request).unwrap();
}

impl Pair {
    /// Both have 100, 200 and 300 dirty, and have had the same changes.
    fn new() -> Pair {
        let fresh = |mode| {
            let mut table = vec![0; table_words(ROWS)];
            open(&mut table, ROWS, mode, 4_096, &Settings::defaults(mode)).unwrap();
            table
        };
        let mut pair = Pair { lead: fresh(Mode::Lead), standby: fresh(Mode::Standby) };
        for (address, size) in [(100, 1_000), (200, 2_000), (300, 500)] {
            at(&mut pair.lead, Request::Insert { address, size });
            at(&mut pair.standby, Request::Insert { address, size });
        }
        pair
    }

    fn diff(&self, name: &str) -> (u8, String) {
        let file = folder(name).join("lead");
        std::fs::write(&file, bytes(&self.lead)).unwrap();
        command(&["diff", file.to_str().unwrap(), "-"], &bytes(&self.standby))
    }
}

/// The lines that tell a difference.
fn told(text: &str) -> Vec<&str> {
    text.lines().skip(1).filter(|line| line.starts_with("  ")).map(str::trim).collect()
}

#[test]
fn the_same() {
    let mut pair = Pair::new();
    assert_eq!(pair.diff("same").0, 0);
    // Local requests do not count.
    at(&mut pair.standby, Request::ProtectForReading { address: 900, size: 50 });
    at(&mut pair.lead, Request::ProtectForWriting { address: 100, size: 1_000 });
    let (status, text) = pair.diff("local");
    assert_eq!((status, told(&text)), (0, vec![]));
    assert!(text.starts_with("the same: 3 dirty records"), "{text}");
    assert!(text.contains("may differ: entries: lead 3; standby 4"), "{text}");
}

#[test]
fn a_record_more() {
    let mut pair = Pair::new();
    at(&mut pair.lead, Request::Insert { address: 150, size: 70 });
    let (status, text) = pair.diff("more");
    let lines = vec!["record 150: lead dirty, 70 bytes; standby not there", "byte count: lead 3,570; standby 3,500"];
    assert_eq!((status, told(&text)), (1, lines));
}

#[test]
fn a_record_gone() {
    let mut pair = Pair::new();
    at(&mut pair.standby, Request::Discard { address: 200 });
    at(&mut pair.lead, Request::ProtectForReading { address: 900, size: 50 });
    let (status, text) = pair.diff("gone");
    assert_eq!((status, told(&text)), (1, vec!["record 200: lead dirty, 2,000 bytes; standby not there"]));
}

#[test]
fn a_size() {
    let mut pair = Pair::new();
    for (table, size) in [(&mut pair.lead, 800), (&mut pair.standby, 801)] {
        at(table, Request::ProtectForWriting { address: 300, size: 500 });
        at(table, Request::ReleaseChanged { address: 300, size });
    }
    let (status, text) = pair.diff("size");
    assert_eq!((status, told(&text)), (1, vec!["record 300: lead dirty, 800 bytes; standby dirty, 801 bytes"]));
}

#[test]
fn a_message_that_was_not_taken() {
    let mut pair = Pair::new();
    at(&mut pair.lead, Request::Flush);
    let (status, text) = pair.diff("message");
    assert_eq!(status, 1);
    let lines = told(&text);
    assert_eq!(lines.len(), 5);
    assert_eq!(lines[0], "record 100: lead clean, 1,000 bytes; standby dirty, 1,000 bytes");
    assert_eq!(lines[3..], ["byte count: lead 0; standby 3,500", "number of the next message: lead 2; standby 1"]);
    at(&mut pair.standby, Request::Take { message: Message::new(1, &[100, 200, 300]).unwrap().as_bytes() });
    assert_eq!(pair.diff("taken").0, 0);
    // An empty one counts too.
    at(&mut pair.lead, Request::Sync);
    let (status, text) = pair.diff("empty");
    assert_eq!((status, told(&text)), (1, vec!["number of the next message: lead 3; standby 2"]));
}

/// Any number is sound, so a damaged one is told by diff alone.
#[test]
fn a_next_number_with_one_bit_different() {
    let sound = Pair::new();
    for bit in 0..64 {
        let mut pair = Pair { lead: sound.lead.clone(), standby: sound.standby.clone() };
        pair.lead[Header::Next.place()] ^= 1 << bit;
        let (status, text) = pair.diff("next");
        assert_eq!((status, told(&text).len()), (1, 1), "{text}");
        assert!(told(&text)[0].starts_with("number of the next message: lead "), "{text}");
    }
}

/// Each makes room by itself, so one of them may have found it lacking.
#[test]
fn a_maximum_exceeded_at_one() {
    let mut pair = Pair::new();
    for address in 900..904 {
        at(&mut pair.standby, Request::ProtectForReading { address, size: 512 << 10 });
        at(&mut pair.standby, Request::ReleaseUnchanged { address });
    }
    let exceeded = [&pair.lead, &pair.standby].map(|table| table[Header::Exceeded.place()]);
    assert_eq!(exceeded, [0, 1]);
    let (status, text) = pair.diff("exceeded");
    assert_eq!((status, told(&text)), (0, vec![]));
    assert!(text.contains("may differ: maximum exceeded: lead no; standby yes"), "{text}");
}

#[test]
fn a_count_and_due() {
    let mut pair = Pair::new();
    for table in [&mut pair.lead, &mut pair.standby] {
        at(table, Request::Insert { address: 400, size: 600 });
    }
    assert_eq!(pair.diff("due").0, 0);
    // A record that comes and goes leaves the byte count.
    at(&mut pair.lead, Request::Insert { address: 500, size: 1 });
    at(&mut pair.lead, Request::Discard { address: 500 });
    let (status, text) = pair.diff("count");
    assert_eq!((status, told(&text)), (1, vec!["byte count: lead 4,101; standby 4,100"]));
    let pair = Pair { lead: pair.lead, ..Pair::new() };
    assert_eq!(told(&pair.diff("one_due").1).last(), Some(&"a list is due: lead yes; standby no"));
}

#[test]
fn what_cannot_be_compared() {
    let pair = Pair::new();
    let damaged = Pair { lead: pair.lead.clone(), standby: pair.standby.iter().map(|word| word | 2).collect() };
    let short = Pair { lead: pair.lead[..40].to_vec(), standby: pair.standby.clone() };
    assert_eq!(damaged.diff("damaged").0, 2);
    assert_eq!(short.diff("short").0, 2);
    let exchanged = Pair { lead: pair.standby, standby: pair.lead };
    let (status, text) = exchanged.diff("exchanged");
    assert_eq!(status, 0);
    assert!(text.contains("note: the first dump is standby, the second lead"), "{text}");
}
