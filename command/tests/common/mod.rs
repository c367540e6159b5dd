//! Small tables, random numbers and runs of the command, for the tests.
#![allow(dead_code)]

use speldervacht::{open, order_words, step, table_words, Decrease, Flash, Increase, Message, Mode, Request, Settings};
use speldervacht_command::layout::Header;
use speldervacht_command::{run, Failure};
use std::ffi::OsString;
use std::path::PathBuf;

pub const MODES: [Mode; 3] = [Mode::Alone, Mode::Lead, Mode::Standby];

/// Settings with each rule on, off and in its other forms; 0.3 is to be clean in every mode.
pub fn settings() -> Vec<Settings> {
    let defaults = Settings { clean_fraction: 0.3, ..Settings::defaults(Mode::Alone) };
    let fixed = Settings { clean_fraction: 0.3, ..Settings::fixed(Mode::Alone, 8_192) };
    vec![
        defaults,
        fixed,
        Settings { evictions: false, ..fixed },
        Settings { epoch_length: 128, increase_cap: None, decrease_cap: Some(0), ..defaults },
        Settings { decrease: Decrease::Threshold { upper: 0.95, multiplier: 0.5 }, ..defaults },
        Settings { decrease: Decrease::AgeOut { epochs: 2, reserve: 0.25 }, ..defaults },
        Settings { increase: Increase::Threshold { lower: 0.5, multiplier: 1.5 }, ..fixed },
        Settings { flash: Flash::On { multiple: 2.0, threshold: 0.5 }, minimum_size: 1_024, ..fixed },
    ]
}

/// A table with entries that are clean and dirty, held, pinned and free of both, and a free row.
pub fn table(mode: Mode, settings: &Settings, rows: usize) -> Vec<u64> {
    let mut table = vec![0; table_words(rows)];
    let mut orders = vec![0; order_words(rows)];
    open(&mut table, rows, mode, 4_096, settings).unwrap();
    let message = Message::new(1, &[0, 7]).unwrap();
    let clean = match mode {
        Mode::Standby => Request::Take { message: message.as_bytes() },
        _ => Request::Flush,
    };
    for request in [
        Request::Insert { address: 0, size: 1_024 },
        Request::Insert { address: 7, size: 64 },
        clean,
        Request::Insert { address: 1 << 40, size: 3_000 },
        Request::ProtectForReading { address: 300, size: 512 },
        Request::ProtectForReading { address: 300, size: 512 },
        Request::ProtectForWriting { address: 9, size: 100 },
        Request::Pin { address: 9 },
        Request::ReleaseUnchanged { address: 9 },
    ] {
        step(&mut table, &mut orders, &request).unwrap();
    }
    table
}

/// The table after a configure that leaves the initial size out.
pub fn without_initial_size(mut table: Vec<u64>, settings: &Settings) -> Vec<u64> {
    let mut orders = vec![0; order_words(table[1] as usize)];
    let settings = Settings { initial_size: None, ..*settings };
    step(&mut table, &mut orders, &Request::Configure { settings }).unwrap();
    table
}

/// The table after an insert for which room is lacking.
pub fn exceeded(mut table: Vec<u64>) -> Vec<u64> {
    let mut orders = vec![0; order_words(table[1] as usize)];
    let size = table[Header::Maximum.place()];
    step(&mut table, &mut orders, &Request::Insert { address: 500, size }).unwrap();
    table
}

pub fn bytes(words: &[u64]) -> Vec<u8> {
    words.iter().flat_map(|word| word.to_le_bytes()).collect()
}

/// A folder of its own for a test.
pub fn folder(name: &str) -> PathBuf {
    let folder = PathBuf::from(env!("CARGO_TARGET_TMPDIR")).join(name);
    let _ = std::fs::remove_dir_all(&folder);
    std::fs::create_dir_all(&folder).unwrap();
    folder
}

/// What the command answers to these words and this standard input: its status, and what it printed or
/// why it failed.
pub fn command(words: &[&str], input: &[u8]) -> (u8, String) {
    let words: Vec<OsString> = words.iter().map(OsString::from).collect();
    let mut out = Vec::new();
    match run(&words, &mut &input[..], &mut out) {
        Ok(status) => (status.number(), String::from_utf8(out).unwrap()),
        Err(Failure::Usage(why) | Failure::Input(why)) => (2, why),
        Err(Failure::Output(error)) => panic!("the output cannot be written: {error}"),
    }
}

/// Random numbers from a seed (splitmix64).
pub struct Random(pub u64);

impl Random {
    pub fn next(&mut self) -> u64 {
        self.0 = self.0.wrapping_add(0x9e37_79b9_7f4a_7c15);
        let mut x = self.0;
        x = (x ^ (x >> 30)).wrapping_mul(0xbf58_476d_1ce4_e5b9);
        x = (x ^ (x >> 27)).wrapping_mul(0x94d0_49bb_1331_11eb);
        x ^ (x >> 31)
    }

    pub fn below(&mut self, limit: usize) -> usize {
        (self.next() % limit as u64) as usize
    }

    pub fn pick<T: Copy>(&mut self, of: &[T]) -> T {
        of[self.below(of.len())]
    }
}
