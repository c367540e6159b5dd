//! What the numbers of the C interface stand for.

use crate::model::{Cap, Decrease, Flash, Increase, Mode, Request, Settings};

/// The settings struct as words, its fractions as their bits.
pub type SettingsWords = [u64; 22];

/// A request as the C interface takes it.
#[derive(Clone, Copy, Debug, PartialEq)]
pub struct Asked {
    pub kind: u64,
    pub address: u64,
    pub size: u64,
    pub settings: SettingsWords,
}

/// The taking of a message.
pub const TAKE: Asked = Asked { kind: 12, address: 0, size: 0, settings: [0; 22] };

pub const KINDS: [&str; 14] = [
    "unknown",
    "insert",
    "protect for reading",
    "protect for writing",
    "release unchanged",
    "release changed",
    "pin",
    "unpin",
    "resize",
    "discard",
    "flush",
    "sync",
    "take",
    "configure",
];

pub fn mode_of(word: u64) -> Option<Mode> {
    match word {
        0 => Some(Mode::Alone),
        1 => Some(Mode::Lead),
        2 => Some(Mode::Standby),
        _ => None,
    }
}

fn cap_of(kind: u64, bytes: u64) -> Cap {
    match kind {
        0 => Cap::None,
        1 => Cap::UpTo(bytes),
        _ => Cap::Unknown,
    }
}

pub fn settings_of(w: &SettingsWords) -> Settings {
    let float = |i: usize| f64::from_bits(w[i]);
    Settings {
        evictions: w[0] != 0,
        initial_is_set: w[1] != 0,
        initial_size: w[2],
        clean_fraction: float(3),
        maximum_size: w[4],
        minimum_size: w[5],
        epoch_length: w[6],
        increase: match w[7] {
            0 => Increase::Off,
            1 => Increase::Threshold { lower: float(8), multiplier: float(9) },
            _ => Increase::Unknown,
        },
        increase_cap: cap_of(w[10], w[11]),
        flash: match w[12] {
            0 => Flash::Off,
            1 => Flash::On { multiple: float(13), threshold: float(14) },
            _ => Flash::Unknown,
        },
        decrease: match w[15] {
            0 => Decrease::Off,
            1 => Decrease::Threshold { upper: float(16), multiplier: float(17) },
            2 => Decrease::AgeOut { epochs: w[18], reserve: float(19) },
            3 => Decrease::AgeOutWithThreshold { upper: float(16), epochs: w[18], reserve: float(19) },
            _ => Decrease::Unknown,
        },
        decrease_cap: cap_of(w[20], w[21]),
    }
}

/// Words that stand for the settings; `unread` fills those that their kind does not read.
pub fn settings_words(s: &Settings, unread: u64) -> SettingsWords {
    let mut w = [unread; 22];
    w[0] = s.evictions as u64;
    w[1] = s.initial_is_set as u64;
    w[2] = s.initial_size;
    w[3] = s.clean_fraction.to_bits();
    w[4] = s.maximum_size;
    w[5] = s.minimum_size;
    w[6] = s.epoch_length;
    w[7] = match s.increase {
        Increase::Off => 0,
        Increase::Threshold { lower, multiplier } => {
            w[8] = lower.to_bits();
            w[9] = multiplier.to_bits();
            1
        }
        Increase::Unknown => 2,
    };
    w[12] = match s.flash {
        Flash::Off => 0,
        Flash::On { multiple, threshold } => {
            w[13] = multiple.to_bits();
            w[14] = threshold.to_bits();
            1
        }
        Flash::Unknown => 2,
    };
    w[15] = match s.decrease {
        Decrease::Off => 0,
        Decrease::Threshold { upper, multiplier } => {
            w[16] = upper.to_bits();
            w[17] = multiplier.to_bits();
            1
        }
        Decrease::AgeOut { epochs, reserve } => {
            w[18] = epochs;
            w[19] = reserve.to_bits();
            2
        }
        Decrease::AgeOutWithThreshold { upper, epochs, reserve } => {
            w[16] = upper.to_bits();
            w[18] = epochs;
            w[19] = reserve.to_bits();
            3
        }
        Decrease::Unknown => 4,
    };
    for (at, cap) in [(10, s.increase_cap), (20, s.decrease_cap)] {
        w[at] = match cap {
            Cap::None => 0,
            Cap::UpTo(bytes) => {
                w[at + 1] = bytes;
                1
            }
            Cap::Unknown => 2,
        };
    }
    w
}

pub fn request_of(asked: &Asked) -> Request {
    let Asked { kind, address, size, ref settings } = *asked;
    match kind {
        1 => Request::Insert { address, size },
        2 => Request::Protect { writing: false, address, size },
        3 => Request::Protect { writing: true, address, size },
        4 => Request::Release { address, changed: None },
        5 => Request::Release { address, changed: Some(size) },
        6 => Request::Pin { address },
        7 => Request::Unpin { address },
        8 => Request::Resize { address, size },
        9 => Request::Discard { address },
        10 => Request::Flush,
        11 => Request::Sync,
        12 => Request::Take,
        13 => Request::Configure(settings_of(settings)),
        _ => Request::Unknown,
    }
}
