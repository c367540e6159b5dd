//! A table's words: those that picture a cache, and the cache that words picture.
//!
//!   0          version
//!   1          row count
//!   2          mode
//!   3          dirty-byte threshold
//!   4          maximum
//!   5          accesses
//!   6          hits
//!   7          byte count
//!   8          number of the next message; 0: none is left
//!   9          whether the maximum was exceeded since the counters last restarted: 0 or 1
//!   10 .. 30   settings
//!   31         rows, 6 words each: address, size, dirty, idle, pinned, hold
//!   31 + 6 n   recency run: row numbers from the tail to the head, then all ones
//!   31 + 7 n   address run: row numbers of the entries by rising address, then all ones
//!   31 + 8 n   the end of the layout

use crate::boundary::mode_of;
use crate::model::{
    Cap, Decrease, Entry, Flash, Hold, Increase, Mode, Model, Settings, ALL_ONES, COUNT_STOP, IDLE_LIMIT, READER_LIMIT,
    ROW_LIMIT, SIZE_LIMIT, THRESHOLD_LIMIT,
};
use crate::reached::Reached;
use std::collections::BTreeMap;

pub const VERSION: u64 = 0x5350_4c44_5654_0003;
pub const NEXT: usize = 8;
pub const EXCEEDED: usize = 9;
pub const SETTINGS: usize = 10;
pub const HEADER: usize = 31;
pub const ROW: usize = 6;
const WRITER: u64 = READER_LIMIT as u64 + 1;

/// The words of a table with so many rows.
pub fn table_words(rows: usize) -> usize {
    HEADER + rows * (ROW + 2)
}

// ---- the words of a cache

fn cap_words(c: Cap) -> [u64; 2] {
    match c {
        Cap::None => [0, 0],
        Cap::UpTo(n) => [1, n],
        Cap::Unknown => unreachable!("no cache has an unknown cap"),
    }
}

fn settings_words(s: &Settings) -> Vec<u64> {
    let mut w = vec![
        s.evictions as u64,
        s.initial_is_set as u64,
        s.initial_size,
        s.clean_fraction.to_bits(),
        s.maximum_size,
        s.minimum_size,
        s.epoch_length,
    ];
    match s.increase {
        Increase::Off => w.extend([0, 0, 0]),
        Increase::Threshold { lower, multiplier } => w.extend([1, lower.to_bits(), multiplier.to_bits()]),
        Increase::Unknown => unreachable!("no cache has an unknown increase rule"),
    }
    w.extend(cap_words(s.increase_cap));
    match s.flash {
        Flash::Off => w.extend([0, 0, 0]),
        Flash::On { multiple, threshold } => w.extend([1, multiple.to_bits(), threshold.to_bits()]),
        Flash::Unknown => unreachable!("no cache has an unknown flash rule"),
    }
    match s.decrease {
        Decrease::Off => w.extend([0, 0, 0, 0]),
        Decrease::Threshold { upper, multiplier } => w.extend([1, upper.to_bits(), 0, multiplier.to_bits()]),
        Decrease::AgeOut { epochs, reserve } => w.extend([2, 0, epochs, reserve.to_bits()]),
        Decrease::AgeOutWithThreshold { upper, epochs, reserve } => {
            w.extend([3, upper.to_bits(), epochs, reserve.to_bits()])
        }
        Decrease::Unknown => unreachable!("no cache has an unknown decrease rule"),
    }
    w.extend(cap_words(s.decrease_cap));
    w
}

fn mode_word(m: Mode) -> u64 {
    match m {
        Mode::Alone => 0,
        Mode::Lead => 1,
        Mode::Standby => 2,
    }
}

fn hold_word(h: Hold) -> u64 {
    match h {
        Hold::Free => 0,
        Hold::Readers(n) => n as u64,
        Hold::Writer => WRITER,
    }
}

/// The words that picture a cache.
pub fn picture(m: &Model) -> Vec<u64> {
    let mut w = Vec::with_capacity(table_words(m.rows));
    w.extend([VERSION, m.rows as u64, mode_word(m.mode), m.threshold]);
    w.extend([m.maximum, m.accesses, m.hits, m.count, m.next, m.exceeded as u64]);
    w.extend(settings_words(&m.settings));
    w.resize(HEADER + m.rows * ROW, 0);
    for (a, e) in &m.entries {
        let Entry { size, dirty, idle, pinned, hold, row } = *e;
        let at = HEADER + row * ROW;
        w[at..at + ROW].copy_from_slice(&[*a, size, dirty as u64, idle, pinned as u64, hold_word(hold)]);
    }
    w.extend(m.recency.iter().rev().map(|a| m.entries[a].row as u64));
    w.resize(HEADER + m.rows * (ROW + 1), ALL_ONES);
    w.extend(m.entries.values().map(|e| e.row as u64));
    w.resize(table_words(m.rows), ALL_ONES);
    w
}

// ---- the cache of words

fn flag_of(word: u64) -> Option<bool> {
    match word {
        0 => Some(false),
        1 => Some(true),
        _ => None,
    }
}

fn cap_of(w: &[u64]) -> Option<Cap> {
    match *w {
        [0, 0] => Some(Cap::None),
        [1, bytes] => Some(Cap::UpTo(bytes)),
        _ => None,
    }
}

fn settings_of(w: &[u64]) -> Option<Settings> {
    let float = f64::from_bits;
    let settings = Settings {
        evictions: flag_of(w[0])?,
        initial_is_set: flag_of(w[1])?,
        initial_size: w[2],
        clean_fraction: float(w[3]),
        maximum_size: w[4],
        minimum_size: w[5],
        epoch_length: w[6],
        increase: match w[7..10] {
            [0, 0, 0] => Increase::Off,
            [1, lower, multiplier] => Increase::Threshold { lower: float(lower), multiplier: float(multiplier) },
            _ => return None,
        },
        increase_cap: cap_of(&w[10..12])?,
        flash: match w[12..15] {
            [0, 0, 0] => Flash::Off,
            [1, multiple, threshold] => Flash::On { multiple: float(multiple), threshold: float(threshold) },
            _ => return None,
        },
        decrease: match w[15..19] {
            [0, 0, 0, 0] => Decrease::Off,
            [1, upper, 0, multiplier] => Decrease::Threshold { upper: float(upper), multiplier: float(multiplier) },
            [2, 0, epochs, reserve] => Decrease::AgeOut { epochs, reserve: float(reserve) },
            [3, upper, epochs, reserve] => {
                Decrease::AgeOutWithThreshold { upper: float(upper), epochs, reserve: float(reserve) }
            }
            _ => return None,
        },
        decrease_cap: cap_of(&w[19..21])?,
    };
    settings.bad_field(false).is_none().then_some(settings)
}

fn hold_of(word: u64) -> Option<Hold> {
    match word {
        0 => Some(Hold::Free),
        WRITER => Some(Hold::Writer),
        n if n < WRITER => Some(Hold::Readers(n as u32)),
        _ => None,
    }
}

/// Row numbers, then all ones.
fn run_of(w: &[u64]) -> Option<Vec<u64>> {
    let length = w.iter().position(|x| *x == ALL_ONES).unwrap_or(w.len());
    w[length..].iter().all(|x| *x == ALL_ONES).then(|| w[..length].to_vec())
}

/// The cache that the words picture, if it is one that refusal 1 lets pass.
pub fn judge(words: &[u64]) -> Option<Model> {
    if words.len() < HEADER || words[0] != VERSION || !(1..=ROW_LIMIT).contains(&words[1]) {
        return None;
    }
    let rows = words[1] as usize;
    if words.len() < table_words(rows) {
        return None;
    }
    let mode = mode_of(words[2])?;
    let [threshold, maximum, accesses, hits, count, next] = words[3..EXCEEDED] else { return None };
    let exceeded = flag_of(words[EXCEEDED])?;
    let settings = settings_of(&words[SETTINGS..HEADER])?;
    let header_is_allowed = (1..=THRESHOLD_LIMIT).contains(&threshold)
        && settings.minimum_size <= maximum
        && maximum <= settings.maximum_size
        && accesses < settings.epoch_length
        && hits <= accesses
        && count <= COUNT_STOP;
    if !header_is_allowed {
        return None;
    }
    let mut entries = BTreeMap::new();
    let mut address_of_row = vec![None; rows];
    for (row, w) in words[HEADER..HEADER + rows * ROW].chunks(ROW).enumerate() {
        let [address, size, dirty, idle, pinned, hold] = *w else { return None };
        if size == 0 {
            if w.iter().any(|x| *x != 0) {
                return None;
            }
            continue;
        }
        let entry = Entry { size, dirty: flag_of(dirty)?, idle, pinned: flag_of(pinned)?, hold: hold_of(hold)?, row };
        if address == ALL_ONES || size > SIZE_LIMIT || idle > IDLE_LIMIT || entries.insert(address, entry).is_some() {
            return None;
        }
        address_of_row[row] = Some(address);
    }
    let recency_at = HEADER + rows * ROW;
    let recency_run = run_of(&words[recency_at..recency_at + rows])?;
    let mut was_listed = vec![false; rows];
    let mut recency = std::collections::VecDeque::new();
    for row in recency_run {
        let address = (*address_of_row.get(row as usize)?)?;
        if !entries[&address].is_listed() || std::mem::replace(&mut was_listed[row as usize], true) {
            return None;
        }
        recency.push_front(address);
    }
    if recency.len() != entries.values().filter(|e| e.is_listed()).count() {
        return None;
    }
    let address_run = run_of(&words[recency_at + rows..recency_at + 2 * rows])?;
    if !address_run.iter().copied().eq(entries.values().map(|e| e.row as u64)) {
        return None;
    }
    Some(Model {
        rows,
        mode,
        threshold,
        settings,
        maximum,
        accesses,
        hits,
        count,
        next,
        exceeded,
        entries,
        recency,
        reached: Reached::default(),
    })
}

// ---- names of words

/// What the word at a place of a table with so many rows is.
pub fn name_of_word(rows: usize, at: usize) -> String {
    const HEAD: [&str; SETTINGS] = [
        "version",
        "row count",
        "mode",
        "threshold",
        "maximum",
        "accesses",
        "hits",
        "byte count",
        "next number",
        "exceeded",
    ];
    const FIELDS: [&str; ROW] = ["address", "size", "dirty", "idle", "pinned", "hold"];
    if at < SETTINGS {
        HEAD[at].to_string()
    } else if at < HEADER {
        format!("settings word {}", at - SETTINGS)
    } else if at < HEADER + rows * ROW {
        format!("row {}, {}", (at - HEADER) / ROW, FIELDS[(at - HEADER) % ROW])
    } else if at < HEADER + rows * (ROW + 1) {
        format!("place {} of the recency run", at - HEADER - rows * ROW)
    } else if at < table_words(rows) {
        format!("place {} of the address run", at - HEADER - rows * (ROW + 1))
    } else {
        "past the end of the layout".to_string()
    }
}
