//! Random settings, requests, states and damage: mostly sensible, now and then extreme or bad.

use crate::boundary::{settings_words, Asked, SettingsWords};
use crate::messages::{self, Addressee, Message};
use crate::model::{
    Cap, Decrease, Entry, Flash, Hold, Increase, Mode, Model, Settings, ALL_ONES, COUNT_STOP, IDLE_LIMIT, READER_LIMIT,
    ROW_LIMIT, SIZE_LIMIT, THRESHOLD_LIMIT,
};
use crate::random::Random;
use crate::reached::Reached;
use crate::table;
use std::collections::{BTreeMap, VecDeque};

const SMALLEST_MAXIMUM: u64 = 1_024;

// ---- sizes

/// How large the entries of a run are, and the maximum beside them.
#[derive(Clone, Copy)]
pub enum Scale {
    /// A few entries fill the cache: bytes press.
    Tight,
    /// About as many bytes as the rows take: both press.
    Roomy,
    /// Anything that the limits allow.
    Huge,
}

impl Scale {
    pub fn any(r: &mut Random) -> Scale {
        match r.below(20) {
            0..=8 => Scale::Tight,
            9..=17 => Scale::Roomy,
            _ => Scale::Huge,
        }
    }

    /// The room between minimum and maximum size.
    fn spread(self, r: &mut Random, rows: usize) -> u64 {
        match self {
            Scale::Tight => r.below(6_000),
            Scale::Roomy => r.below(500 * rows as u64 + 1),
            Scale::Huge => r.below(SIZE_LIMIT - 4_000),
        }
    }
}

fn size(r: &mut Random, scale: Scale) -> u64 {
    match (r.below(100), scale) {
        (0, _) => 0,
        (1, _) => r.pick(&[SIZE_LIMIT - 1, SIZE_LIMIT, SIZE_LIMIT + 1, u64::MAX]),
        (2, _) => r.word(),
        (3..=9, _) => r.between(1_000, 9_000),
        (_, Scale::Huge) => 1 + (r.word() >> r.between(37, 63)),
        _ => r.between(1, 700),
    }
}

// ---- settings

fn fraction(r: &mut Random, good: bool, low: f64, high: f64) -> f64 {
    if good {
        return match r.below(12) {
            0 => low,
            1 => high,
            _ => low + r.unit() * (high - low),
        };
    }
    match r.below(60) {
        0 => low,
        1 => high,
        2 => f64::NAN,
        3 => f64::INFINITY,
        4 => -0.0,
        5 => -r.unit(),
        6 => high + r.unit(),
        7 => f64::from_bits(r.word()),
        8 => f64::from_bits(high.to_bits() + 1),
        9 => f64::from_bits(low.to_bits().wrapping_sub(1)),
        10 => f64::from_bits(r.below(3)),
        _ => low + r.unit() * (high - low),
    }
}

fn cap(r: &mut Random, good: bool) -> Cap {
    match r.below(12) {
        0..=3 => Cap::None,
        4 => Cap::UpTo(0),
        5 => Cap::UpTo(SIZE_LIMIT),
        6 if !good => Cap::UpTo(r.pick(&[SIZE_LIMIT + 1, u64::MAX])),
        7 if !good && r.chance(30) => Cap::Unknown,
        _ => Cap::UpTo(r.between(1, 4_096)),
    }
}

/// Settings for a cache with so many rows; `good` ones pass opening but for the rates' order and
/// for evictions that are off with a rule on.
fn some_settings(r: &mut Random, rows: usize, scale: Scale, good: bool) -> Settings {
    let extremes = [0, 1_023, 1_024, SIZE_LIMIT, SIZE_LIMIT + 1, u64::MAX];
    let odd = |r: &mut Random| !good && r.chance(5);
    let minimum_size = if odd(r) { r.pick(&extremes) } else { r.between(SMALLEST_MAXIMUM, 3_000) };
    let spread = scale.spread(r, rows);
    let maximum_size = if odd(r) { r.pick(&extremes) } else { minimum_size.saturating_add(spread).min(SIZE_LIMIT) };
    let initial_size = match r.below(10) {
        0 if !good => r.word(),
        1 if !good => maximum_size.wrapping_add(1),
        2 => maximum_size,
        3 => minimum_size,
        4 if !good => minimum_size.wrapping_sub(1),
        _ if maximum_size > minimum_size => minimum_size + r.below((maximum_size - minimum_size).saturating_add(1)),
        _ => minimum_size,
    };
    let rules = r.chance(88);
    let lower = if r.chance(40) { fraction(r, good, 0.8, 0.99) } else { fraction(r, good, 0.0, 0.95) };
    let upper = match r.below(10) {
        0 if !good => fraction(r, false, 0.0, 1.0),
        1 => 1.0,
        2 if !good => lower,
        _ => lower + (1.0 - lower) * (0.01 + 0.9 * r.unit()),
    };
    let increase = match r.below(20) {
        _ if !rules => Increase::Off,
        0 if !good => Increase::Unknown,
        0..=5 => Increase::Off,
        _ => {
            let multiplier = match r.below(8) {
                0 => 1.0000000000000002,
                1 => 2.0,
                2 if !good => 1.0,
                _ => fraction(r, good, 1.01, 2.0),
            };
            Increase::Threshold { lower, multiplier }
        }
    };
    let flash = match r.below(20) {
        _ if !rules => Flash::Off,
        0 if !good => Flash::Unknown,
        0..=11 => Flash::Off,
        _ => {
            let threshold = if r.chance(30) { r.pick(&[0.125, 0.25, 0.5, 1.0]) } else { fraction(r, good, 0.1, 1.0) };
            let multiple = if r.chance(20) { 1.0 } else { fraction(r, good, 0.1, 10.0) };
            Flash::On { multiple, threshold }
        }
    };
    let epochs = if odd(r) { r.pick(&[0, 10, 11, u64::MAX]) } else { r.pick(&[1, 1, 2, 3, 10]) };
    let reserve = fraction(r, good, 0.0, 1.0);
    let decrease = match r.below(20) {
        _ if !rules => Decrease::Off,
        0 if !good => Decrease::Unknown,
        0..=3 => Decrease::Off,
        4..=7 => Decrease::Threshold { upper, multiplier: fraction(r, good, 0.0, 1.0) },
        8..=13 => Decrease::AgeOut { epochs, reserve },
        _ => Decrease::AgeOutWithThreshold { upper, epochs, reserve },
    };
    Settings {
        evictions: if rules { r.chance(98) } else { r.chance(60) },
        initial_is_set: good || r.chance(60),
        initial_size,
        clean_fraction: if r.chance(30) { 0.0 } else { fraction(r, good, 0.0, 1.0) },
        maximum_size,
        minimum_size,
        epoch_length: match r.below(20) {
            0 if !good => r.pick(&[0, 99, 1_000_001, u64::MAX]),
            1 => r.pick(&[1_000_000, 50_000]),
            2..=5 => r.between(101, 130),
            _ => 100,
        },
        increase,
        increase_cap: cap(r, good),
        flash,
        decrease,
        decrease_cap: cap(r, good),
    }
}

/// Just below low or just above high, or no number in between.
fn past(r: &mut Random, low: f64, high: f64) -> f64 {
    match r.below(4) {
        0 => f64::NAN,
        1 => f64::from_bits(high.to_bits() + 1),
        _ if low == 0.0 => -f64::from_bits(1),
        _ => f64::from_bits(low.to_bits() - 1),
    }
}

/// Good settings with one field just past its limits.
fn broken_settings(r: &mut Random, rows: usize, scale: Scale) -> Settings {
    let mut s = good_settings(r, rows, scale);
    let low = r.chance(50);
    match r.below(12) {
        0 => s.evictions = false,
        1 => s.initial_is_set = false,
        2 => s.initial_size = if low { s.minimum_size - 1 } else { s.maximum_size + 1 },
        3 => s.clean_fraction = past(r, 0.0, 1.0),
        4 => s.maximum_size = if low { SMALLEST_MAXIMUM - 1 } else { SIZE_LIMIT + 1 },
        5 => s.minimum_size = if low { SMALLEST_MAXIMUM - 1 } else { s.maximum_size + 1 },
        6 => s.epoch_length = if low { 99 } else { 1_000_001 },
        7 => {
            s.increase = match (low, r.below(2)) {
                (true, _) => Increase::Threshold { lower: past(r, 0.0, 1.0), multiplier: 1.5 },
                (_, 0) => Increase::Threshold { lower: 0.0, multiplier: 1.0 },
                _ => Increase::Threshold { lower: 0.0, multiplier: past(r, 1.0, 2.0) },
            }
        }
        8 => s.increase_cap = Cap::UpTo(SIZE_LIMIT + 1),
        9 if low => s.flash = Flash::On { multiple: past(r, 0.1, 10.0), threshold: 0.5 },
        9 => s.flash = Flash::On { multiple: 1.0, threshold: past(r, 0.1, 1.0) },
        10 => {
            s.increase = Increase::Off;
            let bad = past(r, 0.0, 1.0);
            let epochs = if low { 0 } else { 11 };
            s.decrease = match r.below(7) {
                0 => Decrease::Threshold { upper: bad, multiplier: 0.5 },
                1 => Decrease::Threshold { upper: 0.5, multiplier: bad },
                2 => Decrease::AgeOut { epochs, reserve: 0.5 },
                3 => Decrease::AgeOut { epochs: 10, reserve: bad },
                4 => Decrease::AgeOutWithThreshold { upper: bad, epochs: 1, reserve: 0.5 },
                5 => Decrease::AgeOutWithThreshold { upper: 0.5, epochs, reserve: 0.5 },
                _ => Decrease::AgeOutWithThreshold { upper: 0.5, epochs: 1, reserve: bad },
            }
        }
        _ => s.decrease_cap = Cap::UpTo(SIZE_LIMIT + 1),
    }
    s
}

/// Settings that opening passes.
pub fn good_settings(r: &mut Random, rows: usize, scale: Scale) -> Settings {
    loop {
        let s = some_settings(r, rows, scale, true);
        if s.bad_field(true).is_none() {
            return s;
        }
    }
}

/// Settings as words: good ones, or any.
pub fn any_settings(r: &mut Random, rows: usize, scale: Scale, good: bool) -> SettingsWords {
    let s = match good {
        true => good_settings(r, rows, scale),
        false if r.chance(50) => broken_settings(r, rows, scale),
        false => some_settings(r, rows, scale, false),
    };
    let unread = r.pick(&[0, 1, u64::MAX, 0x7ff8_0000_0000_0000]);
    let mut words = settings_words(&s, unread);
    for flag in &mut words[..2] {
        if *flag != 0 && r.chance(5) {
            *flag = r.pick(&[2, u64::MAX, 1 << 32, 1 << 63]);
        }
    }
    for kind in [7, 10, 12, 15, 20] {
        if !good && r.chance(2) {
            words[kind] = r.pick(&[2, 3, 4, 5, u64::MAX, 1 << 32]);
        }
    }
    words
}

// ---- requests

/// What a run is like for a while.
#[derive(Clone, Copy)]
pub struct Phase {
    /// Weights of the request kinds 0 (unknown) to 13.
    weights: [u64; 14],
    /// Percent of protects at addresses the cache has.
    resident: u64,
    /// Percent of requests at whatever address.
    astray: u64,
}

const PHASES: [Phase; 8] = [
    // Hits.
    Phase { weights: [0, 2, 45, 25, 66, 6, 2, 3, 2, 1, 1, 1, 1, 0], resident: 99, astray: 1 },
    // Misses.
    Phase { weights: [0, 8, 45, 20, 60, 10, 2, 4, 2, 2, 2, 3, 3, 0], resident: 10, astray: 1 },
    // Misses, each released: poor rates.
    Phase { weights: [0, 1, 50, 0, 56, 0, 0, 1, 0, 0, 1, 1, 1, 0], resident: 4, astray: 1 },
    // Changes.
    Phase { weights: [0, 20, 10, 25, 15, 25, 5, 5, 15, 5, 3, 5, 4, 1], resident: 60, astray: 3 },
    // Holds and pins pile up.
    Phase { weights: [0, 15, 30, 15, 12, 6, 12, 3, 5, 2, 1, 2, 1, 0], resident: 50, astray: 3 },
    // Some of everything, much of it astray.
    Phase { weights: [2, 10, 10, 10, 10, 10, 10, 10, 10, 10, 5, 6, 8, 4], resident: 50, astray: 40 },
    // Lists.
    Phase { weights: [0, 20, 15, 15, 25, 15, 3, 5, 4, 2, 8, 12, 12, 1], resident: 50, astray: 3 },
    // Holds and pins go, and all is written.
    Phase { weights: [0, 3, 4, 2, 50, 10, 0, 20, 2, 2, 8, 5, 8, 0], resident: 80, astray: 1 },
];

/// Protects, most of them hits.
pub const PROTECTS: Phase = Phase { weights: [0, 0, 60, 40, 0, 0, 0, 0, 0, 0, 0, 0, 0, 0], resident: 75, astray: 0 };

impl Phase {
    pub fn any(r: &mut Random) -> Phase {
        let mut phase = r.pick(&PHASES);
        phase.resident = if r.chance(30) { r.below(101) } else { phase.resident };
        phase
    }

    fn kind(&self, r: &mut Random) -> u64 {
        let mut at = r.below(self.weights.iter().sum());
        for (kind, weight) in self.weights.iter().enumerate() {
            if at < *weight {
                return kind as u64;
            }
            at -= weight;
        }
        0
    }
}

/// The kind of a request that helps a cache with no row to give: holds and pins go, then all is
/// written.
fn helpful_kind(r: &mut Random, m: &Model) -> u64 {
    let held = m.entries.values().any(|e| e.hold != Hold::Free);
    let pinned = m.entries.values().any(|e| e.pinned);
    match m.mode {
        _ if held && r.chance(80) => r.pick(&[4, 4, 5]),
        _ if pinned && r.chance(50) => 7,
        Mode::Alone => 9,
        Mode::Lead => r.pick(&[10, 10, 11]),
        Mode::Standby => 12,
    }
}

/// An entry that passes the test, any of them.
fn entry_where(r: &mut Random, m: &Model, test: impl Fn(&Entry) -> bool) -> Option<u64> {
    if m.entries.is_empty() {
        return None;
    }
    let start = r.below(m.entries.len() as u64) as usize;
    let found = m.entries.iter().skip(start).find(|(_, e)| test(e));
    found.or_else(|| m.entries.iter().take(start).find(|(_, e)| test(e))).map(|(a, _)| *a)
}

fn any_address(r: &mut Random, rows: usize) -> u64 {
    match r.below(40) {
        0 => ALL_ONES,
        1 => ALL_ONES - 1,
        2 => 0,
        3 => r.word(),
        _ => 100 + r.below(2 * rows as u64 + 4),
    }
}

fn new_address(r: &mut Random, m: &Model) -> u64 {
    for _ in 0..4 {
        let a = 100 + r.below(3 * m.rows as u64 + 4);
        if !m.entries.contains_key(&a) {
            return a;
        }
    }
    r.word() >> r.below(60)
}

/// The address for a request of a kind, mostly one that it may be accepted at.
fn address(r: &mut Random, m: &Model, kind: u64, phase: &Phase) -> u64 {
    if r.chance(phase.astray) {
        return any_address(r, m.rows);
    }
    let found = match kind {
        1 => None,
        2 if r.chance(phase.resident) => {
            if r.chance(15) {
                entry_where(r, m, |e| matches!(e.hold, Hold::Readers(_)))
            } else {
                entry_where(r, m, |e| e.hold == Hold::Free)
            }
        }
        3 if r.chance(phase.resident) => entry_where(r, m, |e| e.hold == Hold::Free),
        2 | 3 => None,
        4 => entry_where(r, m, |e| e.hold != Hold::Free),
        5 => entry_where(r, m, |e| e.hold == Hold::Writer),
        6 => entry_where(r, m, |e| e.hold != Hold::Free && !e.pinned),
        7 => entry_where(r, m, |e| e.pinned),
        8 => entry_where(r, m, |e| e.hold == Hold::Writer || (e.pinned && e.hold == Hold::Free)),
        9 => entry_where(r, m, |e| e.is_listed()),
        _ => return any_address(r, m.rows),
    };
    found.unwrap_or_else(|| new_address(r, m))
}

/// Now and then: the most bytes, or the most growth, that the flash lets pass, by which it raises the maximum just
/// to maximum size, that the clean share can spare or the maximum has room for.
fn most_that_passes(r: &mut Random, m: &Model) -> Option<u64> {
    match (r.below(20), m.settings.flash) {
        (0, Flash::On { threshold, .. }) => Some((threshold * m.maximum as f64) as u64),
        (3, Flash::On { multiple, .. }) => {
            let rise = m.settings.maximum_size - m.maximum + m.maximum.saturating_sub(m.held());
            Some((rise as f64 / multiple).ceil() as u64).filter(|x| *x > 0)
        }
        (1, _) => u64::try_from(m.clean_share(0).beyond()).ok().filter(|spare| *spare > 0),
        (2, _) => m.maximum.checked_sub(m.held()).filter(|free| *free > 0),
        _ => None,
    }
}

/// The number, or one beside it.
fn about(r: &mut Random, n: u64) -> u64 {
    (n + r.below(3)).saturating_sub(1)
}

/// Good settings that set the maximum to about what it is, or with a range that begins or ends about there.
fn settings_at_maximum(r: &mut Random, m: &Model, scale: Scale) -> Settings {
    let mut s = good_settings(r, m.rows, scale);
    let near = about(r, m.maximum).clamp(SMALLEST_MAXIMUM, SIZE_LIMIT);
    (s.minimum_size, s.maximum_size) = match r.below(3) {
        0 => (near, s.maximum_size.max(near)),
        1 => (s.minimum_size.min(near), near),
        _ => (near, near),
    };
    s.initial_is_set = r.chance(40);
    s.initial_size = near;
    s
}

/// A request and its message.
pub fn request(r: &mut Random, m: &Model, phase: &Phase, scale: Scale) -> (Asked, Message) {
    let kind = if m.no_row() && r.chance(50) {
        helpful_kind(r, m)
    } else if r.below(200) == 0 {
        13
    } else {
        phase.kind(r)
    };
    let mut asked = Asked { kind, address: address(r, m, kind, phase), size: size(r, scale), settings: [0; 22] };
    if kind == 0 {
        asked.kind = r.pick(&[0, 14, 15, 1 << 32, u64::MAX]);
    }
    if kind == 5 || kind == 8 {
        // Often a size near the old one.
        if let (Some(e), true) = (m.entries.get(&asked.address), r.chance(40)) {
            asked.size = (e.size + r.below(64)).saturating_sub(r.below(64));
        }
    }
    if let (Some(most), 1 | 2 | 3 | 5 | 8) = (most_that_passes(r, m), kind) {
        let before = if kind < 5 { 0 } else { m.entries.get(&asked.address).map_or(0, |e| e.size) };
        asked.size = before + most + r.below(2);
    }
    if kind == 13 || r.chance(1) {
        let good = r.chance(30);
        asked.settings = any_settings(r, m.rows, scale, good);
    }
    if kind == 13 && r.chance(20) {
        asked.settings = settings_words(&settings_at_maximum(r, m, scale), 0);
    }
    let message = match kind {
        12 => messages::draw(r, &Addressee::of(m)),
        _ if r.chance(1) => Message { way: None, ..messages::draw(r, &Addressee::of(m)) },
        _ => Message::default(),
    };
    (asked, message)
}

/// A request with nothing known of the cache.
pub fn blind_request(r: &mut Random, rows: usize) -> Asked {
    Asked { kind: r.below(16), address: any_address(r, rows), size: size(r, Scale::Tight), settings: [0; 22] }
}

// ---- states

/// Any state that refusal 1 lets pass, mostly near a place where something happens.
pub fn state(r: &mut Random, rows: usize, mode: Mode, scale: Scale) -> Model {
    let mut settings = good_settings(r, rows, scale);
    settings.initial_is_set = r.chance(80);
    if r.chance(70) {
        settings.evictions = true;
    }
    let many = if r.chance(60) { rows as u64 } else { r.below(rows as u64 + 1) };
    let mut row_numbers: Vec<usize> = (0..rows).collect();
    if r.chance(70) {
        r.shuffle(&mut row_numbers);
    }
    let (held, pinned, dirty) = (r.pick(&[0, 5, 30]), r.pick(&[0, 5, 30]), r.pick(&[0, 10, 50, 90, 100]));
    let mut entries = BTreeMap::new();
    while (entries.len() as u64) < many {
        let a = if r.chance(3) { r.word() } else { 100 + r.below(3 * rows as u64 + 4) };
        if a == ALL_ONES || entries.contains_key(&a) {
            continue;
        }
        let hold = match r.below(10) {
            _ if !r.chance(held) => Hold::Free,
            0..=3 => Hold::Writer,
            4..=7 => Hold::Readers(r.between(1, 3) as u32),
            _ => Hold::Readers(READER_LIMIT - r.below(3) as u32),
        };
        let entry = Entry {
            size: size(r, scale).clamp(1, SIZE_LIMIT),
            dirty: r.chance(dirty),
            idle: if r.chance(50) { r.below(3) } else { r.below(IDLE_LIMIT + 1) },
            pinned: r.chance(pinned),
            hold,
            row: row_numbers[entries.len()],
        };
        entries.insert(a, entry);
    }
    let mut listed: Vec<u64> = entries.iter().filter(|(_, e)| e.is_listed()).map(|(a, _)| *a).collect();
    r.shuffle(&mut listed);
    let accesses = match r.below(10) {
        0 => 0,
        1 => r.below(settings.epoch_length),
        _ => settings.epoch_length - 1 - r.below(4),
    };
    let hits = match r.below(5) {
        0 => 0,
        1 => accesses,
        2 => accesses - accesses / 10,
        _ => r.below(accesses + 1),
    };
    // Often full: held bytes at the maximum or above.
    let total: u64 = entries.values().map(|e| e.size).sum();
    let maximum = if r.chance(50) { total } else { r.between(settings.minimum_size, settings.maximum_size) };
    let threshold = if r.chance(80) { r.between(1, 5_000) } else { r.between(1, THRESHOLD_LIMIT) };
    let count = match r.below(10) {
        0 => 0,
        1 => COUNT_STOP,
        2 => COUNT_STOP - r.below(2_000),
        3 => threshold,
        _ => r.below(10_000),
    };
    let mut m = Model {
        rows,
        mode,
        threshold,
        settings,
        maximum: maximum.clamp(settings.minimum_size, settings.maximum_size),
        accesses,
        hits,
        count,
        next: messages::some_next(r),
        exceeded: r.chance(50),
        entries,
        recency: VecDeque::from(listed),
        reached: Reached::default(),
    };
    if r.chance(25) {
        near_maximum(r, &mut m);
    }
    match r.below(10) {
        0 => rise_at_edge(r, &mut m),
        1 | 2 => fall_at_edge(r, &mut m),
        3 => share_lost_by_fall(r, &mut m),
        _ if r.chance(20) => share_at_edge(r, &mut m),
        _ => {}
    }
    m
}

/// Held bytes come near the maximum, at the end of an epoch with a poor rate and the increase rule on.
fn near_maximum(r: &mut Random, m: &mut Model) {
    let held = m.held();
    let maximum = match r.below(6) {
        0 => held,
        1 => held + 1,
        2 => held - held / 100,
        _ => held + held * r.between(1, 5) / 100,
    };
    m.maximum = maximum.clamp(SMALLEST_MAXIMUM, SIZE_LIMIT);
    let s = &mut m.settings;
    s.minimum_size = s.minimum_size.min(m.maximum);
    s.maximum_size = s.maximum_size.max(m.maximum * r.between(1, 2)).min(SIZE_LIMIT);
    s.evictions = true;
    s.increase = Increase::Threshold { lower: 0.9, multiplier: r.pick(&[1.1, 1.5, 2.0]) };
    if s.bad_field(false).is_some() {
        s.decrease = Decrease::Off;
    }
    m.accesses = s.epoch_length - 1 - r.below(4);
    m.hits = r.below(m.accesses / 2);
}

/// A limit on the value of a rule: at the value or the other limit, a byte beside it, or between value and maximum.
fn limit_near(r: &mut Random, m: &Model, value: u64, other: u64) -> u64 {
    match r.below(4) {
        0 => about(r, value),
        1 | 2 => about(r, other),
        _ => r.between(value.min(m.maximum), value.max(m.maximum)),
    }
}

/// The next protect ends an epoch, with a poor rate in a full cache or with a good one.
fn before_epochs_end(r: &mut Random, m: &mut Model, poor: bool) {
    let s = &mut m.settings;
    s.evictions = true;
    s.initial_size = m.maximum;
    m.exceeded = poor;
    m.accesses = s.epoch_length - 1;
    m.hits = if poor { r.below(m.accesses / 2) } else { m.accesses - r.below(5) };
}

/// An increase with maximum size and the cap near its own value and near each other.
fn rise_at_edge(r: &mut Random, m: &mut Model) {
    let multiplier = r.pick(&[1.1, 1.5, 2.0]);
    let raw = (m.maximum as f64 * multiplier) as u64;
    let largest = limit_near(r, m, raw, raw).clamp(m.maximum, SIZE_LIMIT);
    let capped = limit_near(r, m, raw, largest);
    m.settings.maximum_size = largest;
    m.settings.increase_cap = Cap::UpTo(capped.saturating_sub(m.maximum).min(SIZE_LIMIT));
    m.settings.increase = Increase::Threshold { lower: 0.9, multiplier };
    m.settings.decrease = Decrease::Off;
    before_epochs_end(r, m, true);
}

/// A decrease with minimum size and the cap near its own value and near each other.
fn fall_at_edge(r: &mut Random, m: &mut Model) {
    let (epochs, reserve, multiplier) = (r.pick(&[1, 3, 10]), r.pick(&[0.0, 0.1, 0.5]), r.pick(&[0.25, 0.5, 0.9]));
    m.settings.increase = Increase::Off;
    m.settings.decrease = match r.below(3) {
        0 => Decrease::Threshold { upper: 0.5, multiplier },
        1 => Decrease::AgeOut { epochs, reserve },
        _ => Decrease::AgeOutWithThreshold { upper: 0.5, epochs, reserve },
    };
    if r.chance(50) {
        m.entries.values_mut().for_each(|e| e.idle = 0);
    }
    let goes = |e: &&Entry| e.is_listed() && e.idle >= epochs && (!e.dirty || m.mode == Mode::Alone);
    let kept = m.held() - m.entries.values().filter(goes).map(|e| e.size).sum::<u64>();
    let raw = match m.settings.decrease {
        Decrease::Threshold { .. } => (m.maximum as f64 * multiplier) as u64,
        _ => (kept as f64 / (1.0 - reserve)) as u64,
    };
    if raw >= m.maximum {
        m.maximum = (raw + 1 + r.below(raw)).clamp(SMALLEST_MAXIMUM, SIZE_LIMIT);
        m.settings.maximum_size = m.settings.maximum_size.max(m.maximum);
    }
    let (smallest, capped) = match r.below(6) {
        0 => (raw, 0),
        1 => (0, raw),
        _ => {
            let smallest = limit_near(r, m, raw, raw);
            (smallest, limit_near(r, m, raw, smallest))
        }
    };
    m.settings.minimum_size = smallest.clamp(SMALLEST_MAXIMUM, m.maximum);
    m.settings.decrease_cap = Cap::UpTo(m.maximum.saturating_sub(capped));
    before_epochs_end(r, m, false);
}

/// Three quarters are unused until the next protect lowers the maximum, to half or by age-out; half is to be clean.
fn share_lost_by_fall(r: &mut Random, m: &mut Model) {
    m.maximum = (4 * m.held()).clamp(SMALLEST_MAXIMUM, SIZE_LIMIT);
    let s = &mut m.settings;
    s.minimum_size = SMALLEST_MAXIMUM;
    s.maximum_size = s.maximum_size.max(m.maximum);
    s.clean_fraction = 0.5;
    (s.increase, s.flash) = (Increase::Off, Flash::Off);
    s.decrease = match r.below(2) {
        0 => Decrease::Threshold { upper: 0.5, multiplier: 0.5 },
        _ => Decrease::AgeOut { epochs: 5, reserve: 0.1 },
    };
    s.decrease_cap = Cap::None;
    before_epochs_end(r, m, false);
}

/// The clean fraction becomes one by which the clean share is just met, or a byte above or below, if there is one.
fn share_at_edge(r: &mut Random, m: &mut Model) {
    let share = m.clean_share(0);
    let minimum = share.clean + share.unused + r.below(3) as i128 - 1;
    // A half more, so that no rounding changes the whole part.
    let fraction = (minimum as f64 + 0.5) / m.maximum as f64;
    if (0.0..=1.0).contains(&fraction) {
        m.settings.clean_fraction = fraction;
    }
}

/// One word at the edge of what refusal 1 lets pass, or just past it.
fn word_at_edge(r: &mut Random, words: &[u64], rows: usize) -> (usize, u64) {
    let row = table::HEADER + r.below(rows as u64) as usize * table::ROW;
    let accesses = words[5];
    let [largest, smallest, epoch] = [4, 5, 6].map(|i| words[table::SETTINGS + i]);
    let past = r.below(2);
    match r.below(16) {
        0 => (1, r.pick(&[0, rows as u64 - past, rows as u64 + past, ROW_LIMIT + past])),
        1 => (2, 2 + past),
        2 => (3, r.pick(&[1 - past, THRESHOLD_LIMIT + past])),
        3 => (4, r.pick(&[largest.wrapping_add(past), smallest.wrapping_sub(past)])),
        4 => (5, epoch.wrapping_sub(1 - past)),
        5 => (6, accesses.wrapping_add(past)),
        6 => (7, COUNT_STOP + past),
        7 => (row, ALL_ONES - 1 + past),
        8 => (row + 1, r.pick(&[1 - past, SIZE_LIMIT + past])),
        9 => (row + 2 + 2 * r.below(2) as usize, 1 + past),
        10 => (row + 3, IDLE_LIMIT + past),
        // The version before.
        11 => (0, table::VERSION - past),
        12 => (table::NEXT, messages::some_next(r)),
        13 => (table::EXCEEDED, 1 - words[table::EXCEEDED].min(1)),
        14 => (table::EXCEEDED, r.pick(&[2, 3, 1 << 32, 1 << 63, u64::MAX - 1, u64::MAX])),
        _ => (row + 5, READER_LIMIT as u64 + past + r.below(2)),
    }
}

/// The table in the layout before, without the word for `exceeded`: with its version, or with the present one.
fn in_layout_before(r: &mut Random, words: &[u64]) -> Vec<(usize, u64)> {
    let version = table::VERSION - r.below(2);
    let before = [&[version], &words[1..table::EXCEEDED], &words[table::SETTINGS..]].concat();
    before.into_iter().enumerate().collect()
}

/// Damage to a table with so many rows: words and their new values.
pub fn damage(r: &mut Random, words: &[u64], rows: usize) -> Vec<(usize, u64)> {
    let layout = table::table_words(rows).min(words.len());
    let runs = table::HEADER + rows * table::ROW;
    match r.below(100) {
        0..=29 => return vec![word_at_edge(r, words, rows)],
        30..=31 => return in_layout_before(r, &words[..layout]),
        _ => {}
    }
    let many = if r.chance(70) { 1 } else { r.between(2, 12) };
    let mut new: Vec<(usize, u64)> = Vec::new();
    for _ in 0..many {
        let at = match r.below(4) {
            0 => r.below(table::HEADER as u64) as usize,
            1 => r.between(table::HEADER as u64, runs as u64 - 1) as usize,
            2 => r.between(runs as u64, layout as u64 - 1) as usize,
            _ => r.below(words.len() as u64) as usize,
        };
        let old = words[at];
        match r.below(12) {
            0 => new.push((at, old ^ 1 << r.below(64))),
            1 => new.push((at, r.word())),
            2 => new.push((at, old.wrapping_add(1))),
            3 => new.push((at, old.wrapping_sub(1))),
            4 => new.push((at, r.below(rows as u64 + 1))),
            5 => new
                .push((at, r.pick(&[65_535, 65_536, 65_537, SIZE_LIMIT, SIZE_LIMIT + 1, COUNT_STOP, COUNT_STOP + 1]))),
            6 => new.push((at, r.unit().to_bits())),
            7 | 8 => {
                // Two words of a run change places.
                let run = runs + if r.chance(70) { 0 } else { rows };
                let (a, b) = (run + r.below(rows as u64) as usize, run + r.below(rows as u64) as usize);
                new.extend([(a, words[b]), (b, words[a])]);
            }
            9 => {
                // A row becomes another's likeness.
                let (a, b) = (r.below(rows as u64) as usize, r.below(rows as u64) as usize);
                let row = |x: usize| table::HEADER + x * table::ROW;
                new.extend((0..table::ROW).map(|i| (row(a) + i, words[row(b) + i])));
            }
            _ => new.push((at, r.pick(&[0, 1, 2, 3, 10, 11, u64::MAX, u64::MAX - 1]))),
        }
    }
    new.retain(|(at, _)| *at < words.len());
    new
}
