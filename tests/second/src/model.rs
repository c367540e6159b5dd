//! The cache as the rules describe it: entries by address, and a queue of addresses for the recency
//! list. Sums are taken anew wherever they are needed.

use crate::message::{self, Fault, Numbered};
use crate::reached::{Place, Reached};
use std::collections::{BTreeMap, BTreeSet, VecDeque};

pub const ALL_ONES: u64 = u64::MAX;
pub const ROW_LIMIT: u64 = 4_096;
pub const SIZE_LIMIT: u64 = 134_217_728;
pub const THRESHOLD_LIMIT: u64 = 1_073_741_824;
pub const COUNT_STOP: u64 = 1_099_511_627_776;
pub const READER_LIMIT: u32 = 65_535;
pub const IDLE_LIMIT: u64 = 10;
/// The number of a cache's first message.
pub const FIRST_NUMBER: u64 = 1;
pub const LAST_NUMBER: u64 = u64::MAX;
/// The next number where none is left.
pub const NONE_LEFT: u64 = 0;

/// The most orders that one request gives; a reason is one word.
pub fn reason_words(rows: usize) -> usize {
    2 * rows + 1
}

/// The words that the orders of one request may need.
pub fn order_words(rows: usize) -> usize {
    3 * reason_words(rows)
}

#[derive(Clone, Copy, Debug, PartialEq, Eq)]
pub enum Mode {
    Alone,
    Lead,
    Standby,
}

#[derive(Clone, Copy, Debug, PartialEq)]
pub enum Increase {
    Off,
    Threshold {
        lower: f64,
        multiplier: f64,
    },
    /// A kind that stands for nothing: on, and bad.
    Unknown,
}

/// The cap on one change of the maximum.
#[derive(Clone, Copy, Debug, PartialEq, Eq)]
pub enum Cap {
    None,
    UpTo(u64),
    Unknown,
}

impl Cap {
    fn bytes(self) -> Option<u64> {
        match self {
            Cap::UpTo(bytes) => Some(bytes),
            _ => None,
        }
    }
}

#[derive(Clone, Copy, Debug, PartialEq)]
pub enum Flash {
    Off,
    On { multiple: f64, threshold: f64 },
    Unknown,
}

#[derive(Clone, Copy, Debug, PartialEq)]
pub enum Decrease {
    Off,
    Threshold { upper: f64, multiplier: f64 },
    AgeOut { epochs: u64, reserve: f64 },
    AgeOutWithThreshold { upper: f64, epochs: u64, reserve: f64 },
    Unknown,
}

#[derive(Clone, Copy, Debug, PartialEq)]
pub struct Settings {
    pub evictions: bool,
    pub initial_is_set: bool,
    pub initial_size: u64,
    pub clean_fraction: f64,
    pub maximum_size: u64,
    pub minimum_size: u64,
    pub epoch_length: u64,
    pub increase: Increase,
    pub increase_cap: Cap,
    pub flash: Flash,
    pub decrease: Decrease,
    pub decrease_cap: Cap,
}

impl Settings {
    pub fn default_values(mode: Mode) -> Settings {
        Settings {
            evictions: true,
            initial_is_set: true,
            initial_size: 2_097_152,
            clean_fraction: if mode == Mode::Alone { 0.01 } else { 0.3 },
            maximum_size: 33_554_432,
            minimum_size: 1_048_576,
            epoch_length: 50_000,
            increase: Increase::Threshold { lower: 0.9, multiplier: 2.0 },
            increase_cap: Cap::UpTo(4_194_304),
            flash: Flash::On { multiple: 1.0, threshold: 0.25 },
            decrease: Decrease::AgeOutWithThreshold { upper: 0.999, epochs: 3, reserve: 0.1 },
            decrease_cap: Cap::UpTo(1_048_576),
        }
    }

    /// The lowest bad field, if any.
    pub fn bad_field(&self, opening: bool) -> Option<u64> {
        let unit = |x: f64| (0.0..=1.0).contains(&x);
        let any_rule = self.increase != Increase::Off || self.flash != Flash::Off || self.decrease != Decrease::Off;
        if !self.evictions && any_rule {
            return Some(1);
        }
        if opening && !self.initial_is_set {
            return Some(2);
        }
        if self.initial_is_set && !(self.minimum_size <= self.initial_size && self.initial_size <= self.maximum_size) {
            return Some(3);
        }
        if !unit(self.clean_fraction) {
            return Some(4);
        }
        let size = |n: u64| (1_024..=SIZE_LIMIT).contains(&n);
        if !size(self.maximum_size) {
            return Some(5);
        }
        if !size(self.minimum_size) || self.minimum_size > self.maximum_size {
            return Some(6);
        }
        if !(100..=1_000_000).contains(&self.epoch_length) {
            return Some(7);
        }
        if self.increase == Increase::Unknown {
            return Some(8);
        }
        if let Increase::Threshold { lower, multiplier } = self.increase {
            let multiplier_is_good = multiplier > 1.0 && multiplier <= 2.0;
            if !unit(lower) || !multiplier_is_good {
                return Some(8);
            }
            let upper = match self.decrease {
                Decrease::Threshold { upper, .. } | Decrease::AgeOutWithThreshold { upper, .. } => Some(upper),
                _ => None,
            };
            let in_order = upper.is_none_or(|upper| lower < upper);
            if !in_order {
                return Some(8);
            }
        }
        let cap = |c: Cap| match c {
            Cap::None => true,
            Cap::UpTo(bytes) => bytes <= SIZE_LIMIT,
            Cap::Unknown => false,
        };
        if !cap(self.increase_cap) {
            return Some(9);
        }
        if self.flash == Flash::Unknown {
            return Some(10);
        }
        if let Flash::On { multiple, threshold } = self.flash {
            if !(0.1..=10.0).contains(&multiple) || !(0.1..=1.0).contains(&threshold) {
                return Some(10);
            }
        }
        let decrease_is_good = match self.decrease {
            Decrease::Off => true,
            Decrease::Unknown => false,
            Decrease::Threshold { upper, multiplier } => unit(upper) && unit(multiplier),
            Decrease::AgeOut { epochs, reserve } => (1..=10).contains(&epochs) && unit(reserve),
            Decrease::AgeOutWithThreshold { upper, epochs, reserve } => {
                unit(upper) && (1..=10).contains(&epochs) && unit(reserve)
            }
        };
        if !decrease_is_good {
            return Some(11);
        }
        if !cap(self.decrease_cap) {
            return Some(12);
        }
        None
    }
}

#[derive(Clone, Copy, Debug, PartialEq, Eq)]
pub enum Hold {
    Free,
    Readers(u32),
    Writer,
}

#[derive(Clone, Copy, Debug, PartialEq, Eq)]
pub struct Entry {
    pub size: u64,
    pub dirty: bool,
    pub idle: u64,
    pub pinned: bool,
    pub hold: Hold,
    pub row: usize,
}

impl Entry {
    pub fn is_listed(&self) -> bool {
        self.hold == Hold::Free && !self.pinned
    }

    /// Whether its pin alone keeps it off the recency list.
    pub fn is_pinned_only(&self) -> bool {
        self.hold == Hold::Free && self.pinned
    }
}

#[derive(Clone, Copy, Debug, PartialEq)]
pub enum Request {
    Insert {
        address: u64,
        size: u64,
    },
    Protect {
        writing: bool,
        address: u64,
        size: u64,
    },
    Release {
        address: u64,
        changed: Option<u64>,
    },
    Pin {
        address: u64,
    },
    Unpin {
        address: u64,
    },
    Resize {
        address: u64,
        size: u64,
    },
    Discard {
        address: u64,
    },
    Flush,
    Sync,
    Take,
    Configure(Settings),
    /// A kind that stands for nothing.
    Unknown,
}

#[derive(Clone, Copy, Debug, PartialEq, Eq)]
pub enum Order {
    Write { address: u64, size: u64 },
    Evict { address: u64, size: u64 },
    Load { address: u64, size: u64 },
}

impl Order {
    pub fn words(&self) -> [u64; 3] {
        match *self {
            Order::Write { address, size } => [1, address, size],
            Order::Evict { address, size } => [2, address, size],
            Order::Load { address, size } => [3, address, size],
        }
    }
}

/// The rule by which an order is given.
#[derive(Clone, Copy, Debug, PartialEq, Eq)]
pub enum Reason {
    RoomByBytes = 1,
    RoomByRows = 2,
    CleanShare = 3,
    AgedOut = 4,
    Flush = 5,
    Sync = 6,
    Load = 7,
}

/// The rule by which the maximum changes.
#[derive(Clone, Copy, Debug, PartialEq, Eq)]
pub enum Cause {
    Increase = 1,
    Flash = 2,
    Threshold = 3,
    AgeOut = 4,
    Settings = 5,
}

/// What may cut the value of a rule: a field of the settings, by its number.
#[derive(Clone, Copy, Debug, PartialEq, Eq, PartialOrd, Ord)]
pub enum Bound {
    None = 0,
    MaximumSize = 5,
    MinimumSize = 6,
    IncreaseCap = 9,
    DecreaseCap = 12,
}

/// What the bounds that are not named do to a rule's own value.
#[derive(Clone, Copy, Debug, PartialEq, Eq)]
pub enum Others {
    None,
    /// One cuts it too, to a value that another holds.
    Cut,
    /// One cuts it too, to the same value.
    Tie,
    /// None cuts it, and this one just does not.
    Equal(Bound),
}

/// A change of the maximum.
#[derive(Clone, Copy, Debug, PartialEq, Eq)]
pub struct Change {
    pub cause: Cause,
    /// The bound that holds the new value.
    pub bound: Bound,
    pub others: Others,
}

impl Change {
    /// The change by a rule whose own value is `raw`, to `value`. Of the limits, those that raw is past cut it, and of
    /// these the ones that are the value hold it; the lowest is named.
    fn by(cause: Cause, raw: u64, value: u64, limits: &[(Bound, Option<u64>)], past: fn(&u64, &u64) -> bool) -> Change {
        let lowest_at = |n: u64| limits.iter().filter(|(_, limit)| *limit == Some(n)).map(|(bound, _)| *bound).min();
        let cut = limits.iter().filter(|(_, limit)| limit.is_some_and(|limit| past(&raw, &limit)));
        let (holding, other): (Vec<_>, Vec<_>) = cut.partition(|(_, limit)| *limit == Some(value));
        Change {
            cause,
            bound: holding.iter().map(|(bound, _)| *bound).min().unwrap_or(Bound::None),
            others: match (holding.len(), other.len()) {
                (0, _) => lowest_at(raw).map_or(Others::None, Others::Equal),
                (1, 0) => Others::None,
                (1, _) => Others::Cut,
                _ => Others::Tie,
            },
        }
    }
}

/// What an accepted request did.
#[derive(Clone, Debug, Default, PartialEq, Eq)]
pub struct Done {
    pub orders: Vec<Order>,
    /// One for each order.
    pub reasons: Vec<Reason>,
    /// No request changes the maximum twice.
    pub change: Option<Change>,
}

impl Done {
    fn give(&mut self, order: Order, reason: Reason) {
        self.orders.push(order);
        self.reasons.push(reason);
    }

    /// The cause and the bound of the change, both 0 where there is none.
    pub fn change_words(&self) -> [u64; 2] {
        self.change.map_or([0, 0], |change| [change.cause as u64, change.bound as u64])
    }

    fn changes(&mut self, change: Change) {
        assert_eq!(self.change, None, "a request changes the maximum once");
        self.change = Some(change);
    }
}

/// How many words are lent for the orders and the reasons of a request.
#[derive(Clone, Copy, Debug)]
pub struct Lent {
    pub orders: usize,
    pub reasons: usize,
}

/// A refusal's number, with the field's number where it is 12.
#[derive(Clone, Copy, Debug, PartialEq, Eq)]
pub struct Refusal {
    pub number: u64,
    pub field: u64,
}

fn refused<T>(number: u64) -> Result<T, Refusal> {
    Err(Refusal { number, field: 0 })
}

#[derive(Clone, Debug, Default, PartialEq, Eq)]
pub struct Report {
    pub held: u64,
    pub dirty: u64,
    pub entries: u64,
    pub maximum: u64,
    pub minimum_clean: u64,
    pub missing: u64,
    pub count: u64,
    pub due: bool,
    pub next: u64,
    pub totals: [u64; 11],
}

/// What the clean share is made of, in bytes.
#[derive(Clone, Copy, Debug, PartialEq, Eq)]
pub struct CleanShare {
    /// Clean, in entries neither held nor pinned.
    pub clean: i128,
    /// The maximum less held and incoming, not below 0.
    pub unused: i128,
    pub minimum: i128,
}

impl CleanShare {
    /// How far clean and unused bytes are above the minimum; below 0, how far they are short of it.
    pub fn beyond(&self) -> i128 {
        self.clean + self.unused - self.minimum
    }

    /// How many bytes are missing, 0 when it is met.
    pub fn missing(&self) -> i128 {
        (-self.beyond()).max(0)
    }
}

#[derive(Clone, Debug)]
pub struct Model {
    pub rows: usize,
    pub mode: Mode,
    pub threshold: u64,
    pub settings: Settings,
    pub maximum: u64,
    pub accesses: u64,
    pub hits: u64,
    pub count: u64,
    /// The number of the next message that a lead sends or a standby takes.
    pub next: u64,
    /// Whether making room found held plus incoming above the maximum since the counters last restarted.
    pub exceeded: bool,
    pub entries: BTreeMap<u64, Entry>,
    /// Front is the head, back is the tail.
    pub recency: VecDeque<u64>,
    /// How often each place of the rules was reached.
    pub reached: Reached,
}

/// What a restart of the counters did.
struct Restart {
    /// Whether `exceeded` was set before.
    cleared: bool,
}

/// The places of a restart: `exceeded` is cleared, the room that follows sets it, and both.
type RestartPlaces = [Place; 3];
const FLASH_RESTART: RestartPlaces = [Place::ClearedByFlash, Place::SetAfterFlash, Place::SetAgainAfterFlash];
const EPOCH_RESTART: RestartPlaces = [Place::ClearedByEpoch, Place::SetAfterEpoch, Place::SetAgainAfterEpoch];
const CONFIGURE_RESTART: RestartPlaces =
    [Place::ClearedByConfigure, Place::SetAfterConfigure, Place::SetAgainAfterConfigure];

/// The whole part of a float as a size.
fn whole(x: f64) -> u64 {
    x as u64
}

/// The answer to opening: a mode that is none of the three is `None`.
pub fn open(
    rows: u64,
    table_is_long_enough: bool,
    mode: Option<Mode>,
    threshold: u64,
    settings: Settings,
) -> Result<Model, Refusal> {
    if !(1..=ROW_LIMIT).contains(&rows) || !table_is_long_enough {
        return refused(1);
    }
    let mode = match mode {
        Some(m) if (1..=THRESHOLD_LIMIT).contains(&threshold) => m,
        _ => return refused(5),
    };
    if let Some(field) = settings.bad_field(true) {
        return Err(Refusal { number: 12, field });
    }
    Ok(Model {
        rows: rows as usize,
        mode,
        threshold,
        settings,
        maximum: settings.initial_size,
        accesses: 0,
        hits: 0,
        count: 0,
        next: FIRST_NUMBER,
        exceeded: false,
        entries: BTreeMap::new(),
        recency: VecDeque::new(),
        reached: Reached::default(),
    })
}

impl Model {
    // ---- figures

    pub fn held(&self) -> u64 {
        self.entries.values().map(|e| e.size).sum()
    }

    fn minimum_clean(&self) -> u64 {
        whole(self.maximum as f64 * self.settings.clean_fraction)
    }

    pub fn clean_share(&self, incoming: u64) -> CleanShare {
        let clean = self.entries.values().filter(|e| e.is_listed() && !e.dirty);
        CleanShare {
            clean: clean.map(|e| i128::from(e.size)).sum(),
            unused: (i128::from(self.maximum) - i128::from(self.held()) - i128::from(incoming)).max(0),
            minimum: i128::from(self.minimum_clean()),
        }
    }

    pub fn report(&self) -> Report {
        let mut totals = [0; 11];
        for e in self.entries.values() {
            totals[e.idle as usize] += e.size;
        }
        Report {
            held: self.held(),
            dirty: self.entries.values().filter(|e| e.dirty).map(|e| e.size).sum(),
            entries: self.entries.len() as u64,
            maximum: self.maximum,
            minimum_clean: self.minimum_clean(),
            missing: self.clean_share(0).missing() as u64,
            count: self.count,
            due: self.count > self.threshold,
            next: self.next,
            totals,
        }
    }

    /// The dirty records with their sizes.
    pub fn dirty_records(&self) -> BTreeMap<u64, u64> {
        self.entries.iter().filter(|(_, e)| e.dirty).map(|(a, e)| (*a, e.size)).collect()
    }

    fn lowest_free_row(&self) -> Option<usize> {
        let mut used = vec![false; self.rows];
        for e in self.entries.values() {
            used[e.row] = true;
        }
        used.iter().position(|u| !u)
    }

    fn has_free_row(&self) -> bool {
        self.entries.len() < self.rows
    }

    // ---- the recency list

    fn unlist(&mut self, address: u64) {
        self.recency.retain(|a| *a != address);
    }

    fn move_to_head(&mut self, address: u64) {
        self.unlist(address);
        self.recency.push_front(address);
    }

    // ---- orders

    fn write(&mut self, address: u64, reason: Reason, done: &mut Done) {
        let e = self.entries.get_mut(&address).unwrap();
        e.dirty = false;
        done.give(Order::Write { address, size: e.size }, reason);
    }

    fn evict(&mut self, address: u64, reason: Reason, done: &mut Done) {
        let e = self.entries.remove(&address).unwrap();
        self.unlist(address);
        done.give(Order::Evict { address, size: e.size }, reason);
    }

    // ---- making room

    fn nearest_tail(&self, dirty: bool) -> Option<u64> {
        self.recency.iter().rev().copied().find(|a| self.entries[a].dirty == dirty)
    }

    /// From the tail, writes dirty entries of the recency list until the clean share is met.
    fn write_until_share_is_met(&mut self, incoming: u64, reason: Reason, done: &mut Done) {
        let listed: Vec<u64> = self.recency.iter().rev().copied().collect();
        let mut clean: u64 = listed.iter().map(|a| &self.entries[a]).filter(|e| !e.dirty).map(|e| e.size).sum();
        let unused = self.maximum.saturating_sub(self.held() + incoming);
        for a in listed {
            if clean + unused >= self.minimum_clean() {
                break;
            }
            let e = self.entries[&a];
            if e.dirty {
                self.write(a, reason, done);
                clean += e.size;
                self.reached.mark(Place::ShareWrite);
            }
        }
        let met = clean + unused >= self.minimum_clean();
        assert_eq!(met, self.clean_share(incoming).missing() == 0, "bytes are missing just where the share is not met");
        if !met {
            self.reached.mark(Place::ShareUnmet);
        }
    }

    /// Sets `exceeded` if held plus incoming is above the maximum. Held bytes do not rise while room is made, so it
    /// is found at the start or never.
    fn note_exceeded(&mut self, held: u64, incoming: u64, row: bool) {
        let needed = held + incoming;
        if !self.exceeded {
            let mut mark = |place, when| self.reached.mark_when(place, when);
            mark(Place::ExceededSet, needed > self.maximum);
            mark(Place::ExceededByOne, needed == self.maximum + 1);
            mark(Place::ExceededForNothing, needed > self.maximum && incoming == 0);
            mark(Place::JustFits, needed == self.maximum);
            mark(Place::RowsAlone, needed <= self.maximum && row && self.entries.len() == self.rows);
        }
        self.exceeded |= needed > self.maximum;
    }

    /// What asks for an entry to go, where so many bytes are needed and perhaps a row. Bytes come first.
    fn pressing(&mut self, needed: u64, row: bool) -> Option<Reason> {
        let (place, reason) = match (needed > self.maximum, row && !self.has_free_row()) {
            (false, false) => return None,
            (true, false) => (Place::RoomByBytes, Reason::RoomByBytes),
            (true, true) => (Place::RoomByBoth, Reason::RoomByBytes),
            (false, true) => (Place::RoomByRows, Reason::RoomByRows),
        };
        self.reached.mark(place);
        Some(reason)
    }

    fn make_room(&mut self, incoming: u64, row: bool, done: &mut Done) {
        let mut held = self.held();
        if !self.settings.evictions {
            self.reached.mark_when(Place::OffAbove, !self.exceeded && held + incoming > self.maximum);
            return;
        }
        let (held_before, was_exceeded) = (held, self.exceeded);
        self.note_exceeded(held, incoming, row);
        while let Some(reason) = self.pressing(held + incoming, row) {
            let wanted = match self.mode {
                Mode::Alone => self.recency.back().copied(),
                _ => self.nearest_tail(false),
            };
            let Some(a) = wanted else {
                self.reached.mark(Place::NothingToGive);
                let set_now = self.exceeded && !was_exceeded;
                self.reached.mark_when(Place::ExceededNothingToGive, set_now && held == held_before);
                break;
            };
            let e = self.entries[&a];
            if e.dirty {
                self.write(a, reason, done);
                self.move_to_head(a);
                self.reached.mark(Place::TailMoved);
            } else {
                self.evict(a, reason, done);
                held -= e.size;
                self.reached.mark(Place::RoomEvict);
            }
        }
        if self.mode == Mode::Alone {
            self.write_until_share_is_met(incoming, Reason::CleanShare, done);
        }
    }

    // ---- resizing

    fn restart(&mut self) -> Restart {
        self.accesses = 0;
        self.hits = 0;
        Restart { cleared: std::mem::take(&mut self.exceeded) }
    }

    /// Counts a restart, after the room that follows it in the same request.
    fn mark_restart(&mut self, restart: Restart, [cleared, set, set_again]: RestartPlaces) {
        self.reached.mark_when(cleared, restart.cleared);
        self.reached.mark_when(set, self.exceeded);
        self.reached.mark_when(set_again, restart.cleared && self.exceeded);
    }

    fn mark_flash(&mut self, restart: Option<Restart>) {
        if let Some(restart) = restart {
            self.mark_restart(restart, FLASH_RESTART);
        }
    }

    /// The restart, if the maximum rose.
    fn flash(&mut self, x: u64, done: &mut Done) -> Option<Restart> {
        if let Flash::On { multiple, threshold } = self.settings.flash {
            if x as f64 > threshold * self.maximum as f64 {
                let free = self.maximum.saturating_sub(self.held());
                let rise = whole(x as f64 * multiple).saturating_sub(free);
                let (raw, largest) = (self.maximum + rise, self.settings.maximum_size);
                let raised = raw.min(largest);
                if raised > self.maximum {
                    self.reached.mark(if raised < raw { Place::FlashToLimit } else { Place::FlashRise });
                    self.maximum = raised;
                    let limits = [(Bound::MaximumSize, Some(largest))];
                    done.changes(Change::by(Cause::Flash, raw, raised, &limits, u64::gt));
                    return Some(self.restart());
                }
                self.reached.mark(Place::FlashNoRise);
                self.reached.mark_when(Place::KeptByFlash, self.exceeded);
            }
        }
        None
    }

    fn count_access(&mut self, hit: bool, done: &mut Done) {
        if self.settings.increase == Increase::Off && self.settings.decrease == Decrease::Off {
            return;
        }
        self.accesses += 1;
        if hit {
            self.hits += 1;
        }
        self.reached.mark(if hit { Place::Hit } else { Place::Miss });
        if self.accesses == self.settings.epoch_length {
            self.end_epoch(done);
        }
    }

    /// Full: the maximum was exceeded since the counters last restarted, or held bytes reach it now.
    fn is_full(&self) -> bool {
        self.exceeded || self.held() >= self.maximum
    }

    /// Counts what makes the cache full, or not, at an epoch's end with a rate below the lower one.
    fn mark_full(&mut self) {
        let held = self.held();
        let mut mark = |place, when| self.reached.mark_when(place, when);
        let reaches = held >= self.maximum;
        mark(Place::FullByBoth, self.exceeded && reaches);
        mark(Place::FullByExceeded, self.exceeded && !reaches);
        mark(Place::FullByHeld, !self.exceeded && reaches);
        mark(Place::FullByHeldJust, !self.exceeded && held == self.maximum);
        mark(Place::NotFull, !self.exceeded && !reaches);
        mark(Place::NotFullByOne, !self.exceeded && held + 1 == self.maximum);
    }

    /// The maximum rises by the multiplier, within its bounds.
    fn increase(&mut self, multiplier: f64, done: &mut Done) {
        let before = self.maximum;
        let below_maximum = self.held() < before;
        let (raw, largest) = (whole(before as f64 * multiplier), self.settings.maximum_size);
        let mut n = raw.min(largest);
        if let Cap::UpTo(cap) = self.settings.increase_cap {
            if before + cap < n {
                n = before + cap;
                self.reached.mark(Place::IncreaseCapped);
            }
        }
        self.maximum = n;
        if n > before {
            let capped = self.settings.increase_cap.bytes().map(|cap| before + cap);
            let limits = [(Bound::IncreaseCap, capped), (Bound::MaximumSize, Some(largest))];
            done.changes(Change::by(Cause::Increase, raw, n, &limits, u64::gt));
        }
        self.reached.mark(if n > before { Place::Increase } else { Place::IncreaseToNothing });
        self.reached.mark_when(Place::FullByExceededRise, n > before && below_maximum);
        self.reached.mark_when(Place::FullByHeldRise, n > before && !self.exceeded);
    }

    fn end_epoch(&mut self, done: &mut Done) {
        self.reached.mark(Place::EpochEnd);
        let rate = self.hits as f64 / self.accesses as f64;
        let before = self.maximum;
        if let Increase::Threshold { lower, multiplier } = self.settings.increase {
            if rate < lower {
                self.mark_full();
                if self.is_full() {
                    self.increase(multiplier, done);
                }
            }
        }
        if self.maximum == before {
            match self.settings.decrease {
                Decrease::Off | Decrease::Unknown => {}
                Decrease::Threshold { upper, multiplier } => {
                    if rate > upper {
                        self.reached.mark(Place::ThresholdDecrease);
                        self.lower(whole(self.maximum as f64 * multiplier), Cause::Threshold, done);
                    }
                }
                Decrease::AgeOut { epochs, reserve } => self.age_out(epochs, reserve, done),
                Decrease::AgeOutWithThreshold { upper, epochs, reserve } => {
                    if rate > upper {
                        self.age_out(epochs, reserve, done);
                        self.reached.mark_when(Place::AgeOutWithThreshold, done.change.is_some());
                    }
                }
            }
        }
        for e in self.entries.values_mut() {
            e.idle = (e.idle + 1).min(IDLE_LIMIT);
        }
        let restart = self.restart();
        self.make_room(0, false, done);
        self.mark_restart(restart, EPOCH_RESTART);
    }

    fn age_out(&mut self, epochs: u64, reserve: f64, done: &mut Done) {
        self.reached.mark(Place::AgeOut);
        let walk: Vec<u64> = self.recency.iter().rev().copied().collect();
        for a in walk {
            let e = self.entries[&a];
            if e.idle < epochs {
                continue;
            }
            if e.dirty {
                if self.mode != Mode::Alone {
                    self.reached.mark(Place::AgeOutKept);
                    continue;
                }
                self.write(a, Reason::AgedOut, done);
                self.reached.mark(Place::AgeOutWrite);
            }
            self.evict(a, Reason::AgedOut, done);
            self.reached.mark(Place::AgeOutEvict);
        }
        if reserve == 1.0 {
            self.reached.mark(Place::ReserveOne);
        } else {
            let kept = 1.0 - reserve;
            self.lower(whole(self.held() as f64 / kept), Cause::AgeOut, done);
        }
    }

    fn lower(&mut self, target: u64, cause: Cause, done: &mut Done) {
        if target < self.maximum {
            let mut t = target;
            if t < self.settings.minimum_size {
                t = self.settings.minimum_size;
                self.reached.mark(Place::DecreaseToMinimum);
            }
            if let Cap::UpTo(cap) = self.settings.decrease_cap {
                if t < self.maximum.saturating_sub(cap) {
                    t = self.maximum.saturating_sub(cap);
                    self.reached.mark(Place::DecreaseCapped);
                }
            }
            if t < self.maximum {
                let capped = self.settings.decrease_cap.bytes().map(|cap| self.maximum.saturating_sub(cap));
                let smallest = Some(self.settings.minimum_size);
                let limits = [(Bound::DecreaseCap, capped), (Bound::MinimumSize, smallest)];
                done.changes(Change::by(cause, target, t, &limits, u64::lt));
                self.maximum = t;
                self.reached.mark(Place::Decrease);
            } else {
                self.reached.mark(Place::DecreaseToNothing);
            }
        }
    }

    // ---- requests

    fn add_to_count(&mut self, size: u64) {
        if self.count + size > COUNT_STOP {
            self.reached.mark(Place::CountStopped);
        }
        self.count = (self.count + size).min(COUNT_STOP);
    }

    /// Uses up the number of a message that is sent or taken.
    fn use_number(&mut self, list_is_empty: bool) {
        let [used, by_empty, last] = match self.mode {
            Mode::Lead => [Place::Sent, Place::SentEmpty, Place::SentLast],
            _ => [Place::Taken, Place::TakenEmpty, Place::TakenLast],
        };
        self.reached.mark(used);
        if list_is_empty {
            self.reached.mark(by_empty);
        }
        if self.next == LAST_NUMBER {
            self.reached.mark(last);
            self.next = NONE_LEFT;
        } else {
            self.next += 1;
        }
    }

    /// A lead's flush or sync sends the list of its write orders.
    fn send(&mut self, orders: &[Order]) {
        if self.mode == Mode::Lead {
            self.use_number(orders.is_empty());
        }
    }

    fn may_give_orders(request: &Request) -> bool {
        matches!(
            request,
            Request::Insert { .. }
                | Request::Protect { .. }
                | Request::Release { .. }
                | Request::Flush
                | Request::Sync
                | Request::Configure(_)
        )
    }

    /// Whether a row is wanted in vain.
    pub fn no_row(&self) -> bool {
        if self.has_free_row() {
            return false;
        }
        if !self.settings.evictions {
            return true;
        }
        match self.mode {
            Mode::Alone => self.recency.is_empty(),
            _ => self.nearest_tail(false).is_none(),
        }
    }

    /// The refusal of a taken message: its mode, the message's form, its number and its addresses are
    /// judged in this order.
    fn refusal_of_take(&self, message: &[u8]) -> Option<u64> {
        if self.mode != Mode::Standby {
            return Some(5);
        }
        let Numbered { number, list } = match message::read(message) {
            Ok(numbered) => numbered,
            Err(Fault::WrongByte) => return Some(15),
            Err(Fault::EndsEarly) => return Some(14),
        };
        if self.next == NONE_LEFT || number != self.next {
            return Some(16);
        }
        if list.contains(&ALL_ONES) {
            return Some(3);
        }
        let mut seen = BTreeSet::new();
        let is_dirty = |a: &u64| self.entries.get(a).is_some_and(|e| e.dirty);
        list.iter().any(|a| !is_dirty(a) || !seen.insert(*a)).then_some(13)
    }

    /// The refusal of a request, judged on the state before it: the lowest that applies, but for take.
    pub fn refusal(&self, request: &Request, message: &[u8], lent: usize) -> Option<Refusal> {
        let mut found: Vec<(u64, u64)> = Vec::new();
        let mut refuse = |when: bool, number: u64| {
            if when {
                found.push((number, 0));
            }
        };
        refuse(Self::may_give_orders(request) && lent < order_words(self.rows), 2);
        let bad_size = |s: u64| !(1..=SIZE_LIMIT).contains(&s);
        let entry = |a: u64| self.entries.get(&a);
        match *request {
            Request::Insert { address, size } => {
                refuse(address == ALL_ONES, 3);
                refuse(bad_size(size), 4);
                refuse(entry(address).is_some(), 7);
                refuse(self.no_row(), 11);
            }
            Request::Protect { writing, address, size } => {
                refuse(address == ALL_ONES, 3);
                refuse(bad_size(size), 4);
                match entry(address) {
                    Some(e) => {
                        let joins = match e.hold {
                            Hold::Free => true,
                            Hold::Readers(n) => !writing && n < READER_LIMIT,
                            Hold::Writer => false,
                        };
                        refuse(!joins, 8);
                    }
                    None => refuse(self.no_row(), 11),
                }
            }
            Request::Release { address, changed } => {
                refuse(address == ALL_ONES, 3);
                refuse(changed.is_some_and(bad_size), 4);
                match entry(address) {
                    None => refuse(true, 6),
                    Some(e) => {
                        refuse(changed.is_some() && matches!(e.hold, Hold::Readers(_)), 8);
                        refuse(e.hold == Hold::Free, 9);
                    }
                }
            }
            Request::Pin { address } => {
                refuse(address == ALL_ONES, 3);
                match entry(address) {
                    None => refuse(true, 6),
                    Some(e) => {
                        refuse(e.hold == Hold::Free, 9);
                        refuse(e.pinned, 10);
                    }
                }
            }
            Request::Unpin { address } => {
                refuse(address == ALL_ONES, 3);
                match entry(address) {
                    None => refuse(true, 6),
                    Some(e) => refuse(!e.pinned, 10),
                }
            }
            Request::Resize { address, size } => {
                refuse(address == ALL_ONES, 3);
                refuse(bad_size(size), 4);
                match entry(address) {
                    None => refuse(true, 6),
                    Some(e) => {
                        refuse(matches!(e.hold, Hold::Readers(_)), 8);
                        refuse(!e.pinned && e.hold != Hold::Writer, 9);
                    }
                }
            }
            Request::Discard { address } => {
                refuse(address == ALL_ONES, 3);
                if let Some(e) = entry(address) {
                    refuse(e.hold != Hold::Free, 8);
                    refuse(e.pinned, 10);
                }
            }
            Request::Flush => {
                refuse(self.mode == Mode::Standby, 5);
                refuse(self.entries.values().any(|e| e.hold != Hold::Free), 8);
                refuse(self.mode == Mode::Lead && self.next == NONE_LEFT, 16);
            }
            Request::Sync => {
                refuse(self.mode != Mode::Lead, 5);
                refuse(self.next == NONE_LEFT, 16);
            }
            Request::Take => {
                if let Some(number) = self.refusal_of_take(message) {
                    refuse(true, number);
                }
            }
            Request::Configure(s) => {
                if let Some(field) = s.bad_field(false) {
                    found.push((12, field));
                }
            }
            Request::Unknown => refuse(true, 5),
        }
        found.into_iter().min().map(|(number, field)| Refusal { number, field })
    }

    /// The refusal of a request that is to be explained: too few words for reasons are as too few for orders.
    pub fn refusal_to_explain(&self, request: &Request, message: &[u8], lent: Lent) -> Option<Refusal> {
        let few = lent.reasons < reason_words(self.rows);
        self.refusal(request, message, if few { 0 } else { lent.orders })
    }

    /// One request: its orders, or its refusal with nothing changed.
    pub fn step(&mut self, request: &Request, message: &[u8], lent: usize) -> Result<Vec<Order>, Refusal> {
        self.explain(request, message, Lent { orders: lent, reasons: reason_words(self.rows) }).map(|done| done.orders)
    }

    /// One request: its orders with their reasons and the change of the maximum, or its refusal with nothing changed.
    pub fn explain(&mut self, request: &Request, message: &[u8], lent: Lent) -> Result<Done, Refusal> {
        match self.refusal_to_explain(request, message, lent) {
            Some(refusal) => Err(refusal),
            None => Ok(self.carry_out(request, message)),
        }
    }

    /// What an accepted request does.
    fn carry_out(&mut self, request: &Request, message: &[u8]) -> Done {
        let mut done = Done::default();
        match *request {
            Request::Insert { address, size } => {
                self.admit(size, &mut done);
                self.place(address, Entry { size, dirty: true, idle: 0, pinned: false, hold: Hold::Free, row: 0 });
                self.move_to_head(address);
                self.add_to_count(size);
            }
            Request::Protect { writing, address, size } => {
                let fresh_hold = if writing { Hold::Writer } else { Hold::Readers(1) };
                let hit = self.entries.contains_key(&address);
                if hit {
                    self.unlist(address);
                    let e = self.entries.get_mut(&address).unwrap();
                    e.hold = match e.hold {
                        Hold::Readers(n) => Hold::Readers(n + 1),
                        _ => fresh_hold,
                    };
                    e.idle = 0;
                    if matches!(e.hold, Hold::Readers(n) if n > 1) {
                        self.reached.mark(Place::ReaderJoins);
                    }
                } else {
                    self.admit(size, &mut done);
                    done.give(Order::Load { address, size }, Reason::Load);
                    self.place(address, Entry { size, dirty: false, idle: 0, pinned: false, hold: fresh_hold, row: 0 });
                }
                self.count_access(hit, &mut done);
            }
            Request::Release { address, changed } => {
                let restart = changed.and_then(|size| self.take_size(address, size, &mut done));
                let e = self.entries.get_mut(&address).unwrap();
                e.hold = match e.hold {
                    Hold::Readers(n) if n > 1 => Hold::Readers(n - 1),
                    _ => Hold::Free,
                };
                if e.hold == Hold::Free {
                    e.idle = 0;
                    if !e.pinned {
                        self.move_to_head(address);
                    }
                    self.make_room(0, false, &mut done);
                }
                self.mark_flash(restart);
            }
            Request::Pin { address } => self.entries.get_mut(&address).unwrap().pinned = true,
            Request::Unpin { address } => {
                let e = self.entries.get_mut(&address).unwrap();
                e.pinned = false;
                if e.is_listed() {
                    self.move_to_head(address);
                }
            }
            Request::Resize { address, size } => {
                let restart = self.take_size(address, size, &mut done);
                self.mark_flash(restart);
                self.reached.mark_when(Place::ResizeAbove, !self.exceeded && self.held() > self.maximum);
            }
            Request::Discard { address } => {
                self.entries.remove(&address);
                self.unlist(address);
            }
            Request::Flush => {
                let dirty: Vec<u64> = self.dirty_records().into_keys().collect();
                for a in dirty {
                    self.write(a, Reason::Flush, &mut done);
                }
                self.count = 0;
                self.send(&done.orders);
            }
            Request::Sync => {
                self.write_until_share_is_met(0, Reason::Sync, &mut done);
                self.reached.mark_when(Place::SyncAbove, !self.exceeded && self.held() > self.maximum);
                self.count = 0;
                self.send(&done.orders);
            }
            Request::Take => {
                let Numbered { list, .. } = message::read(message).expect("a message");
                for a in &list {
                    self.entries.get_mut(a).unwrap().dirty = false;
                }
                self.count = 0;
                self.use_number(list.is_empty());
            }
            Request::Configure(s) => {
                self.settings = s;
                self.set_maximum(&mut done);
                let restart = self.restart();
                self.make_room(0, false, &mut done);
                self.mark_restart(restart, CONFIGURE_RESTART);
            }
            Request::Unknown => {}
        }
        done
    }

    /// New settings set the maximum, or bring it into their range.
    fn set_maximum(&mut self, done: &mut Done) {
        let (s, before) = (self.settings, self.maximum);
        self.maximum = if s.initial_is_set { s.initial_size } else { before.clamp(s.minimum_size, s.maximum_size) };
        self.reached.mark(match (self.maximum == before, s.initial_is_set) {
            (true, true) => Place::SetToTheSame,
            (true, false) => Place::KeptInRange,
            (false, true) => Place::SetToAnother,
            (false, false) => Place::BroughtIntoRange,
        });
        if self.maximum != before {
            let bound = if s.initial_is_set {
                Bound::None
            } else if before > s.maximum_size {
                Bound::MaximumSize
            } else {
                Bound::MinimumSize
            };
            done.changes(Change { cause: Cause::Settings, bound, others: Others::None });
        }
    }

    /// The flash, and the room for an entry that comes in.
    fn admit(&mut self, size: u64, done: &mut Done) {
        let restart = self.flash(size, done);
        self.make_room(size, true, done);
        self.mark_flash(restart);
    }

    fn place(&mut self, address: u64, entry: Entry) {
        let row = self.lowest_free_row().expect("a row is free");
        self.entries.insert(address, Entry { row, ..entry });
    }

    /// A changed release or a resize: the flash by the growth, the byte count if the entry was clean, the size, dirty.
    fn take_size(&mut self, address: u64, size: u64, done: &mut Done) -> Option<Restart> {
        let before = self.entries[&address];
        let restart = self.flash(size.saturating_sub(before.size), done);
        if !before.dirty {
            self.add_to_count(size);
        }
        let e = self.entries.get_mut(&address).unwrap();
        e.size = size;
        e.dirty = true;
        restart
    }
}
