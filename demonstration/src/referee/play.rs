//! Random play: records are created, changed, resized, read, pinned and discarded, lists are sent, and the
//! world moves.

use super::journal::Journal;
use super::random::Random;
use crate::world::{LARGEST, SLOTS};
use speldervacht::Change;
use std::sync::Arc;

/// Something that a host is to do.
pub enum Action {
    /// A change that both hosts get.
    Change(Change),
    Read {
        place: usize,
        address: u64,
        keep: bool,
        pin: bool,
    },
    LetGo {
        place: usize,
    },
    Flush,
    Sync,
    Move,
}

impl Action {
    pub fn text(&self) -> &'static str {
        match self {
            Action::Change(_) => "a change",
            Action::Read { .. } | Action::LetGo { .. } => "a read",
            Action::Flush | Action::Sync => "a list",
            Action::Move => "a move",
        }
    }
}

/// The next action. `due` is whether a list is due.
pub fn next(random: &mut Random, journal: &Journal, due: bool) -> Action {
    if due {
        return Action::Sync;
    }
    match random.below(1_000) {
        0..=399 => Action::Change(change(random, journal)),
        400..=899 => read(random, journal),
        900..=984 => Action::LetGo { place: random.below(2) as usize },
        985..=989 => Action::Flush,
        990..=994 => Action::Sync,
        _ => Action::Move,
    }
}

/// A change that both hosts get.
pub fn change(random: &mut Random, journal: &Journal) -> Change {
    // The more records there are, the more are discarded.
    let kind = random.below(100);
    let discards = 70 + journal.records().len() as u64 / 4;
    match some_record(random, journal, 0) {
        Some(address) if kind < 60 => Change::ReleaseChanged { address, bytes: contents(random) },
        Some(address) if kind < 70 => Change::Resize { address, bytes: contents(random) },
        Some(address) if kind < discards => Change::Discard { address },
        some => {
            let address = random.below(SLOTS);
            let free = (0..SLOTS).map(|n| (address + n) % SLOTS).find(|at| !journal.records().contains_key(at));
            match (free, some) {
                (Some(address), _) => Change::Insert { address, bytes: contents(random) },
                (None, some) => Change::Discard { address: some.unwrap_or(address) },
            }
        }
    }
}

fn read(random: &mut Random, journal: &Journal) -> Action {
    let place = random.below(2) as usize;
    let (keep, pin) = (random.once_in(10), random.once_in(20));
    match some_record(random, journal, 24 * place) {
        Some(address) => Action::Read { place, address, keep, pin },
        None => Action::LetGo { place },
    }
}

/// A record of the world, if there is any: half of the time one of a few from a place on.
fn some_record(random: &mut Random, journal: &Journal, from: usize) -> Option<u64> {
    let records = journal.records().len();
    let place = match random.below(2) {
        0 => from + random.below(12) as usize,
        _ => random.below(records.max(1) as u64) as usize,
    };
    (records > 0).then(|| journal.records().keys().nth(place % records).copied()).flatten()
}

/// A record's bytes.
pub fn contents(random: &mut Random) -> Arc<[u8]> {
    let largest = if random.once_in(10) { LARGEST } else { 400 };
    (0..1 + random.below(largest)).map(|_| random.below(256) as u8).collect()
}
