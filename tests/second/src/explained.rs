//! What explained requests gave, counted: reasons by mode and beside each other, and changes of the maximum.

use crate::model::{Bound, Cause, Change, Done, Mode, Others, Reason};
use crate::reached::{ExplainReached, Reached};

const MODES: [(Mode, &str); 3] = [(Mode::Alone, "alone"), (Mode::Lead, "lead"), (Mode::Standby, "standby")];

/// Each reason with the modes that can have it.
const REASONS: [(Reason, &str, &[Mode]); 7] = [
    (Reason::RoomByBytes, "room by bytes", &[Mode::Alone, Mode::Lead, Mode::Standby]),
    (Reason::RoomByRows, "room by rows", &[Mode::Alone, Mode::Lead, Mode::Standby]),
    (Reason::CleanShare, "clean share", &[Mode::Alone]),
    (Reason::AgedOut, "aged out", &[Mode::Alone, Mode::Lead, Mode::Standby]),
    (Reason::Flush, "flush", &[Mode::Alone, Mode::Lead]),
    (Reason::Sync, "sync", &[Mode::Lead]),
    (Reason::Load, "load", &[Mode::Alone, Mode::Lead, Mode::Standby]),
];

/// The reasons of one request that can stand beside each other: room, the load, and an epoch's end.
const NEIGHBOURS: [(Reason, Reason); 10] = [
    (Reason::RoomByBytes, Reason::CleanShare),
    (Reason::RoomByRows, Reason::CleanShare),
    (Reason::RoomByBytes, Reason::Load),
    (Reason::RoomByRows, Reason::Load),
    (Reason::CleanShare, Reason::Load),
    (Reason::Load, Reason::AgedOut),
    (Reason::Load, Reason::RoomByBytes),
    (Reason::Load, Reason::CleanShare),
    (Reason::AgedOut, Reason::RoomByBytes),
    (Reason::AgedOut, Reason::CleanShare),
];

/// The changes that there can be.
const CHANGES: [(Cause, Bound, Others); 30] = [
    (Cause::Increase, Bound::None, Others::None),
    (Cause::Increase, Bound::None, Others::Equal(Bound::MaximumSize)),
    (Cause::Increase, Bound::None, Others::Equal(Bound::IncreaseCap)),
    (Cause::Increase, Bound::MaximumSize, Others::None),
    (Cause::Increase, Bound::MaximumSize, Others::Cut),
    (Cause::Increase, Bound::MaximumSize, Others::Tie),
    (Cause::Increase, Bound::IncreaseCap, Others::None),
    (Cause::Increase, Bound::IncreaseCap, Others::Cut),
    (Cause::Flash, Bound::None, Others::None),
    (Cause::Flash, Bound::None, Others::Equal(Bound::MaximumSize)),
    (Cause::Flash, Bound::MaximumSize, Others::None),
    (Cause::Threshold, Bound::None, Others::None),
    (Cause::Threshold, Bound::None, Others::Equal(Bound::MinimumSize)),
    (Cause::Threshold, Bound::None, Others::Equal(Bound::DecreaseCap)),
    (Cause::Threshold, Bound::MinimumSize, Others::None),
    (Cause::Threshold, Bound::MinimumSize, Others::Cut),
    (Cause::Threshold, Bound::MinimumSize, Others::Tie),
    (Cause::Threshold, Bound::DecreaseCap, Others::None),
    (Cause::Threshold, Bound::DecreaseCap, Others::Cut),
    (Cause::AgeOut, Bound::None, Others::None),
    (Cause::AgeOut, Bound::None, Others::Equal(Bound::MinimumSize)),
    (Cause::AgeOut, Bound::None, Others::Equal(Bound::DecreaseCap)),
    (Cause::AgeOut, Bound::MinimumSize, Others::None),
    (Cause::AgeOut, Bound::MinimumSize, Others::Cut),
    (Cause::AgeOut, Bound::MinimumSize, Others::Tie),
    (Cause::AgeOut, Bound::DecreaseCap, Others::None),
    (Cause::AgeOut, Bound::DecreaseCap, Others::Cut),
    (Cause::Settings, Bound::None, Others::None),
    (Cause::Settings, Bound::MaximumSize, Others::None),
    (Cause::Settings, Bound::MinimumSize, Others::None),
];

fn name_of_reason(reason: Reason) -> &'static str {
    REASONS[reason as usize - 1].1
}

fn name_of_change((cause, bound, others): (Cause, Bound, Others)) -> String {
    let cause = match cause {
        Cause::Increase => "increase",
        Cause::Flash => "flash",
        Cause::Threshold => "threshold",
        Cause::AgeOut => "age-out",
        Cause::Settings => "settings",
    };
    let bound = match bound {
        Bound::None => "uncut".to_string(),
        bound => format!("held by {}", bound as u64),
    };
    let others = match others {
        Others::None => String::new(),
        Others::Cut => ", another cuts too".to_string(),
        Others::Tie => ", in a tie".to_string(),
        Others::Equal(bound) => format!(", just up to {}", bound as u64),
    };
    format!("{cause}: {bound}{others}")
}

/// How often each was met.
#[derive(Clone, Default)]
pub struct Explained {
    /// By reason and mode.
    reasons: [[u64; MODES.len()]; REASONS.len()],
    neighbours: [u64; NEIGHBOURS.len()],
    changes: [u64; CHANGES.len()],
    pub words: ExplainReached,
    /// Places of the rules.
    pub rules: Reached,
}

impl Explained {
    pub fn count(&mut self, mode: Mode, done: &Done) {
        for reason in &done.reasons {
            self.reasons[*reason as usize - 1][mode as usize] += 1;
        }
        for pair in done.reasons.windows(2).filter(|pair| pair[0] != pair[1]) {
            let at = NEIGHBOURS.iter().position(|known| *known == (pair[0], pair[1]));
            self.neighbours[at.unwrap_or_else(|| panic!("{pair:?} beside each other"))] += 1;
        }
        if let Some(Change { cause, bound, others }) = done.change {
            let at = CHANGES.iter().position(|known| *known == (cause, bound, others));
            self.changes[at.unwrap_or_else(|| panic!("{:?}", done.change))] += 1;
        }
    }

    /// What can be met, and how often it was.
    pub fn iter(&self) -> impl Iterator<Item = (String, u64)> + '_ {
        let reasons = REASONS.iter().zip(&self.reasons).flat_map(|((_, name, modes), times)| {
            let possible = MODES.iter().zip(times).filter(|((mode, _), _)| modes.contains(mode));
            possible.map(move |((_, mode), times)| (format!("reason: {name}, {mode}"), *times))
        });
        let neighbours = NEIGHBOURS.iter().zip(self.neighbours).map(|((first, second), times)| {
            (format!("reasons: {}, then {}", name_of_reason(*first), name_of_reason(*second)), times)
        });
        let changes = CHANGES.iter().zip(self.changes).map(|(change, times)| (name_of_change(*change), times));
        reasons.chain(neighbours).chain(changes)
    }
}
