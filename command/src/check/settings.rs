//! The rules of the settings' words.

use crate::finding::Finding;
use crate::layout::{Setting, Table};
use crate::text::{fraction, thousands};

/// What a word of the settings may be.
enum Allowed {
    Any,
    /// Whole numbers from the one to the other.
    Whole(u64, u64),
    /// Floats from the one to the other.
    Float(f64, f64),
    /// Floats above the one and up to the other.
    FloatAbove(f64, f64),
    /// Nothing but 0, since the rule of this kind has no such particular.
    Absent,
}

const SMALLEST_CACHE: u64 = 1_024;
const LARGEST_CACHE: u64 = 134_217_728;
const BYTES: Allowed = Allowed::Whole(SMALLEST_CACHE, LARGEST_CACHE);
const CAP: Allowed = Allowed::Whole(0, LARGEST_CACHE);
const UNIT: Allowed = Allowed::Float(0.0, 1.0);

impl Allowed {
    fn has(&self, word: u64) -> bool {
        let float = f64::from_bits(word);
        match *self {
            Allowed::Any => true,
            Allowed::Whole(least, most) => (least..=most).contains(&word),
            Allowed::Float(least, most) => (least..=most).contains(&float),
            Allowed::FloatAbove(below, most) => below < float && float <= most,
            Allowed::Absent => word == 0,
        }
    }

    fn rule(&self, word: Setting, value: u64) -> String {
        let name = word.name();
        let is = format!("it is {}", fraction(f64::from_bits(value)));
        match *self {
            Allowed::Any => format!("the {name} is any number"),
            Allowed::Whole(0, 1) => format!("the word is 0 or 1: {name}"),
            Allowed::Whole(least, most) => format!("the {name} is {} to {}", thousands(least), thousands(most)),
            Allowed::Float(least, most) => format!("the {name} is a float from {least} to {most}; {is}"),
            Allowed::FloatAbove(below, most) => format!("the {name} is a float above {below}, up to {most}; {is}"),
            Allowed::Absent => format!("the {name} is 0, since a rule or cap of this kind has none"),
        }
    }
}

/// The particular of a rule, which counts if the rule's kind is one of these.
fn particular(table: &Table, kind: Setting, with: &[u64], allowed: Allowed) -> (Allowed, Option<Setting>) {
    match with.contains(&table.setting(kind)) {
        true => (allowed, Some(kind)),
        false => (Allowed::Absent, Some(kind)),
    }
}

/// What a word may be, and the kind that this depends on.
fn allowed(table: &Table, word: Setting) -> (Allowed, Option<Setting>) {
    use Setting::*;
    let of = |kind, with, allowed| particular(table, kind, with, allowed);
    match word {
        Evictions | Preset | IncreaseKind | IncrementKind | FlashKind | DecrementKind => (Allowed::Whole(0, 1), None),
        Initial => (Allowed::Any, None),
        Clean => (UNIT, None),
        Largest | Smallest => (BYTES, None),
        Epoch => (Allowed::Whole(100, 1_000_000), None),
        IncreaseLower => of(IncreaseKind, &[1], UNIT),
        IncreaseMultiplier => of(IncreaseKind, &[1], Allowed::FloatAbove(1.0, 2.0)),
        IncrementBytes => of(IncrementKind, &[1], CAP),
        FlashMultiple => of(FlashKind, &[1], Allowed::Float(0.1, 10.0)),
        FlashThreshold => of(FlashKind, &[1], Allowed::Float(0.1, 1.0)),
        DecreaseKind => (Allowed::Whole(0, 3), None),
        DecreaseUpper => of(DecreaseKind, &[1, 3], UNIT),
        DecreaseEpochs => of(DecreaseKind, &[2, 3], Allowed::Whole(1, 10)),
        DecreaseLast => of(DecreaseKind, &[1, 2, 3], UNIT),
        DecrementBytes => of(DecrementKind, &[1], CAP),
    }
}

/// What each word has to be, given the kind of its rule.
pub fn alone(table: &Table) -> Option<Finding> {
    for &word in Setting::ALL {
        let (allowed, kind) = allowed(table, word);
        let value = table.setting(word);
        if !allowed.has(value) {
            let finding = Finding::at(table.words(), word.place(), allowed.rule(word, value));
            return Some(match kind {
                Some(kind) => finding.or(table.words(), kind.place()),
                None => finding,
            });
        }
    }
    None
}

/// What each word has to be beside others.
pub fn beside(table: &Table) -> Option<Finding> {
    evictions(table).or_else(|| initial(table)).or_else(|| sizes(table)).or_else(|| rates(table))
}

/// Evictions may be off only if all rules are.
fn evictions(table: &Table) -> Option<Finding> {
    let kinds = [Setting::IncreaseKind, Setting::FlashKind, Setting::DecreaseKind];
    let on: Vec<Setting> = kinds.into_iter().filter(|kind| table.setting(*kind) != 0).collect();
    if table.setting(Setting::Evictions) != 0 || on.is_empty() {
        return None;
    }
    let rule = "evictions are off only if the increase, flash and decrease rules are all off";
    let finding = Finding::at(table.words(), Setting::Evictions.place(), rule);
    Some(on.into_iter().fold(finding, |finding, kind| finding.or(table.words(), kind.place())))
}

/// An initial size that is set is within the sizes.
fn initial(table: &Table) -> Option<Finding> {
    let initial = table.setting(Setting::Initial);
    let bound = match initial {
        _ if table.setting(Setting::Preset) == 0 => return None,
        _ if initial < table.setting(Setting::Smallest) => Setting::Smallest,
        _ if initial > table.setting(Setting::Largest) => Setting::Largest,
        _ => return None,
    };
    let rule = "an initial size that is set is from the minimum size to the maximum size";
    let finding = Finding::at(table.words(), Setting::Initial.place(), rule);
    Some(finding.or(table.words(), bound.place()).or(table.words(), Setting::Preset.place()))
}

fn sizes(table: &Table) -> Option<Finding> {
    let broken = table.setting(Setting::Smallest) > table.setting(Setting::Largest);
    let rule = "the minimum size is at most the maximum size";
    let finding = || Finding::at(table.words(), Setting::Smallest.place(), rule);
    broken.then(|| finding().or(table.words(), Setting::Largest.place()))
}

/// The lower rate is below the upper rate where both count.
fn rates(table: &Table) -> Option<Finding> {
    let both_count =
        table.setting(Setting::IncreaseKind) != 0 && [1, 3].contains(&table.setting(Setting::DecreaseKind));
    let rate = |word| f64::from_bits(table.setting(word));
    let (lower, upper) = (rate(Setting::IncreaseLower), rate(Setting::DecreaseUpper));
    if !both_count || lower < upper {
        return None;
    }
    let rule = "the lower rate is below the upper rate, if the increase rule is on and the decrease rule has one";
    let finding = Finding::at(table.words(), Setting::IncreaseLower.place(), rule);
    Some(finding.or(table.words(), Setting::DecreaseUpper.place()).or(table.words(), Setting::DecreaseKind.place()))
}
