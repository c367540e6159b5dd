//! The settings of a table: in words, as a value of the library's crate, and changed by FIELD=VALUE.

use crate::layout::{Setting, Table};
use crate::text::{counted, fraction, thousands, Json};
use speldervacht::{Decrease, Flash, Increase, Settings};

/// The settings in the table's words. A kind that is none is read as the last one.
pub fn of(table: &Table) -> Settings {
    use Setting::*;
    let word = |word| table.setting(word);
    let float = |word| f64::from_bits(table.setting(word));
    let given = |kind, number| (table.setting(kind) != 0).then(|| table.setting(number));
    let (upper, epochs, last) = (float(DecreaseUpper), word(DecreaseEpochs), float(DecreaseLast));
    Settings {
        evictions: word(Evictions) != 0,
        initial_size: given(Preset, Initial),
        clean_fraction: float(Clean),
        maximum_size: word(Largest),
        minimum_size: word(Smallest),
        epoch_length: word(Epoch),
        increase: match word(IncreaseKind) {
            0 => Increase::Off,
            _ => Increase::Threshold { lower: float(IncreaseLower), multiplier: float(IncreaseMultiplier) },
        },
        increase_cap: given(IncrementKind, IncrementBytes),
        flash: match word(FlashKind) {
            0 => Flash::Off,
            _ => Flash::On { multiple: float(FlashMultiple), threshold: float(FlashThreshold) },
        },
        decrease: match word(DecreaseKind) {
            0 => Decrease::Off,
            1 => Decrease::Threshold { upper, multiplier: last },
            2 => Decrease::AgeOut { epochs, reserve: last },
            _ => Decrease::AgeOutWithThreshold { upper, epochs, reserve: last },
        },
        decrease_cap: given(DecrementKind, DecrementBytes),
    }
}

// ---- in words

/// A line for each setting: its name and what it says.
pub fn lines(s: &Settings) -> Vec<(&'static str, String)> {
    let bytes = |bytes| format!("{} bytes", thousands(bytes));
    let cap = |cap: Option<u64>| cap.map_or("none".to_string(), bytes);
    vec![
        ("evictions", on_or_off(s.evictions).to_string()),
        ("initial size", s.initial_size.map_or("not set".to_string(), bytes)),
        ("minimum clean fraction", fraction(s.clean_fraction)),
        ("maximum size", bytes(s.maximum_size)),
        ("minimum size", bytes(s.minimum_size)),
        ("epoch length", format!("{} accesses", thousands(s.epoch_length))),
        ("increase rule", increase(s.increase)),
        ("cap on one increase", cap(s.increase_cap)),
        ("flash rule", flash(s.flash)),
        ("decrease rule", decrease(s.decrease)),
        ("cap on one decrease", cap(s.decrease_cap)),
    ]
}

fn on_or_off(on: bool) -> &'static str {
    if on {
        "on"
    } else {
        "off"
    }
}

fn increase(rule: Increase) -> String {
    match rule {
        Increase::Off => "off".to_string(),
        Increase::Threshold { lower, multiplier } => {
            format!("times {} if the hit rate is below {} and the cache is full", fraction(multiplier), fraction(lower))
        }
    }
}

fn flash(rule: Flash) -> String {
    match rule {
        Flash::Off => "off".to_string(),
        Flash::On { multiple, threshold } => {
            let (multiple, threshold) = (fraction(multiple), fraction(threshold));
            format!("{multiple} times the bytes that come, if they exceed {threshold} of the maximum")
        }
    }
}

fn decrease(rule: Decrease) -> String {
    let age_out = |epochs, reserve| {
        format!("entries idle for {} go, {} is kept empty", counted(epochs, "epoch"), fraction(reserve))
    };
    match rule {
        Decrease::Off => "off".to_string(),
        Decrease::Threshold { upper, multiplier } => {
            format!("times {} if the hit rate is above {}", fraction(multiplier), fraction(upper))
        }
        Decrease::AgeOut { epochs, reserve } => format!("age-out: {}", age_out(epochs, reserve)),
        Decrease::AgeOutWithThreshold { upper, epochs, reserve } => {
            format!("age-out if the hit rate is above {}: {}", fraction(upper), age_out(epochs, reserve))
        }
    }
}

// ---- for machines

pub fn json(s: &Settings) -> Json {
    Json::Object(vec![
        ("evictions", Json::Flag(s.evictions)),
        ("initial_size", Json::maybe(s.initial_size)),
        ("clean_fraction", Json::Fraction(s.clean_fraction)),
        ("maximum_size", Json::Number(s.maximum_size)),
        ("minimum_size", Json::Number(s.minimum_size)),
        ("epoch_length", Json::Number(s.epoch_length)),
        ("increase", increase_json(s.increase)),
        ("increase_cap", Json::maybe(s.increase_cap)),
        ("flash", flash_json(s.flash)),
        ("decrease", decrease_json(s.decrease)),
        ("decrease_cap", Json::maybe(s.decrease_cap)),
    ])
}

/// A rule: its kind, and its particulars by name.
fn rule_json<const N: usize>(kind: &str, particulars: [(&'static str, Json); N]) -> Json {
    Json::Object([("kind", Json::text(kind))].into_iter().chain(particulars).collect())
}

fn increase_json(rule: Increase) -> Json {
    match rule {
        Increase::Off => rule_json("off", []),
        Increase::Threshold { lower, multiplier } => {
            rule_json("threshold", [("lower", Json::Fraction(lower)), ("multiplier", Json::Fraction(multiplier))])
        }
    }
}

fn flash_json(rule: Flash) -> Json {
    match rule {
        Flash::Off => rule_json("off", []),
        Flash::On { multiple, threshold } => {
            rule_json("on", [("multiple", Json::Fraction(multiple)), ("threshold", Json::Fraction(threshold))])
        }
    }
}

fn decrease_json(rule: Decrease) -> Json {
    match rule {
        Decrease::Off => rule_json("off", []),
        Decrease::Threshold { upper, multiplier } => {
            rule_json("threshold", [("upper", Json::Fraction(upper)), ("multiplier", Json::Fraction(multiplier))])
        }
        Decrease::AgeOut { epochs, reserve } => {
            rule_json("age-out", [("epochs", Json::Number(epochs)), ("reserve", Json::Fraction(reserve))])
        }
        Decrease::AgeOutWithThreshold { upper, epochs, reserve } => rule_json(
            "age-out-with-threshold",
            [("upper", Json::Fraction(upper)), ("epochs", Json::Number(epochs)), ("reserve", Json::Fraction(reserve))],
        ),
    }
}

// ---- changed

/// Sets a field by a text such as `maximum_size=8192` or `decrease=age-out:3,0.1`.
pub fn set(s: &mut Settings, text: &str) -> Result<(), String> {
    let (field, value) = text.split_once('=').ok_or_else(|| format!("{text:?} is not FIELD=VALUE"))?;
    let bad = |form: &str| format!("{field}={value}: the value is {form}");
    match field {
        "evictions" => s.evictions = flag(value).ok_or_else(|| bad("on or off"))?,
        "initial_size" => s.initial_size = optional(value).ok_or_else(|| bad("bytes, or none"))?,
        "clean_fraction" => s.clean_fraction = float(value).ok_or_else(|| bad("a fraction"))?,
        "maximum_size" => s.maximum_size = number(value).ok_or_else(|| bad("bytes"))?,
        "minimum_size" => s.minimum_size = number(value).ok_or_else(|| bad("bytes"))?,
        "epoch_length" => s.epoch_length = number(value).ok_or_else(|| bad("accesses"))?,
        "increase" => s.increase = increase_of(value).ok_or_else(|| bad("off, or threshold:LOWER,MULTIPLIER"))?,
        "increase_cap" => s.increase_cap = optional(value).ok_or_else(|| bad("bytes, or none"))?,
        "flash" => s.flash = flash_of(value).ok_or_else(|| bad("off, or on:MULTIPLE,THRESHOLD"))?,
        "decrease" => s.decrease = decrease_of(value).ok_or_else(|| bad(DECREASE_FORMS))?,
        "decrease_cap" => s.decrease_cap = optional(value).ok_or_else(|| bad("bytes, or none"))?,
        _ => return Err(format!("{field:?} is no setting; the settings are {FIELDS}")),
    }
    Ok(())
}

const FIELDS: &str = "evictions, initial_size, clean_fraction, maximum_size, minimum_size, epoch_length, increase, \
                      increase_cap, flash, decrease and decrease_cap";
const DECREASE_FORMS: &str = "off, or threshold:UPPER,MULTIPLIER, or age-out:EPOCHS,RESERVE, or \
                              age-out-with-threshold:UPPER,EPOCHS,RESERVE";

/// A number: decimal digits, or 0x and hexadecimal ones.
pub fn number(text: &str) -> Option<u64> {
    let (digits, radix) = text.strip_prefix("0x").map_or((text, 10), |digits| (digits, 16));
    let plain = digits.chars().all(|digit| digit.is_digit(radix));
    plain.then(|| u64::from_str_radix(digits, radix).ok()).flatten()
}

fn flag(text: &str) -> Option<bool> {
    match text {
        "on" => Some(true),
        "off" => Some(false),
        _ => None,
    }
}

fn optional(text: &str) -> Option<Option<u64>> {
    match text {
        "none" => Some(None),
        _ => number(text).map(Some),
    }
}

fn float(text: &str) -> Option<f64> {
    text.parse().ok()
}

/// A rule's kind and its particulars.
fn rule(text: &str) -> (&str, Vec<&str>) {
    match text.split_once(':') {
        Some((kind, particulars)) => (kind, particulars.split(',').collect()),
        None => (text, Vec::new()),
    }
}

fn increase_of(text: &str) -> Option<Increase> {
    match rule(text) {
        ("off", p) if p.is_empty() => Some(Increase::Off),
        ("threshold", p) if p.len() == 2 => Some(Increase::Threshold { lower: float(p[0])?, multiplier: float(p[1])? }),
        _ => None,
    }
}

fn flash_of(text: &str) -> Option<Flash> {
    match rule(text) {
        ("off", p) if p.is_empty() => Some(Flash::Off),
        ("on", p) if p.len() == 2 => Some(Flash::On { multiple: float(p[0])?, threshold: float(p[1])? }),
        _ => None,
    }
}

fn decrease_of(text: &str) -> Option<Decrease> {
    match rule(text) {
        ("off", p) if p.is_empty() => Some(Decrease::Off),
        ("threshold", p) if p.len() == 2 => Some(Decrease::Threshold { upper: float(p[0])?, multiplier: float(p[1])? }),
        ("age-out", p) if p.len() == 2 => Some(Decrease::AgeOut { epochs: number(p[0])?, reserve: float(p[1])? }),
        ("age-out-with-threshold", p) if p.len() == 3 => {
            Some(Decrease::AgeOutWithThreshold { upper: float(p[0])?, epochs: number(p[1])?, reserve: float(p[2])? })
        }
        _ => None,
    }
}
