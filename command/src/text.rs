//! Numbers as people read them, and JSON for machines.

use std::fmt;

/// A number with a comma between thousands.
pub fn thousands(number: u64) -> String {
    let digits = number.to_string();
    let mut text = String::new();
    for (i, digit) in digits.chars().enumerate() {
        if i > 0 && (digits.len() - i) % 3 == 0 {
            text.push(',');
        }
        text.push(digit);
    }
    text
}

/// A number with its unit, which has an s unless the number is 1.
pub fn counted(number: u64, unit: &str) -> String {
    match number {
        1 => format!("1 {unit}"),
        _ => format!("{} {unit}s", thousands(number)),
    }
}

/// A float in few digits: 0.3, 2, 1e-300.
pub fn fraction(fraction: f64) -> String {
    let text = format!("{fraction:?}");
    text.strip_suffix(".0").unwrap_or(&text).to_string()
}

/// A value of JSON.
pub enum Json {
    Nothing,
    Flag(bool),
    Number(u64),
    Fraction(f64),
    Text(String),
    List(Vec<Json>),
    Object(Vec<(&'static str, Json)>),
}

impl Json {
    pub fn text(text: impl Into<String>) -> Json {
        Json::Text(text.into())
    }

    /// The number, or null.
    pub fn maybe(number: Option<u64>) -> Json {
        number.map_or(Json::Nothing, Json::Number)
    }

    pub fn list<T>(items: impl IntoIterator<Item = T>, value: impl Fn(T) -> Json) -> Json {
        Json::List(items.into_iter().map(value).collect())
    }
}

impl fmt::Display for Json {
    fn fmt(&self, f: &mut fmt::Formatter) -> fmt::Result {
        match self {
            Json::Nothing => write!(f, "null"),
            Json::Flag(flag) => write!(f, "{flag}"),
            Json::Number(number) => write!(f, "{number}"),
            Json::Fraction(fraction) if fraction.is_finite() => write!(f, "{fraction:?}"),
            Json::Fraction(_) => write!(f, "null"),
            Json::Text(text) => quoted(f, text),
            Json::List(items) => {
                joined(f, '[', items, |f, item| write!(f, "{item}"))?;
                write!(f, "]")
            }
            Json::Object(fields) => {
                joined(f, '{', fields, |f, (name, value)| write!(f, "\"{name}\":{value}"))?;
                write!(f, "}}")
            }
        }
    }
}

fn joined<T>(
    f: &mut fmt::Formatter,
    opening: char,
    items: &[T],
    one: impl Fn(&mut fmt::Formatter, &T) -> fmt::Result,
) -> fmt::Result {
    write!(f, "{opening}")?;
    for (i, item) in items.iter().enumerate() {
        if i > 0 {
            write!(f, ",")?;
        }
        one(f, item)?;
    }
    Ok(())
}

fn quoted(f: &mut fmt::Formatter, text: &str) -> fmt::Result {
    write!(f, "\"")?;
    for character in text.chars() {
        match character {
            '"' | '\\' => write!(f, "\\{character}")?,
            control if (control as u32) < 0x20 => write!(f, "\\u{:04x}", control as u32)?,
            other => write!(f, "{other}")?,
        }
    }
    write!(f, "\"")
}
