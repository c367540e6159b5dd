//! What is wrong with a table: a word, the rule that it breaks, and the words that may be wrong instead.

use crate::layout::{is_float, name_of, Header};
use crate::text::{fraction, thousands, Json};
use std::fmt;

const ROWS: usize = Header::Rows.place();

/// A word of a dump.
#[derive(Clone, Debug)]
pub struct Word {
    pub place: usize,
    pub name: String,
    /// None past the dump's end.
    pub value: Option<u64>,
}

impl Word {
    fn of(words: &[u64], place: usize) -> Word {
        let rows = words.get(ROWS).copied().unwrap_or(0);
        let rows = rows.min(speldervacht::MOST_ROWS as u64) as usize;
        Word { place, name: name_of(place, rows), value: words.get(place).copied() }
    }

    fn json(&self) -> Vec<(&'static str, Json)> {
        vec![
            ("word", Json::Number(self.place as u64)),
            ("byte", Json::Number(8 * self.place as u64)),
            ("name", Json::text(&self.name)),
            ("value", Json::maybe(self.value)),
        ]
    }
}

impl fmt::Display for Word {
    fn fmt(&self, f: &mut fmt::Formatter) -> fmt::Result {
        write!(f, "word {} (byte 0x{:x}), {}: ", self.place, 8 * self.place, self.name)?;
        match self.value {
            Some(value) if is_float(self.place) => write!(f, "0x{value:016x} ({})", fraction(f64::from_bits(value))),
            Some(value) => write!(f, "0x{value:016x} ({})", thousands(value)),
            None => write!(f, "not in the dump"),
        }
    }
}

#[derive(Clone, Debug)]
pub struct Finding {
    pub word: Word,
    /// The rule that the word breaks, in a sentence.
    pub rule: String,
    /// The words that the rule compares it with: one of these may be wrong instead.
    pub others: Vec<Word>,
    /// A row count with which the same words are sound.
    pub sound_with: Option<u64>,
}

impl Finding {
    pub fn at(words: &[u64], place: usize, rule: impl Into<String>) -> Finding {
        Finding { word: Word::of(words, place), rule: rule.into(), others: Vec::new(), sound_with: None }
    }

    /// The word at this place may be wrong instead.
    pub fn or(mut self, words: &[u64], place: usize) -> Finding {
        self.others.push(Word::of(words, place));
        self
    }

    /// The places that are named.
    pub fn places(&self) -> Vec<usize> {
        let count = self.sound_with.map(|_| ROWS);
        let others = self.others.iter().map(|word| word.place);
        std::iter::once(self.word.place).chain(others).chain(count).collect()
    }

    pub fn json(&self) -> Vec<(&'static str, Json)> {
        let mut fields = self.word.json();
        fields.push(("rule", Json::text(&self.rule)));
        fields.push(("others", Json::list(&self.others, |word| Json::Object(word.json()))));
        fields.push(("sound_with_rows", Json::maybe(self.sound_with)));
        fields
    }
}

impl fmt::Display for Finding {
    fn fmt(&self, f: &mut fmt::Formatter) -> fmt::Result {
        write!(f, "{}\n  rule: {}", self.word, self.rule)?;
        for other in &self.others {
            write!(f, "\n  or {other}")?;
        }
        match self.sound_with {
            Some(rows) if self.word.place == ROWS => write!(f, "\n  with a row count of {rows} the table is sound"),
            Some(rows) => {
                write!(f, "\n  or word {ROWS} (byte 0x{:x}), row count: with {rows} the table is sound", 8 * ROWS)
            }
            None => Ok(()),
        }
    }
}
