//! check: whether a dump is sound, and if not, the first word that breaks a rule.
//!
//! The diagnosis is a reading of docs/LAYOUT.md of its own. The verdict is the library's; if the two
//! differ, that is told.

mod frame;
mod header;
pub mod rows;
mod runs;
mod settings;

use crate::arguments::Arguments;
use crate::dump::Dump;
use crate::finding::Finding;
use crate::layout::{table_words, Header};
use crate::text::{counted, thousands, Json};
use crate::{show, Failure, Status};
pub use frame::{frame, LAYOUT};
use std::io::{Read, Write};

pub fn run(given: &Arguments, input: &mut dyn Read, out: &mut dyn Write) -> Result<Status, Failure> {
    let dump = Dump::read(given.file(0), input)?;
    let report = speldervacht::report(&dump.words);
    let finding = find(&dump.words);
    if given.has("--json") {
        writeln!(out, "{}", json(&finding, report.is_ok()))?;
    } else {
        match (&finding, &report) {
            (None, Ok(report)) => writeln!(out, "sound: {}", summary(&dump.words, report))?,
            (Some(finding), Err(_)) => writeln!(out, "damaged: {finding}")?,
            (None, Err(_)) => writeln!(out, "{DIFFERS}: no rule is broken, and the library answers 1, damaged")?,
            (Some(finding), Ok(_)) => {
                writeln!(out, "{DIFFERS}: the library says sound, and a rule is broken: {finding}")?
            }
        }
    }
    Ok(status(finding.is_some(), report.is_err()))
}

const DIFFERS: &str = "check and the library differ";

/// The status of what the diagnosis and the library say.
pub fn status(found: bool, refused: bool) -> Status {
    match (found, refused) {
        (false, false) => Status::Good,
        (true, true) => Status::Bad,
        _ => Status::Disagreement,
    }
}

/// The first word that breaks a rule.
pub fn find(words: &[u64]) -> Option<Finding> {
    let table = match frame(words) {
        Ok(table) => table,
        Err(finding) => return Some(with_row_count(words, finding)),
    };
    header::alone(&table)
        .or_else(|| settings::alone(&table))
        .or_else(|| header::beside(&table))
        .or_else(|| settings::beside(&table))
        .or_else(|| rows::find(&table))
        .or_else(|| runs::recency(&table))
        .or_else(|| runs::addresses(&table))
        .map(|finding| with_row_count(words, finding))
}

/// The finding, with another row count that would make the words sound.
///
/// A wrong row count moves the runs, so that words there seem to be wrong.
fn with_row_count(words: &[u64], finding: Finding) -> Finding {
    if words.len() < table_words(1) || finding.word.place == Header::Version.place() {
        return finding;
    }
    let most = (1..=speldervacht::MOST_ROWS).rev().find(|rows| table_words(*rows) <= words.len());
    let mut other = words.to_vec();
    let sound_with = (1..=most.unwrap_or(0) as u64).find(|rows| {
        other[Header::Rows.place()] = *rows;
        speldervacht::report(&other).is_ok()
    });
    Finding { sound_with, ..finding }
}

/// A sound table in a line.
fn summary(words: &[u64], report: &speldervacht::Report) -> String {
    format!(
        "{}, {}, {}, {} held, {} dirty",
        show::mode_name(words[Header::Mode.place()]),
        counted(words[Header::Rows.place()], "row"),
        match report.entries {
            1 => "1 entry".to_string(),
            entries => format!("{} entries", thousands(entries)),
        },
        counted(report.held, "byte"),
        counted(report.dirty, "byte"),
    )
}

fn json(finding: &Option<Finding>, sound: bool) -> Json {
    let verdict = match status(finding.is_some(), !sound) {
        Status::Good => "sound",
        Status::Bad => "damaged",
        Status::Disagreement => "check and library differ",
    };
    let finding = finding.as_ref().map_or(Json::Nothing, |finding| Json::Object(finding.json()));
    Json::Object(vec![("verdict", Json::text(verdict)), ("library", Json::Number(!sound as u64)), ("finding", finding)])
}
