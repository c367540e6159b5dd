//! Version, row count and length: what has to be right before anything else has a place.

use crate::finding::Finding;
use crate::layout::{table_words, Header, Table, VERSION};
use crate::text::{counted, thousands};
use speldervacht::MOST_ROWS;

/// The layout's number is the end of the version.
const NUMBER: u64 = 0xffff;
/// The number of the layout that is read here.
pub const LAYOUT: u64 = VERSION & NUMBER;

/// The table in the words of a dump, or why there is none.
pub fn frame(words: &[u64]) -> Result<Table<'_>, Finding> {
    let wrong = |place, rule| Err(Finding::at(words, place, rule));
    match words.first() {
        None => return wrong(0, "a dump has words of 8 bytes, and this one has none".to_string()),
        Some(&version) if version != VERSION => return wrong(0, version_rule(version)),
        _ => {}
    }
    let rows = match words.get(Header::Rows.place()) {
        Some(&rows) if (1..=MOST_ROWS as u64).contains(&rows) => rows as usize,
        Some(_) => {
            return wrong(Header::Rows.place(), format!("a table has 1 to {} rows", thousands(MOST_ROWS as u64)))
        }
        None => return wrong(Header::Rows.place(), "the dump ends before the row count".to_string()),
    };
    if words.len() < table_words(rows) {
        return wrong(Header::Rows.place(), short_rule(rows, words.len()));
    }
    Ok(Table::new(words, rows))
}

fn version_rule(version: u64) -> String {
    if version & !NUMBER == VERSION & !NUMBER {
        return format!("this is layout {}, and layout {} is read here", version & NUMBER, LAYOUT);
    }
    if version.swap_bytes() & !NUMBER == VERSION & !NUMBER {
        return "the bytes of each word are in reverse order: words are little-endian".to_string();
    }
    format!("a table begins with its version, 0x{VERSION:016x}: this is no dump of a table")
}

fn short_rule(rows: usize, words: usize) -> String {
    let (rows, takes) = (counted(rows as u64, "row"), thousands(table_words(rows) as u64));
    format!(
        "a table with {rows} takes {takes} words, and the dump has {}: it is short, or the row count is wrong",
        thousands(words as u64)
    )
}
