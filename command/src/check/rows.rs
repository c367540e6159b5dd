//! The rules of a row's words.

use crate::finding::Finding;
use crate::layout::{Row, Table};
use crate::text::thousands;
use speldervacht::{LARGEST_ENTRY, NO_ADDRESS};

pub const WRITER: u64 = 65_536;
const MOST_IDLE: u64 = 10;

pub fn find(table: &Table) -> Option<Finding> {
    (0..table.rows).find_map(|row| match table.is_used(row) {
        true => entry(table, row),
        false => free(table, row),
    })
}

/// A free row is all zeros.
fn free(table: &Table, row: usize) -> Option<Finding> {
    let word = Row::ALL.iter().find(|word| table.row(row, **word) != 0)?;
    let finding = Finding::at(table.words(), word.place(row), "a row of size 0 is free, and a free row is all zeros");
    Some(finding.or(table.words(), Row::Size.place(row)))
}

fn entry(table: &Table, row: usize) -> Option<Finding> {
    let word = *Row::ALL.iter().find(|word| !allowed(table, row, **word))?;
    Some(Finding::at(table.words(), word.place(row), rule(word)))
}

fn allowed(table: &Table, row: usize, word: Row) -> bool {
    let value = table.row(row, word);
    match word {
        Row::Address => value != NO_ADDRESS,
        Row::Size => value <= LARGEST_ENTRY,
        Row::Dirty | Row::Pinned => value <= 1,
        Row::Idle => value <= MOST_IDLE,
        Row::Hold => value <= WRITER,
    }
}

fn rule(word: Row) -> String {
    match word {
        Row::Address => "an address is any number but all ones".to_string(),
        Row::Size => format!("the size of an entry is 1 to {}", thousands(LARGEST_ENTRY)),
        Row::Dirty => "the dirty mark is 0, clean, or 1, dirty".to_string(),
        Row::Idle => format!("the idle count is 0 to {MOST_IDLE}"),
        Row::Pinned => "the pin mark is 0 or 1".to_string(),
        Row::Hold => {
            format!(
                "the hold is 0, free, or 1 to {} readers, or {}, a writer",
                thousands(WRITER - 1),
                thousands(WRITER)
            )
        }
    }
}
