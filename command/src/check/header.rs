//! The rules of the header's words.

use crate::finding::Finding;
use crate::layout::{Header, Setting, Table};
use crate::text::thousands;
use speldervacht::{COUNT_STOP, LARGEST_THRESHOLD};

/// What each word has to be, whatever the others are.
pub fn alone(table: &Table) -> Option<Finding> {
    let limits = [
        (Header::Mode, 0..=2, "the mode is 0, alone, or 1, lead, or 2, standby".to_string()),
        (
            Header::Threshold,
            1..=LARGEST_THRESHOLD,
            format!("the dirty-byte threshold is 1 to {}", thousands(LARGEST_THRESHOLD)),
        ),
        (Header::Count, 0..=COUNT_STOP, format!("the byte count is at most {}", thousands(COUNT_STOP))),
        (Header::Exceeded, 0..=1, format!("the word is 0 or 1: {}", Header::Exceeded.name())),
    ];
    let (word, _, rule) = limits.into_iter().find(|(word, limits, _)| !limits.contains(&table.header(*word)))?;
    Some(Finding::at(table.words(), word.place(), rule))
}

/// What each word has to be beside others.
pub fn beside(table: &Table) -> Option<Finding> {
    let (maximum, accesses) = (table.header(Header::Maximum), table.header(Header::Accesses));
    let pair = |broken: bool, word: Header, other: usize, rule: &str| {
        broken.then(|| Finding::at(table.words(), word.place(), rule).or(table.words(), other))
    };
    let (smallest, largest) = (table.setting(Setting::Smallest), table.setting(Setting::Largest));
    pair(maximum < smallest, Header::Maximum, Setting::Smallest.place(), "the maximum is at least the minimum size")
        .or_else(|| {
            pair(
                maximum > largest,
                Header::Maximum,
                Setting::Largest.place(),
                "the maximum is at most the maximum size",
            )
        })
        .or_else(|| {
            let broken = accesses >= table.setting(Setting::Epoch);
            pair(broken, Header::Accesses, Setting::Epoch.place(), "the accesses are below the epoch length")
        })
        .or_else(|| {
            let broken = table.header(Header::Hits) > accesses;
            pair(broken, Header::Hits, Header::Accesses.place(), "the hits are at most the accesses")
        })
}
