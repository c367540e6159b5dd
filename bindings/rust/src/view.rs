//! A table read: its entries, by address and by recency.

use crate::{layout, report, table_words, Hold, Mode, Refusal};
use core::fmt;

/// An entry of a cache.
#[derive(Clone, Copy, Debug, PartialEq, Eq)]
#[non_exhaustive]
pub struct Entry {
    pub address: u64,
    /// In bytes.
    pub size: u64,
    pub dirty: bool,
    /// The epochs that ended since the entry was last used, 0 to 10.
    pub idle: u64,
    pub pinned: bool,
    /// Who holds the entry, if anyone.
    pub hold: Option<Hold>,
}

impl Entry {
    /// The entry of a row's words. A free row has none.
    pub(crate) fn of_row(row: &[u64]) -> Option<Entry> {
        let hold = match row[layout::HOLD] {
            0 => None,
            layout::WRITER => Some(Hold::Writer),
            readers => Some(Hold::Readers(readers)),
        };
        (row[layout::SIZE] != 0).then_some(Entry {
            address: row[layout::ADDRESS],
            size: row[layout::SIZE],
            dirty: row[layout::DIRTY] != 0,
            idle: row[layout::IDLE],
            pinned: row[layout::PIN] != 0,
            hold,
        })
    }
}

/// A table, for reading: nothing is copied, and the table is not judged again.
#[derive(Clone, Copy)]
pub struct View<'t> {
    words: &'t [u64],
}

impl<'t> View<'t> {
    /// The table, judged. Words past the layout's end are allowed and not read.
    ///
    /// # Errors
    ///
    /// [`Refusal::BadTable`] if the words picture no cache.
    pub fn of(table: &'t [u64]) -> Result<View<'t>, Refusal> {
        report(table)?;
        Ok(View::unjudged(table))
    }

    /// The table as it is. Reading a damaged one gives wrong entries or none, and no panic.
    pub(crate) fn unjudged(table: &'t [u64]) -> View<'t> {
        let rows = View { words: table }.rows();
        View { words: &table[..table.len().min(table_words(rows))] }
    }

    fn word(self, at: usize) -> u64 {
        self.words.get(at).copied().unwrap_or(0)
    }

    /// The words of the table, up to the layout's end.
    #[must_use]
    pub fn as_words(self) -> &'t [u64] {
        self.words
    }

    /// The number of rows: how many entries the cache can have.
    #[must_use]
    pub fn rows(self) -> usize {
        usize::try_from(self.word(layout::ROWS)).unwrap_or(usize::MAX)
    }

    /// The part that the cache plays.
    #[must_use]
    pub fn mode(self) -> Mode {
        match self.word(layout::MODE) {
            0 => Mode::Alone,
            1 => Mode::Lead,
            _ => Mode::Standby,
        }
    }

    /// The byte count above which a list is due.
    #[must_use]
    pub fn threshold(self) -> u64 {
        self.word(layout::THRESHOLD)
    }

    /// The number of the next message: the one that a lead sends, or the one that a standby takes. 0: no
    /// number is left.
    #[must_use]
    pub fn next_number(self) -> u64 {
        self.word(layout::NEXT)
    }

    /// The entries in the order of their rows, which are filled from the lowest on.
    pub(crate) fn rows_used(self) -> impl Iterator<Item = Entry> + 't {
        let rows = self.words.get(layout::HEADER_WORDS..).unwrap_or(&[]);
        rows.chunks_exact(layout::ROW_WORDS).take(self.rows()).filter_map(Entry::of_row)
    }

    /// The entries by rising address.
    #[must_use]
    pub fn entries(self) -> Entries<'t> {
        self.run(layout::address_run(self.rows()))
    }

    /// The dirty entries by rising address.
    #[must_use]
    pub fn dirty(self) -> impl DoubleEndedIterator<Item = Entry> + 't {
        self.entries().filter(|entry| entry.dirty)
    }

    /// The entries that are neither held nor pinned, from the tail, which is the next to go, to the
    /// head, which is the newest.
    #[must_use]
    pub fn recency(self) -> Entries<'t> {
        self.run(layout::recency_run(self.rows()))
    }

    /// The entry at the address, by a binary search.
    #[must_use]
    pub fn get(self, address: u64) -> Option<Entry> {
        let entries = self.entries();
        let rows = entries.run.as_slice();
        let place = rows.binary_search_by_key(&Some(address), |row| entries.at(*row).map(|entry| entry.address));
        entries.at(rows[place.ok()?])
    }

    /// The entries of a run, whose row numbers end at its end or with all ones.
    fn run(self, at: usize) -> Entries<'t> {
        let run = at.checked_add(self.rows()).and_then(|end| self.words.get(at..end)).unwrap_or(&[]);
        let used = run.partition_point(|row| *row != layout::RUN_END);
        Entries { words: self.words, run: run[..used].iter() }
    }
}

impl fmt::Debug for View<'_> {
    /// The figures, not the words.
    fn fmt(&self, f: &mut fmt::Formatter) -> fmt::Result {
        let mut told = f.debug_struct("Cache");
        match report(self.words) {
            Err(_) => told.field("damaged", &true).field("words", &self.words.len()).finish(),
            Ok(figures) => told
                .field("mode", &self.mode())
                .field("rows", &self.rows())
                .field("entries", &figures.entries)
                .field("held", &figures.held)
                .field("dirty", &figures.dirty)
                .field("maximum", &figures.maximum)
                .field("count", &figures.count)
                .field("threshold", &self.threshold())
                .field("next", &figures.next)
                .finish_non_exhaustive(),
        }
    }
}

/// Entries of a table, in the order of one of its two runs.
#[derive(Clone, Debug)]
pub struct Entries<'t> {
    words: &'t [u64],
    run: core::slice::Iter<'t, u64>,
}

impl Entries<'_> {
    /// The entry of a row.
    fn at(&self, row: u64) -> Option<Entry> {
        let at = usize::try_from(row).ok()?.checked_mul(layout::ROW_WORDS)?.checked_add(layout::HEADER_WORDS)?;
        self.words.get(at..at.checked_add(layout::ROW_WORDS)?).and_then(Entry::of_row)
    }
}

impl Iterator for Entries<'_> {
    type Item = Entry;

    fn next(&mut self) -> Option<Entry> {
        let row = *self.run.next()?;
        self.at(row)
    }

    fn size_hint(&self) -> (usize, Option<usize>) {
        self.run.size_hint()
    }
}

impl DoubleEndedIterator for Entries<'_> {
    fn next_back(&mut self) -> Option<Entry> {
        let row = *self.run.next_back()?;
        self.at(row)
    }
}

impl ExactSizeIterator for Entries<'_> {}
