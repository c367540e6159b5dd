//! Where a table's words stand, as docs/LAYOUT.md has it. What the crate reads of a table it reads by
//! these places.

/// Word 1: the number of rows.
pub(crate) const ROWS: usize = 1;
/// Word 2: the mode.
pub(crate) const MODE: usize = 2;
/// Word 3: the dirty-byte threshold.
pub(crate) const THRESHOLD: usize = 3;
/// Word 8: the number of the next message.
pub(crate) const NEXT: usize = 8;
/// The words before the first row.
pub(crate) const HEADER_WORDS: usize = 31;

/// The words of a row, and what stands at each.
pub(crate) const ROW_WORDS: usize = 6;
pub(crate) const ADDRESS: usize = 0;
pub(crate) const SIZE: usize = 1;
pub(crate) const DIRTY: usize = 2;
pub(crate) const IDLE: usize = 3;
pub(crate) const PIN: usize = 4;
pub(crate) const HOLD: usize = 5;

/// The hold of a writer; below it is the number of readers.
pub(crate) const WRITER: u64 = 65_536;
/// What stands in a run behind its last row number.
pub(crate) const RUN_END: u64 = u64::MAX;

/// The words of a row, and one in each of the two runs.
const WORDS_FOR_EACH_ROW: usize = ROW_WORDS + 2;
/// The words of an order.
pub(crate) const ORDER_WORDS: usize = 3;
/// The words of a request in a batch, and of its answer.
pub(crate) const REQUEST_WORDS: usize = 3;
pub(crate) const ANSWER_WORDS: usize = 2;

/// The words that a table with so many rows takes.
#[must_use]
pub const fn table_words(rows: usize) -> usize {
    rows.saturating_mul(WORDS_FOR_EACH_ROW).saturating_add(HEADER_WORDS)
}

/// The words that the orders of one request may take: two orders for each row, and one.
#[must_use]
pub const fn order_words(rows: usize) -> usize {
    rows.saturating_mul(2 * ORDER_WORDS).saturating_add(ORDER_WORDS)
}

/// The words that the reasons of these orders may take, one each.
#[must_use]
pub const fn reason_words(rows: usize) -> usize {
    rows.saturating_mul(2).saturating_add(1)
}

/// The place of the recency run.
pub(crate) const fn recency_run(rows: usize) -> usize {
    rows.saturating_mul(ROW_WORDS).saturating_add(HEADER_WORDS)
}

/// The place of the address run.
pub(crate) const fn address_run(rows: usize) -> usize {
    recency_run(rows).saturating_add(rows)
}
