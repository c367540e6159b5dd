//! The rules of the two runs, whose words are row numbers and then all ones.

use crate::finding::Finding;
use crate::layout::{Row, Run, Table, ALL_ONES};

/// The recency run has the entries that are neither pinned nor held, each once.
pub fn recency(table: &Table) -> Option<Finding> {
    let listed = |row| table.is_listed(row);
    numbers(table, Run::Recency, listed, "an entry that is neither pinned nor held")
        .or_else(|| missing(table, Run::Recency, listed))
}

/// The address run has every entry once, by rising address.
pub fn addresses(table: &Table) -> Option<Finding> {
    let used = |row| table.is_used(row);
    numbers(table, Run::Address, used, "an entry")
        .or_else(|| missing(table, Run::Address, used))
        .or_else(|| rising(table))
}

/// Row numbers, no all ones before the last of them, none twice, each of a row that belongs there.
fn numbers(table: &Table, run: Run, belongs: impl Fn(usize) -> bool, what: &str) -> Option<Finding> {
    let words = table.words();
    let wrong = |at, rule: String| Finding::at(words, run.place(table.rows, at), rule);
    let name = run.name();
    let mut end = None;
    let mut place_of = vec![None; table.rows];
    for (at, &word) in table.run(run).iter().enumerate() {
        if word == ALL_ONES {
            end = end.or(Some(at));
            continue;
        }
        let row = word as usize;
        if word >= table.rows as u64 {
            let rule = format!("a word of the {name} is a row number, 0 to {}, or all ones", table.rows - 1);
            return Some(wrong(at, rule));
        }
        if let Some(end) = end {
            let rule = format!("no all ones stands before a row number in the {name}");
            return Some(wrong(end, rule).or(words, run.place(table.rows, at)));
        }
        if let Some(first) = place_of[row] {
            let rule = twice_rule(table, run, row, &belongs);
            return Some(wrong(at, rule).or(words, run.place(table.rows, first)));
        }
        if !belongs(row) {
            let rule = format!("a row of the {name} is {what}, and row {row} is {}", state(table, row));
            return Some(decided_by(table, wrong(at, rule), row));
        }
        place_of[row] = Some(at);
    }
    None
}

/// A row that stands twice, and the rows that are missing for it.
fn twice_rule(table: &Table, run: Run, row: usize, belongs: impl Fn(usize) -> bool) -> String {
    let missing: Vec<String> = absent(table, run).filter(|row| belongs(*row)).map(|row| row.to_string()).collect();
    let rule = format!("a row stands once in the {}, and row {row} stands there twice", run.name());
    match missing.len() {
        0 => rule,
        1 => format!("{rule}; row {} is missing", missing[0]),
        _ => format!("{rule}; rows {} are missing", missing.join(", ")),
    }
}

/// The rows that stand nowhere in a run.
fn absent<'a>(table: &'a Table, run: Run) -> impl Iterator<Item = usize> + 'a {
    let mut stands = vec![false; table.rows];
    for &word in table.run(run) {
        if let Some(stands) = stands.get_mut(word as usize) {
            *stands = true;
        }
    }
    (0..table.rows).filter(move |row| !stands[*row])
}

/// What keeps a row out of the recency run.
fn state(table: &Table, row: usize) -> String {
    let (pinned, held) = (table.row(row, Row::Pinned) != 0, table.row(row, Row::Hold) != 0);
    match (table.is_used(row), pinned, held) {
        (false, _, _) => "free",
        (_, true, true) => "pinned and held",
        (_, true, false) => "pinned",
        _ => "held",
    }
    .to_string()
}

/// The words that keep a row out of the recency run may be wrong instead.
fn decided_by(table: &Table, finding: Finding, row: usize) -> Finding {
    let words: &[Row] = match table.is_used(row) {
        true => &[Row::Pinned, Row::Hold],
        false => &[Row::Size],
    };
    let decide = words.iter().filter(|word| !table.is_used(row) || table.row(row, **word) != 0);
    decide.fold(finding, |finding, word| finding.or(table.words(), word.place(row)))
}

/// A row that belongs in the run and is not there: the run's first all ones has its place.
fn missing(table: &Table, run: Run, belongs: impl Fn(usize) -> bool) -> Option<Finding> {
    let row = absent(table, run).find(|row| belongs(*row))?;
    let end = table.run(run).iter().position(|word| *word == ALL_ONES)?;
    let rule = format!("row {row} has an entry that belongs in the {} and is missing there", run.name());
    let finding = Finding::at(table.words(), run.place(table.rows, end), rule);
    // If the other run has it, it is an entry, and only its marks can be wrong.
    let words: &[Row] = match run {
        Run::Recency if !absent(table, Run::Address).any(|other| other == row) => &[Row::Pinned, Row::Hold],
        _ => &[Row::Size],
    };
    Some(words.iter().fold(finding, |finding, word| finding.or(table.words(), word.place(row))))
}

/// The addresses of the address run rise.
fn rising(table: &Table) -> Option<Finding> {
    let rows: Vec<usize> = table.rows_of(Run::Address).collect();
    let address = |row| table.row(row, Row::Address);
    let at = (1..rows.len()).find(|at| address(rows[at - 1]) >= address(rows[*at]))?;
    let (before, row) = (rows[at - 1], rows[at]);
    let rule = format!(
        "addresses rise along the address run, and row {row} with address {} comes after row {before} with address {}",
        address(row),
        address(before)
    );
    let words = table.words();
    let finding = Finding::at(words, Run::Address.place(table.rows, at), rule);
    Some(finding.or(words, Row::Address.place(row)).or(words, Row::Address.place(before)))
}
