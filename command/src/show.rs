//! show: the header of a dump, its settings in words, its figures, its entries and its recency list.

use crate::arguments::Arguments;
use crate::check::{frame, rows::WRITER, LAYOUT};
use crate::dump::{self, Dump};
use crate::layout::{Header, Row, Run, Table};
use crate::text::{counted, thousands, Json};
use crate::{settings, Failure, Status};
use speldervacht::Report;
use std::io::{self, Read, Write};

pub fn run(given: &Arguments, input: &mut dyn Read, out: &mut dyn Write) -> Result<Status, Failure> {
    let dump = Dump::read(given.file(0), input)?;
    let table =
        frame(&dump.words).map_err(|finding| Failure::Input(format!("{}: {finding}", dump::name(given.file(0)))))?;
    let report = speldervacht::report(&dump.words).ok();
    if given.has("--json") {
        writeln!(out, "{}", json(&table, &report, given))?;
    } else {
        header(&table, dump.words.len(), out)?;
        section("settings", &settings::lines(&settings::of(&table)), out)?;
        match &report {
            Some(report) => section("figures", &figures(&table, report), out)?,
            None => writeln!(out, "\nno figures: the table is damaged, and speldervacht check tells where")?,
        }
        if given.has("--entries") {
            entries(&table, out)?;
        }
        if given.has("--list") {
            list(&table, out)?;
        }
    }
    Ok(if report.is_some() { Status::Good } else { Status::Bad })
}

// ---- names

pub fn mode_name(mode: u64) -> String {
    match mode {
        0 => "alone".to_string(),
        1 => "lead".to_string(),
        2 => "standby".to_string(),
        other => format!("unknown ({other})"),
    }
}

fn hold_name(hold: u64) -> String {
    match hold {
        0 => "free".to_string(),
        WRITER => "writer".to_string(),
        readers => counted(readers, "reader"),
    }
}

fn mark_name(mark: u64) -> String {
    match mark {
        0 => "clean".to_string(),
        1 => "dirty".to_string(),
        other => format!("unknown ({other})"),
    }
}

fn next_message(number: u64) -> String {
    match number {
        0 => "none, since no number is left".to_string(),
        number => format!("number {}", thousands(number)),
    }
}

/// Whether making room found held plus incoming bytes above the maximum.
fn exceeded(word: u64) -> String {
    match word {
        0 => "no, not since the counters restarted".to_string(),
        1 => "yes, room was lacking at least once since the counters restarted".to_string(),
        other => format!("unknown ({other})"),
    }
}

pub fn yes_or_no(word: u64) -> &'static str {
    match word {
        0 => "no",
        _ => "yes",
    }
}

// ---- text

fn section(title: &str, lines: &[(&str, String)], out: &mut dyn Write) -> io::Result<()> {
    writeln!(out, "\n{title}")?;
    lines.iter().try_for_each(|(name, value)| writeln!(out, "  {name:<24}{value}"))
}

fn header(table: &Table, words: usize, out: &mut dyn Write) -> io::Result<()> {
    let number = |word| thousands(table.header(word));
    let own = table.words().len();
    writeln!(out, "table")?;
    let lines = [
        ("layout", LAYOUT.to_string()),
        ("rows", number(Header::Rows)),
        ("words", format!("{}, and {} past its end", thousands(own as u64), thousands((words - own) as u64))),
        ("mode", mode_name(table.header(Header::Mode))),
        ("dirty-byte threshold", format!("{} bytes", number(Header::Threshold))),
        ("maximum", format!("{} bytes", number(Header::Maximum))),
        ("accesses of this epoch", number(Header::Accesses)),
        ("hits of this epoch", number(Header::Hits)),
        ("byte count", format!("{} bytes made dirty since the last list", number(Header::Count))),
        ("next message", next_message(table.header(Header::Next))),
        ("maximum exceeded", exceeded(table.header(Header::Exceeded))),
    ];
    lines.iter().try_for_each(|(name, value)| writeln!(out, "  {name:<24}{value}"))
}

fn figures(table: &Table, report: &Report) -> Vec<(&'static str, String)> {
    let bytes = |number| format!("{} bytes", thousands(number));
    let dirty = (0..table.rows).filter(|row| table.row(*row, Row::Dirty) != 0).count();
    let totals = report.totals.iter().enumerate().filter(|(_, total)| **total != 0);
    let totals: Vec<String> = totals.map(|(idle, total)| format!("{idle}: {}", thousands(*total))).collect();
    vec![
        ("entries", thousands(report.entries)),
        ("dirty entries", thousands(dirty as u64)),
        ("held bytes", bytes(report.held)),
        ("dirty bytes", bytes(report.dirty)),
        ("minimum clean bytes", bytes(report.minimum_clean)),
        ("missing clean bytes", bytes(report.missing_clean)),
        ("a list is due", yes_or_no(report.due as u64).to_string()),
        ("bytes by idle count", if totals.is_empty() { "none".to_string() } else { totals.join("; ") }),
    ]
}

fn entries(table: &Table, out: &mut dyn Write) -> io::Result<()> {
    writeln!(out, "\nentries, by row")?;
    writeln!(
        out,
        "  {:>4}  {:>20}  {:>11}  {:<5}  {:>4}  {:<6}  hold",
        "row", "address", "size", "mark", "idle", "pinned"
    )?;
    for row in (0..table.rows).filter(|row| table.is_used(*row)) {
        let word = |word| table.row(row, word);
        writeln!(
            out,
            "  {row:>4}  {:>20}  {:>11}  {:<5}  {:>4}  {:<6}  {}",
            word(Row::Address),
            thousands(word(Row::Size)),
            mark_name(word(Row::Dirty)),
            word(Row::Idle),
            yes_or_no(word(Row::Pinned)),
            hold_name(word(Row::Hold)),
        )?;
    }
    Ok(())
}

fn list(table: &Table, out: &mut dyn Write) -> io::Result<()> {
    writeln!(out, "\nrecency list, from the tail (the next to go) to the head")?;
    for row in table.rows_of(Run::Recency) {
        let (address, size) = (table.row(row, Row::Address), thousands(table.row(row, Row::Size)));
        writeln!(out, "  {address:>20}  {size:>11}  {}", mark_name(table.row(row, Row::Dirty)))?;
    }
    Ok(())
}

// ---- for machines

fn json(table: &Table, report: &Option<Report>, given: &Arguments) -> Json {
    let number = |word| Json::Number(table.header(word));
    let mut fields = vec![
        ("layout", Json::Number(LAYOUT)),
        ("rows", number(Header::Rows)),
        ("mode", Json::text(mode_name(table.header(Header::Mode)))),
        ("threshold", number(Header::Threshold)),
        ("maximum", number(Header::Maximum)),
        ("accesses", number(Header::Accesses)),
        ("hits", number(Header::Hits)),
        ("count", number(Header::Count)),
        ("next", number(Header::Next)),
        ("exceeded", number(Header::Exceeded)),
        ("settings", settings::json(&settings::of(table))),
        ("figures", report.as_ref().map_or(Json::Nothing, figures_json)),
    ];
    if given.has("--entries") {
        let used = (0..table.rows).filter(|row| table.is_used(*row));
        fields.push(("entries", Json::list(used, |row| entry_json(table, row))));
    }
    if given.has("--list") {
        let address = |row| Json::Number(table.row(row, Row::Address));
        fields.push(("list", Json::list(table.rows_of(Run::Recency), address)));
    }
    Json::Object(fields)
}

fn figures_json(report: &Report) -> Json {
    Json::Object(vec![
        ("held", Json::Number(report.held)),
        ("dirty", Json::Number(report.dirty)),
        ("entries", Json::Number(report.entries)),
        ("minimum_clean", Json::Number(report.minimum_clean)),
        ("missing_clean", Json::Number(report.missing_clean)),
        ("due", Json::Flag(report.due)),
        ("totals", Json::list(report.totals, Json::Number)),
    ])
}

fn entry_json(table: &Table, row: usize) -> Json {
    let number = |word| Json::Number(table.row(row, word));
    Json::Object(vec![
        ("row", Json::Number(row as u64)),
        ("address", number(Row::Address)),
        ("size", number(Row::Size)),
        ("dirty", number(Row::Dirty)),
        ("idle", number(Row::Idle)),
        ("pinned", number(Row::Pinned)),
        ("hold", number(Row::Hold)),
    ])
}
