//! diff: what a lead and a standby have to agree on, and do not.
//!
//! They agree on the dirty records with their sizes, the threshold, the byte count, and so on whether a
//! list is due, and on the number of the next message. What else differs is told for information.

use crate::arguments::Arguments;
use crate::dump::Dump;
use crate::layout::{Header, Row, Table};
use crate::show::{mode_name, yes_or_no};
use crate::text::{counted, thousands, Json};
use crate::{settings, Failure, Status};
use speldervacht::Report;
use std::collections::{BTreeMap, BTreeSet};
use std::io::{self, Read, Write};

pub fn run(given: &Arguments, input: &mut dyn Read, out: &mut dyn Write) -> Result<Status, Failure> {
    let (lead, standby) = (Dump::read(given.file(0), input)?, Dump::read(given.file(1), input)?);
    let difference = Difference::of(Side::of(lead.sound()?), Side::of(standby.sound()?));
    if given.has("--json") {
        writeln!(out, "{}", difference.json())?;
    } else {
        difference.tell(out)?;
    }
    Ok(if difference.is_none() { Status::Good } else { Status::Bad })
}

/// The words of the header that have to agree.
const AGREED: [Header; 3] = [Header::Threshold, Header::Count, Header::Next];

/// One of the two dumps.
struct Side<'a> {
    table: Table<'a>,
    report: Report,
    /// Size and dirty mark by address.
    entries: BTreeMap<u64, (u64, bool)>,
}

impl<'a> Side<'a> {
    fn of((table, report): (Table<'a>, Report)) -> Side<'a> {
        let used = (0..table.rows).filter(|row| table.is_used(*row));
        let word = |row, word| table.row(row, word);
        let entry = |row| (word(row, Row::Address), (word(row, Row::Size), word(row, Row::Dirty) != 0));
        Side { entries: used.map(entry).collect(), table, report }
    }

    /// The size of a record that is dirty here.
    fn dirty(&self, address: u64) -> Option<u64> {
        self.entries.get(&address).filter(|(_, dirty)| *dirty).map(|(size, _)| *size)
    }

    /// How a record stands here.
    fn standing(&self, address: u64) -> String {
        match self.entries.get(&address) {
            Some((size, true)) => format!("dirty, {}", counted(*size, "byte")),
            Some((size, false)) => format!("clean, {}", counted(*size, "byte")),
            None => "not there".to_string(),
        }
    }

    fn standing_json(&self, address: u64) -> Json {
        self.entries.get(&address).map_or(Json::Nothing, |(size, dirty)| {
            Json::Object(vec![("size", Json::Number(*size)), ("dirty", Json::Flag(*dirty))])
        })
    }
}

struct Difference<'a> {
    lead: Side<'a>,
    standby: Side<'a>,
    /// The records that are dirty at one alone, or at both with different sizes.
    records: Vec<u64>,
}

impl<'a> Difference<'a> {
    fn of(lead: Side<'a>, standby: Side<'a>) -> Difference<'a> {
        let addresses: BTreeSet<u64> = lead.entries.keys().chain(standby.entries.keys()).copied().collect();
        let differs = |address: &u64| lead.dirty(*address) != standby.dirty(*address);
        let records = addresses.into_iter().filter(differs).collect();
        Difference { lead, standby, records }
    }

    /// A word of the header, in the lead and in the standby.
    fn both(&self, word: Header) -> (u64, u64) {
        (self.lead.table.header(word), self.standby.table.header(word))
    }

    /// What may differ, and does: name, lead, standby.
    fn information(&self) -> Vec<(&'static str, String, String)> {
        let (a, b) = (&self.lead, &self.standby);
        let exceeded = |side: &Side| yes_or_no(side.table.header(Header::Exceeded)).to_string();
        let mut lines = vec![
            ("rows", thousands(a.table.rows as u64), thousands(b.table.rows as u64)),
            ("maximum", thousands(a.report.maximum), thousands(b.report.maximum)),
            ("maximum exceeded", exceeded(a), exceeded(b)),
            ("entries", thousands(a.report.entries), thousands(b.report.entries)),
            ("held bytes", thousands(a.report.held), thousands(b.report.held)),
            ("missing clean bytes", thousands(a.report.missing_clean), thousands(b.report.missing_clean)),
        ];
        let of = |side: &Side| settings::lines(&settings::of(&side.table));
        lines.extend(of(a).into_iter().zip(of(b)).map(|((name, lead), (_, standby))| (name, lead, standby)));
        lines.retain(|(_, lead, standby)| lead != standby);
        lines
    }

    /// Modes that are not those of a lead and its standby.
    fn modes(&self) -> Option<String> {
        let mode = |side: &Side| side.table.header(Header::Mode);
        match (mode(&self.lead), mode(&self.standby)) {
            (1, 2) => None,
            (a, b) => Some(format!(
                "the first dump is {}, the second {}: a lead and a standby are compared",
                mode_name(a),
                mode_name(b)
            )),
        }
    }

    fn is_none(&self) -> bool {
        let same = |word| self.both(word).0 == self.both(word).1;
        self.records.is_empty() && AGREED.into_iter().all(same)
    }

    fn tell(&self, out: &mut dyn Write) -> io::Result<()> {
        match self.is_none() {
            true => writeln!(
                out,
                "the same: {} dirty records, their sizes, threshold, byte count and next message",
                self.dirty_records()
            )?,
            false => writeln!(out, "different")?,
        }
        for address in &self.records {
            let (lead, standby) = (self.lead.standing(*address), self.standby.standing(*address));
            writeln!(out, "  record {address}: lead {lead}; standby {standby}")?;
        }
        for (word, (lead, standby)) in AGREED.map(|word| (word, self.both(word))) {
            if lead != standby {
                writeln!(out, "  {}: lead {}; standby {}", word.name(), thousands(lead), thousands(standby))?;
            }
        }
        let (lead, standby) = (self.lead.report.due, self.standby.report.due);
        if lead != standby {
            writeln!(out, "  a list is due: lead {}; standby {}", yes_or_no(lead as u64), yes_or_no(standby as u64))?;
        }
        if let Some(modes) = self.modes() {
            writeln!(out, "note: {modes}")?;
        }
        for (name, lead, standby) in self.information() {
            writeln!(out, "may differ: {name}: lead {lead}; standby {standby}")?;
        }
        Ok(())
    }

    fn dirty_records(&self) -> String {
        thousands(self.lead.entries.values().filter(|(_, dirty)| *dirty).count() as u64)
    }

    fn json(&self) -> Json {
        let pair = |lead, standby| Json::Object(vec![("lead", lead), ("standby", standby)]);
        let record = |address: &u64| {
            Json::Object(vec![
                ("address", Json::Number(*address)),
                ("lead", self.lead.standing_json(*address)),
                ("standby", self.standby.standing_json(*address)),
            ])
        };
        let mode = |side: &Side| Json::text(mode_name(side.table.header(Header::Mode)));
        let numbers = |word| pair(Json::Number(self.both(word).0), Json::Number(self.both(word).1));
        Json::Object(vec![
            ("same", Json::Flag(self.is_none())),
            ("modes", pair(mode(&self.lead), mode(&self.standby))),
            ("records", Json::list(&self.records, record)),
            ("threshold", numbers(Header::Threshold)),
            ("count", numbers(Header::Count)),
            ("next", numbers(Header::Next)),
            ("due", pair(Json::Flag(self.lead.report.due), Json::Flag(self.standby.report.due))),
        ])
    }
}
