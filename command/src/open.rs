//! open: the dump of a fresh cache.

use crate::arguments::Arguments;
use crate::dump::Dump;
use crate::settings::{number, set};
use crate::{Failure, Status};
use speldervacht::{table_words, Mode, Settings, DEFAULT_THRESHOLD, MOST_ROWS};
use std::io::{Read, Write};

pub fn run(given: &Arguments, _: &mut dyn Read, _: &mut dyn Write) -> Result<Status, Failure> {
    let (rows, mode, threshold) = (rows(given.text(1)?)?, mode(given.text(2)?)?, threshold(given)?);
    let mut settings = Settings::defaults(mode);
    for at in 3..given.count() {
        set(&mut settings, given.text(at)?).map_err(Failure::Usage)?;
    }
    let mut words = vec![0; table_words(rows)];
    speldervacht::open(&mut words, rows, mode, threshold, &settings)
        .map_err(|refusal| Failure::Usage(format!("no cache can be opened so: {refusal}")))?;
    Dump::of(words).write(given.file(0))?;
    Ok(Status::Good)
}

fn rows(text: &str) -> Result<usize, Failure> {
    let rows = number(text).filter(|rows| (1..=MOST_ROWS as u64).contains(rows));
    rows.map(|rows| rows as usize).ok_or_else(|| Failure::Usage(format!("{text:?} is no row count, 1 to {MOST_ROWS}")))
}

fn mode(text: &str) -> Result<Mode, Failure> {
    match text {
        "alone" => Ok(Mode::Alone),
        "lead" => Ok(Mode::Lead),
        "standby" => Ok(Mode::Standby),
        _ => Err(Failure::Usage(format!("{text:?} is no mode: alone, lead or standby"))),
    }
}

fn threshold(given: &Arguments) -> Result<u64, Failure> {
    let Some(text) = given.value("--threshold") else { return Ok(DEFAULT_THRESHOLD) };
    let bytes = text.to_str().and_then(number);
    bytes.ok_or_else(|| Failure::Usage(format!("{text:?} is no threshold, a number of bytes")))
}
