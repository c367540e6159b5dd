//! The figures of a run as a table of text.

use crate::referee::course::Course;
use std::fs::File;
use std::io::{self, BufWriter, Write};
use std::path::Path;

pub fn write(course: &Course, path: &Path) -> io::Result<()> {
    let mut out = BufWriter::new(File::create(path)?);
    writeln!(out, "step,milliseconds,lead,dirty 1,held 1,maximum 1,dirty 2,held 2,maximum 2,event")?;
    for sample in &course.samples {
        let [one, two] = sample.figures;
        write!(out, "{},{:.3},{}", sample.step, sample.time.as_secs_f64() * 1_000.0, sample.lead + 1)?;
        for figure in [one.dirty, one.held, one.maximum, two.dirty, two.held, two.maximum] {
            write!(out, ",{figure}")?;
        }
        writeln!(out, ",{}", events(course, sample.step).join("; "))?;
    }
    out.flush()
}

/// What happened at a step, in words without a comma.
fn events(course: &Course, step: u64) -> Vec<String> {
    let moves = course.moves.iter().filter(|moved| moved.step == step).map(|_| "move".to_string());
    let losses = course.losses.iter().filter(|loss| loss.step == step);
    let kills = losses
        .map(|loss| format!("kill of host {} ({}) {}", loss.place + 1, loss.part.name(), loss.moment.replace(',', "")));
    moves.chain(kills).collect()
}
