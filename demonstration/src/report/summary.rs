//! What a run prints.

use super::say;
use crate::referee::course::{Course, Loss};
use crate::referee::journal::Journal;
use crate::wire::message::MoveTimes;
use std::collections::BTreeMap;
use std::time::Duration;

pub fn print_loss(number: usize, loss: &Loss) {
    say(format_args!(
        "kill {number:>4}: {:7} {:42} {:>3} records checked, {:>2} dirty brought in",
        loss.part.name(),
        loss.moment,
        loss.checked,
        loss.dirty
    ));
}

pub fn print(course: &Course, journal: &Journal, took: Duration) {
    let [created, changed, resized, discarded] = course.changes;
    let steps = course.samples.len();
    say(format_args!("\n{steps} steps in {:.1} s", took.as_secs_f64()));
    say(format_args!(
        "{created} created, {changed} changed, {resized} resized, {discarded} discarded, {} read",
        course.reads
    ));
    say(format_args!("changes that both hosts had: {}", journal.both));
    let in_flight = journal.kept + journal.dropped;
    say(format_args!("changes in flight at a kill: {in_flight}; the survivor had {} of them", journal.kept));
    say(format_args!("{} lists, the longest with {} records", course.lists, course.longest_list));
    say(format_args!("what is dirty was the same at both hosts after {} of {steps} steps", steps - course.differing()));
    print_moves(course);
    print_losses(course);
}

fn print_moves(course: &Course) {
    let times = |part: fn(&MoveTimes) -> u64| {
        spread(course.moves.iter().map(|moved| Duration::from_micros(part(&moved.times))).collect())
    };
    say(format_args!("\n{} moves: {}", course.moves.len(), times(|times| times.flush + times.list + times.switch)));
    say(format_args!("  flush: {}", times(|times| times.flush)));
    say(format_args!("  last list: {}", times(|times| times.list)));
    say(format_args!("  switch: {}", times(|times| times.switch)));
}

fn print_losses(course: &Course) {
    say(format_args!("\n{} kills", course.losses.len()));
    let mut counts = BTreeMap::new();
    for loss in &course.losses {
        *counts.entry((!loss.chosen, loss.part, &loss.moment)).or_insert(0u64) += 1;
    }
    for ((_, part, moment), count) in &counts {
        say(format_args!("{count:>5}  {:7} {moment}", part.name()));
    }
    say(format_args!(
        "until the survivor had written what only it had: {}",
        spread(course.losses.iter().map(|loss| loss.safe).collect())
    ));
    say(format_args!(
        "until both hosts went on: {}",
        spread(course.losses.iter().filter_map(|loss| loss.recovered).collect())
    ));
    say(format_args!("{} records checked; none is lost", course.checked));
}

/// The median and the worst.
fn spread(mut times: Vec<Duration>) -> String {
    times.sort();
    match times.last() {
        Some(worst) => {
            let median = times[(times.len() - 1) / 2];
            format!("median {:.2} ms, worst {:.2} ms", milliseconds(median), milliseconds(*worst))
        }
        None => "none".to_string(),
    }
}

fn milliseconds(time: Duration) -> f64 {
    time.as_secs_f64() * 1_000.0
}
