//! One move and one lost lead, line by line.

use super::failure::Failure;
use super::kill::Kill;
use super::play::{self, Action};
use super::process::Note;
use super::Referee;
use crate::moment::Moment;
use crate::report::say;

/// Steps before the move, and the changes before each of the two.
const BEFORE: u64 = 300;
const CHANGES: u64 = 6;

pub fn trace(referee: &mut Referee) -> Result<(), Failure> {
    for _ in 0..BEFORE {
        referee.play(true)?;
    }
    make_ready(referee)?;
    referee.hosts.trace()?;
    say(format_args!("\na move: host {} leads, host {} stands by", referee.lead + 1, 2 - referee.lead));
    referee.perform(Action::Move)?;
    print(&referee.hosts.end_trace()?);

    make_ready(referee)?;
    referee.hosts.trace()?;
    say(format_args!("\na lost lead: host {} leads, host {} stands by", referee.lead + 1, 2 - referee.lead));
    let kill = Kill::At { moment: Moment::AmidWrites, after: 2 };
    referee.kill_amid(Action::Flush, kill, None)?;
    print(&referee.hosts.end_trace()?);
    referee.check_both()?;
    say(format_args!("\n{} records checked; none is lost", referee.course.checked));
    Ok(())
}

/// A flush, and then a few changes.
fn make_ready(referee: &mut Referee) -> Result<(), Failure> {
    referee.perform(Action::Flush)?;
    for _ in 0..CHANGES {
        let change = play::change(&mut referee.random, &referee.journal);
        referee.perform(Action::Change(change))?;
    }
    referee.make_dirty()
}

fn print(notes: &[Note]) {
    let began = notes.first().map_or(0, |note| note.time);
    for note in notes {
        let who = note.place.map_or("referee".to_string(), |place| format!("host {}", place + 1));
        say(format_args!("{:9.3} ms  {who:7}  {}", (note.time - began) as f64 / 1_000.0, note.text));
    }
}
