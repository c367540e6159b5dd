//! A run in which a host makes a mistake on purpose.

use super::failure::{broken, Failure};
use super::kill::Kill;
use super::play::{self, Action};
use super::Referee;
use crate::mistake::Mistake;
use crate::moment::Part;
use crate::report::say;
use crate::wire::message::Message;
use speldervacht::Change;
use std::time::Duration;

/// Steps before the mistake, and at most so many after it.
const BEFORE: u64 = 200;
const AFTER: u64 = 5_000;

/// Plays, has a host make the mistake, and kills the lead. It ends with what was noticed.
pub fn provoke(referee: &mut Referee, mistake: Mistake) -> Result<(), Failure> {
    for _ in 0..BEFORE {
        referee.play(true)?;
    }
    say(format_args!("after {} steps, on purpose: {}", referee.step, mistake.text()));
    match mistake {
        Mistake::DropList => {
            plan(referee, Part::Standby, mistake)?;
            // The list after the one that is dropped does not have the next number.
            for _ in 0..AFTER {
                referee.play(false)?;
            }
        }
        Mistake::SkipWrite => {
            change(referee)?;
            plan(referee, Part::Lead, mistake)?;
            referee.perform(Action::Flush)?;
        }
        Mistake::EvictDirty => {
            plan(referee, Part::Standby, mistake)?;
            change(referee)?;
        }
        Mistake::Reorder => {
            let address = change(referee)?;
            plan(referee, Part::Lead, mistake)?;
            referee.perform(Action::Flush)?;
            let bytes = play::contents(&mut referee.random);
            referee.perform(Action::Change(Change::ReleaseChanged { address, bytes }))?;
        }
    }
    say("the lead is killed");
    let kill = Kill::Later { victim: Part::Lead, delay: Duration::ZERO };
    referee.kill_amid(Action::LetGo { place: 1 - referee.lead }, kill, None)?;
    Err(broken("the mistake was not noticed"))
}

fn plan(referee: &mut Referee, part: Part, mistake: Mistake) -> Result<(), Failure> {
    let place = referee.place_of(part);
    referee.hosts.request(place, &Message::MakeMistake { mistake }).map(drop)
}

/// A change that leaves a record: its address.
fn change(referee: &mut Referee) -> Result<u64, Failure> {
    loop {
        let change = play::change(&mut referee.random, &referee.journal);
        let (address, leaves) = (change.address(), change.bytes().is_some());
        referee.perform(Action::Change(change))?;
        if leaves {
            return Ok(address);
        }
    }
}
