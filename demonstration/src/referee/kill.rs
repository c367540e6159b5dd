//! How a host is killed.

use super::random::Random;
use crate::moment::{Moment, Part};
use std::time::Duration;

/// A kill that is planned.
#[derive(Clone, Copy, Debug)]
pub enum Kill {
    /// The host stops at the moment, after so many passes of it, and is killed there.
    At { moment: Moment, after: u64 },
    /// The host is killed so long after something was begun.
    Later { victim: Part, delay: Duration },
}

impl Kill {
    /// A kill at a random time: of either host, from at once to a few milliseconds later.
    pub fn at_random(random: &mut Random) -> Kill {
        let victim = if random.once_in(2) { Part::Lead } else { Part::Standby };
        let largest = 10 << random.below(10);
        Kill::Later { victim, delay: Duration::from_micros(random.below(largest)) }
    }

    pub fn victim(self) -> Part {
        match self {
            Kill::At { moment, .. } => moment.victim(),
            Kill::Later { victim, .. } => victim,
        }
    }

    /// When it was, in words. `amid` is what was under way.
    pub fn text(self, amid: &str) -> String {
        match self {
            Kill::At { moment, .. } => moment.text().to_string(),
            Kill::Later { .. } => format!("at a random time, amid {amid}"),
        }
    }
}

/// The moments of all chosen kills of a run: each of them in turn, in random order. None is a kill at a
/// random time.
pub fn plans(random: &mut Random, kills: u64) -> Vec<Option<Moment>> {
    let mut plans = Vec::new();
    while (plans.len() as u64) < kills {
        let mut moments = Moment::ALL;
        random.shuffle(&mut moments);
        plans.extend(moments.into_iter().flat_map(|moment| [Some(moment), None]));
    }
    plans
}
