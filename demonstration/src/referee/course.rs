//! What came of a run: figures after each step, moves, kills.

use crate::moment::Part;
use crate::wire::message::{Figures, MoveTimes};
use std::time::Duration;

/// The figures of both hosts after a step.
pub struct Sample {
    pub step: u64,
    pub time: Duration,
    /// The place of the lead.
    pub lead: usize,
    pub figures: [Figures; 2],
}

impl Sample {
    /// Whether the hosts agree as demand 3 has it.
    pub fn agrees(&self) -> bool {
        let shared = |figures: Figures| (figures.dirty, figures.records, figures.count, figures.due, figures.next);
        let [one, other] = self.figures;
        shared(one) == shared(other)
    }
}

pub struct Move {
    pub step: u64,
    pub times: MoveTimes,
}

pub struct Loss {
    pub step: u64,
    /// Where the killed host was, and what part it played.
    pub place: usize,
    pub part: Part,
    /// When it was killed, in words, and whether at a moment that was chosen.
    pub moment: String,
    pub chosen: bool,
    /// The survivor's dirty records, which it brings in, and the records checked.
    pub dirty: u64,
    pub checked: u64,
    /// Until the survivor had written what only it had; until both hosts could go on.
    pub safe: Duration,
    pub recovered: Option<Duration>,
}

#[derive(Default)]
pub struct Course {
    pub samples: Vec<Sample>,
    pub moves: Vec<Move>,
    pub losses: Vec<Loss>,
    /// Changes by kind: created, changed, resized, discarded.
    pub changes: [u64; 4],
    pub reads: u64,
    pub lists: u64,
    pub longest_list: u64,
    pub checked: u64,
}

impl Course {
    pub fn differing(&self) -> usize {
        self.samples.iter().filter(|sample| !sample.agrees()).count()
    }
}
