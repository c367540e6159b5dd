//! The referee: starts the two hosts, has them play, kills them, and checks after each kill that nothing
//! is lost that both had.

pub mod course;
pub mod failure;
pub mod journal;
pub mod kill;
mod killing;
mod play;
pub mod process;
pub mod provoke;
mod random;
pub mod trace;

use crate::moment::Part;
use crate::wire::message::{Figures, Message, Resident};
use course::{Course, Move, Sample};
use failure::{broken, Failure};
use journal::Journal;
use play::Action;
use process::Hosts;
use random::Random;
use speldervacht::Change;
use std::fs::File;
use std::time::{Duration, Instant};

/// A kill at a chosen moment wants so many dirty records.
const WANTED_DIRTY: u64 = 4;

pub struct Referee {
    pub hosts: Hosts,
    /// The place of the lead.
    pub lead: usize,
    pair: u64,
    world: File,
    pub journal: Journal,
    pub random: Random,
    pub course: Course,
    pub step: u64,
    began: Instant,
    /// Figures of the lead, as last sampled.
    figures: Figures,
}

impl Referee {
    /// Starts two hosts over an empty world.
    pub fn start(world: File, seed: u64) -> Result<Referee, Failure> {
        let mut referee = Referee {
            hosts: Hosts::start(&world)?,
            lead: 0,
            pair: 0,
            world,
            journal: Journal::default(),
            random: Random::new(seed),
            course: Course::default(),
            step: 0,
            began: Instant::now(),
            figures: Figures::default(),
        };
        referee.begin_pair(0)?;
        referee.join(1)?;
        referee.hosts.request(0, &Message::BringIn)?;
        Ok(referee)
    }

    /// The host at the place leads a new pair.
    fn begin_pair(&mut self, place: usize) -> Result<(), Failure> {
        self.pair += 1;
        self.lead = place;
        self.hosts.request(place, &Message::Lead { pair: self.pair }).map(drop)
    }

    /// The host at the place joins it.
    fn join(&mut self, place: usize) -> Result<(), Failure> {
        self.hosts.request(place, &Message::Join { pair: self.pair }).map(drop)
    }

    pub fn place_of(&self, part: Part) -> usize {
        match part {
            Part::Lead => self.lead,
            Part::Standby => 1 - self.lead,
        }
    }

    // ---- play

    /// One step of random play.
    pub fn play(&mut self, moves: bool) -> Result<(), Failure> {
        let action = match play::next(&mut self.random, &self.journal, self.figures.due) {
            Action::Move if !moves => Action::Flush,
            action => action,
        };
        self.perform(action)
    }

    /// Has the hosts do something.
    pub fn perform(&mut self, action: Action) -> Result<(), Failure> {
        let (place, message) = self.begin(action);
        let answer = self.hosts.request(place, &message)?;
        self.done(place, answer)?;
        self.sample()
    }

    /// Who is to do an action, and what it is told. A change is in flight from now on.
    fn begin(&mut self, action: Action) -> (usize, Message) {
        match action {
            Action::Change(change) => {
                let kind = match change {
                    Change::Insert { .. } => 0,
                    Change::ReleaseChanged { .. } => 1,
                    Change::Resize { .. } => 2,
                    Change::Discard { .. } => 3,
                };
                self.course.changes[kind] += 1;
                (self.lead, Message::Play { number: self.journal.begin(change.clone()), change })
            }
            Action::Read { place, address, keep, pin } => {
                self.course.reads += 1;
                (place, Message::Read { address, keep, pin })
            }
            Action::LetGo { place } => (place, Message::LetGo),
            Action::Flush => (self.lead, Message::Flush),
            Action::Sync => (self.lead, Message::Sync),
            Action::Move => (self.lead, Message::Move),
        }
    }

    /// What is known once an action was answered. A host that finds itself alone has not done it.
    fn done(&mut self, place: usize, answer: Message) -> Result<(), Failure> {
        match answer {
            Message::Done => self.journal.both_had(),
            Message::Contents { address, bytes } => self.journal.check_read(place, address, &bytes)?,
            Message::Listed { records } => {
                self.course.lists += 1;
                self.course.longest_list = self.course.longest_list.max(records);
            }
            Message::Moved { times } => {
                self.lead = 1 - self.lead;
                self.course.moves.push(Move { step: self.step, times });
            }
            Message::Alone => {}
            other => return Err(broken(format!("host {} answers {other:?}", place + 1))),
        }
        Ok(())
    }

    /// The figures of both hosts after a step.
    fn sample(&mut self) -> Result<(), Failure> {
        let mut figures = [Figures::default(); 2];
        for (place, of_host) in figures.iter_mut().enumerate() {
            *of_host = match self.hosts.request(place, &Message::Report)? {
                Message::Reported { figures } => figures,
                other => return Err(broken(format!("host {} reports {other:?}", place + 1))),
            };
        }
        self.figures = figures[self.lead];
        let sample = Sample { step: self.step, time: self.began.elapsed(), lead: self.lead, figures };
        self.course.samples.push(sample);
        self.step += 1;
        Ok(())
    }

    /// Changes until a few records are dirty.
    pub fn make_dirty(&mut self) -> Result<(), Failure> {
        while self.figures.records < WANTED_DIRTY {
            let change = play::change(&mut self.random, &self.journal);
            self.perform(Action::Change(change))?;
        }
        Ok(())
    }

    // ---- checks

    /// Checks what the survivor of a kill has: its dirty records, and the records checked.
    fn check_survivor(&mut self, survivor: usize) -> Result<(u64, u64), Failure> {
        let (last, memory) = self.told(survivor)?;
        self.journal.survived(last);
        let checked = self.journal.check(survivor, &memory, &self.world)?;
        self.course.checked += checked;
        self.hosts.note(|| format!("checks {checked} records of the journal: none is lost"));
        Ok((memory.iter().filter(|record| record.dirty).count() as u64, checked))
    }

    /// Checks both hosts, as if each were the survivor.
    pub fn check_both(&mut self) -> Result<(), Failure> {
        for place in [0, 1] {
            let (_, memory) = self.told(place)?;
            self.course.checked += self.journal.check(place, &memory, &self.world)?;
        }
        Ok(())
    }

    fn told(&mut self, place: usize) -> Result<(u64, Vec<Resident>), Failure> {
        match self.hosts.request(place, &Message::Tell)? {
            Message::Told { last, records } => Ok((last, records)),
            other => Err(broken(format!("host {} tells {other:?}", place + 1))),
        }
    }

    pub fn elapsed(&self) -> Duration {
        self.began.elapsed()
    }
}
