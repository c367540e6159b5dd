//! Kills, and how the survivor goes on.

use super::course::Loss;
use super::failure::{broken, Failure};
use super::kill::Kill;
use super::play::{self, Action};
use super::process::Heard;
use super::Referee;
use crate::moment::Moment;
use crate::wire::message::{Message, MOST_AT_ONCE};
use std::thread::sleep;
use std::time::Instant;

/// A kill that was done: how and amid what, where the host was, and when.
struct Struck {
    kill: Kill,
    amid: &'static str,
    victim: usize,
    at: Instant,
}

impl Referee {
    /// Kills a host: at the moment, or at a random time if there is none. Answers how many kills it took.
    pub fn kill(&mut self, moment: Option<Moment>, left: u64) -> Result<u64, Failure> {
        let begun = self.course.losses.len();
        self.make_dirty()?;
        let again = left > 1;
        match moment {
            Some(moment) if !moment.is_catching_up() => {
                let after = if moment == Moment::AmidWrites { self.random.below(self.figures.records) } else { 0 };
                let action = self.action_to(moment);
                self.kill_amid(action, Kill::At { moment, after }, None)?;
            }
            Some(moment) if again => {
                let change = play::change(&mut self.random, &self.journal);
                let first = Kill::at_random(&mut self.random);
                self.kill_amid(Action::Change(change), first, Some(Kill::At { moment, after: 0 }))?;
            }
            _ => {
                let then = (again && self.random.once_in(4)).then(|| Kill::at_random(&mut self.random));
                self.kill_at_random(then)?;
            }
        }
        Ok((self.course.losses.len() - begun) as u64)
    }

    /// What leads to a moment.
    fn action_to(&mut self, moment: Moment) -> Action {
        match moment {
            Moment::LeadOnly | Moment::Unacknowledged => Action::Change(play::change(&mut self.random, &self.journal)),
            Moment::BeforeSwitch | Moment::Switched => Action::Move,
            _ => Action::Flush,
        }
    }

    fn kill_at_random(&mut self, then: Option<Kill>) -> Result<(), Failure> {
        let kill = Kill::at_random(&mut self.random);
        let action = match self.random.below(4) {
            0 => Action::Flush,
            1 => Action::Move,
            _ => play::next(&mut self.random, &self.journal, false),
        };
        self.kill_amid(action, kill, then)
    }

    /// Kills a host amid an action, and goes on with the survivor. A second kill may come while the new
    /// standby catches up.
    pub fn kill_amid(&mut self, action: Action, kill: Kill, then: Option<Kill>) -> Result<(), Failure> {
        let amid = action.text();
        let (place, message) = self.begin(action);
        let struck = self.strike(place, &message, kill, amid)?;
        self.recover(struck, then)?;
        self.sample()
    }

    /// Has a host do something, and kills the victim amid it.
    fn strike(&mut self, place: usize, message: &Message, kill: Kill, amid: &'static str) -> Result<Struck, Failure> {
        let victim = self.place_of(kill.victim());
        if let Kill::At { moment, after } = kill {
            self.hosts.request(victim, &Message::Stop { moment, after })?;
        }
        self.hosts.send(place, message)?;
        match kill {
            Kill::At { moment, .. } => match self.hosts.hear()? {
                Heard::Said(from, Message::Stopped) if from == victim => {}
                Heard::Said(_, Message::Refused { text, .. }) => return Err(Failure::Refused(text)),
                _ => return Err(broken(format!("no host stopped {}", moment.text()))),
            },
            Kill::Later { delay, .. } => sleep(delay),
        }
        self.hosts.note(|| format!("kills host {} by SIGKILL", victim + 1));
        let at = Instant::now();
        self.hosts.kill(victim)?;
        self.hear_out(place, victim)?;
        Ok(Struck { kill, amid, victim, at })
    }

    /// What the victim said before its end, and what the survivor answers if it was to do something.
    fn hear_out(&mut self, place: usize, victim: usize) -> Result<(), Failure> {
        let (mut ended, mut answered) = (false, place == victim);
        while !ended || !answered {
            match self.hosts.hear()? {
                Heard::Ended(from) if from == victim => ended = true,
                Heard::Ended(from) => return Err(broken(format!("host {} ended by itself", from + 1))),
                Heard::Said(_, Message::Refused { text, .. }) => return Err(Failure::Refused(text)),
                Heard::Said(from, answer) if from == place => {
                    self.done(place, answer)?;
                    answered = true;
                }
                Heard::Said(..) => {}
            }
        }
        Ok(())
    }

    /// The survivor is checked, leads, and brings in what is dirty there; a new host joins it.
    fn recover(&mut self, mut struck: Struck, mut then: Option<Kill>) -> Result<(), Failure> {
        loop {
            let survivor = 1 - struck.victim;
            let (dirty, checked) = self.check_survivor(survivor)?;
            self.begin_pair(survivor)?;
            let safe = struck.at.elapsed();
            self.hosts.replace(struck.victim)?;
            self.join(struck.victim)?;
            self.course.losses.push(Loss {
                step: self.step,
                place: struck.victim,
                part: struck.kill.victim(),
                moment: struck.kill.text(struck.amid),
                chosen: matches!(struck.kill, Kill::At { .. }),
                dirty,
                checked,
                safe,
                recovered: None,
            });
            let Some(next) = then.take().filter(|_| dirty > 0) else {
                return self.bring_in(survivor, struck.at);
            };
            let next = self.amid_catching_up(next, dirty);
            struck = self.strike(survivor, &Message::BringIn, next, "catching up")?;
        }
    }

    fn bring_in(&mut self, survivor: usize, killed: Instant) -> Result<(), Failure> {
        self.hosts.request(survivor, &Message::BringIn)?;
        self.hosts.note(|| "the play goes on".into());
        if let Some(loss) = self.course.losses.last_mut() {
            loss.recovered = Some(killed.elapsed());
        }
        Ok(())
    }

    /// The kill, after a random number of the batches in which the records are brought in.
    fn amid_catching_up(&mut self, kill: Kill, records: u64) -> Kill {
        let batches = records.div_ceil(MOST_AT_ONCE as u64);
        match kill {
            Kill::At { moment, .. } => Kill::At { moment, after: self.random.below(batches) },
            later => later,
        }
    }
}
