//! What a standby does.

use super::{Failure, HostProcess};
use crate::mistake::Mistake;
use crate::moment::Moment;
use crate::wire::message::Message;
use crate::wire::socket;
use speldervacht::{Change, Mode};

impl HostProcess {
    /// Joins the lead of a pair, with a fresh cache.
    pub(super) fn join(&mut self, pair: u64) -> Result<(), Failure> {
        self.pair = pair;
        self.open(Mode::Standby)?;
        let link = socket::connect(pair).map_err(|error| self.failed("joining", error))?;
        self.connect(link)
    }

    /// Does what the lead says.
    pub(super) fn follow(&mut self, message: Message) -> Result<Message, Failure> {
        match message {
            Message::Ask { change } => self.ready(&change)?,
            Message::Do { number, change } => {
                self.apply(number, &change)?;
                self.control.stop_at(Moment::Unacknowledged);
                self.forget(&change)?;
            }
            Message::Records { records } => {
                self.insert(&records)?;
                self.control.stop_at(Moment::StandbyCatchingUp);
            }
            Message::List { message } => self.take(&message)?,
            Message::Switch => {
                self.open(Mode::Lead)?;
                self.control.stop_at(Moment::Switched);
            }
            other => return Err(self.failed("a message", format!("{other:?} is not for a standby"))),
        }
        Ok(Message::Done)
    }

    fn take(&mut self, message: &[u8]) -> Result<(), Failure> {
        self.control.stop_at(Moment::BeforeTake);
        if self.control.makes_once(Mistake::DropList) {
            return Ok(());
        }
        let (number, dirty) = (self.host.cache().next_number(), self.host.dirty().count());
        self.host.take(message).map_err(|error| self.failure("a list", error))?;
        self.control
            .note(|| format!("takes message {number}, a list of {} records", dirty - self.host.dirty().count()));
        Ok(())
    }

    /// By mistake, the record that was just changed is dropped.
    fn forget(&mut self, change: &Change) -> Result<(), Failure> {
        if change.bytes().is_some() && self.control.makes_once(Mistake::EvictDirty) {
            let dropped = self.host.discard(change.address());
            dropped.map_err(|error| self.failure("a discard", error))?;
        }
        Ok(())
    }
}
