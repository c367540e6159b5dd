//! The requests of one host alone, and what it does about a refusal.

use super::store::WorldFile;
use super::{Failure, HostProcess};
use crate::wire::message::Message;
use speldervacht::{Host, HostError, Refusal};
use std::io;

/// Readers and pins that a host keeps.
const MOST_KEPT: usize = 4;

impl HostProcess {
    /// Tries a request, and does what helps as long as it is refused and something of this host helps.
    pub(super) fn until_done<T>(
        &mut self,
        what: &str,
        mut request: impl FnMut(&mut Host<WorldFile>) -> Result<T, HostError<io::Error>>,
    ) -> Result<T, Failure> {
        loop {
            match request(&mut self.host) {
                Ok(done) => return Ok(done),
                Err(HostError::Refused(refusal)) if self.help(refusal)? => {}
                Err(error) => return Err(self.failure(what, error)),
            }
        }
    }

    /// What helps at each number (docs/RULES.md). Answers whether anything did.
    fn help(&mut self, refusal: Refusal) -> Result<bool, Failure> {
        match refusal {
            Refusal::NotInCache { address } | Refusal::NotHeld { address } => {
                self.until_done(&format!("a hold on record {address}"), |host| host.protect_for_writing(address))?;
                self.writing = Some(address);
            }
            Refusal::Held { address, .. } if self.readers.iter().any(|reader| reader.address() == address) => {
                self.readers.retain(|reader| reader.address() != address);
            }
            Refusal::Pinned { address } => self.unpin(address)?,
            Refusal::NoRow if !self.readers.is_empty() || !self.pins.is_empty() => {
                self.readers.clear();
                while let Some(address) = self.pins.first().copied() {
                    self.unpin(address)?;
                }
            }
            _ => return Ok(false),
        }
        Ok(true)
    }

    /// Reads a record. If there is no row for it, it is left.
    pub(super) fn read(&mut self, address: u64, keep: bool, pin: bool) -> Result<Message, Failure> {
        let guard = match self.until_done("a read", |host| host.read(address)) {
            Err(Failure::Refused { number, .. }) if number == Refusal::NoRow.number() => return Ok(Message::Done),
            guard => guard?,
        };
        if pin && self.pins.len() < MOST_KEPT && !self.pins.contains(&address) {
            self.host.pin(address).map_err(|error| self.failure("a pin", error))?;
            self.pins.insert(address);
        }
        let contents = Message::Contents { address, bytes: guard.to_vec() };
        if keep && self.readers.len() < MOST_KEPT {
            self.readers.push_back(guard);
        }
        Ok(contents)
    }

    pub(super) fn let_go(&mut self) -> Result<(), Failure> {
        self.readers.pop_front();
        self.pins.first().copied().map_or(Ok(()), |address| self.unpin(address))
    }

    fn unpin(&mut self, address: u64) -> Result<(), Failure> {
        self.host.unpin(address).map_err(|error| self.failure("an unpin", error))?;
        self.pins.remove(&address);
        Ok(())
    }

    /// The hold for writing goes, the record as it is.
    pub(super) fn stop_writing(&mut self) -> Result<(), Failure> {
        match self.writing.take() {
            Some(address) => self.host.release(address).map_err(|error| self.failure("a release", error)),
            None => Ok(()),
        }
    }
}
