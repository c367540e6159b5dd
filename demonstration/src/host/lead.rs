//! What a lead does: shared changes, lists, moves, and a new standby's catching up.

use super::{Event, Failure, HostProcess};
use crate::mistake::Mistake;
use crate::moment::Moment;
use crate::wire::message::{Message, MoveTimes, MOST_AT_ONCE};
use crate::wire::socket;
use speldervacht::{Change, Mode, Refusal, Store};
use std::io::Write;
use std::sync::Arc;
use std::time::Instant;

impl HostProcess {
    /// A new pair begins, which this host leads. What is dirty here is written first: until the new standby
    /// has it, nobody else does.
    pub(super) fn lead(&mut self, pair: u64) -> Result<(), Failure> {
        self.waiting.extend(self.host.dirty().map(|(address, bytes)| (address, bytes.clone())));
        for (address, bytes) in &self.waiting {
            let written = self.host.store_mut().write(*address, bytes);
            written.map_err(|error| self.failed("a write", error))?;
        }
        let synced = self.host.store_mut().sync();
        synced.map_err(|error| self.failed("a sync", error))?;
        self.link = None;
        self.pair = pair;
        self.open(Mode::Lead)?;
        self.listener = Some(socket::listen(pair).map_err(|error| self.failed("listening", error))?);
        Ok(())
    }

    /// The new standby gets the records that were dirty, some at a time, and both have them as inserted. They
    /// are not asked: both caches are fresh, and each has rows for all that was dirty at both.
    pub(super) fn bring_in(&mut self) -> Result<(), Failure> {
        let (link, _) = self.listener.take().ok_or(Failure::Alone)?.accept()?;
        self.connect(link)?;
        while !self.waiting.is_empty() {
            self.control.stop_at(Moment::LeadCatchingUp);
            let first = self.waiting.iter().take(MOST_AT_ONCE);
            let records: Vec<(u64, Arc<[u8]>)> = first.map(|(address, bytes)| (*address, bytes.clone())).collect();
            self.insert(&records)?;
            for (address, _) in &records {
                self.waiting.remove(address);
            }
            self.tell(&Message::Records { records })?;
        }
        Ok(())
    }

    /// A shared change: asked of both, and done at both once both say yes.
    pub(super) fn share(&mut self, number: u64, change: &Change) -> Result<(), Failure> {
        while let Err(failure) = self.asked(change) {
            match failure {
                // What a list makes clean may be evicted. An empty one helps nobody.
                Failure::Refused { number, .. } if number == Refusal::NoRow.number() => {
                    if self.send_list(true)? == 0 {
                        return Err(failure);
                    }
                }
                other => return Err(other),
            }
        }
        self.apply(number, change)?;
        self.control.stop_at(Moment::LeadOnly);
        self.tell(&Message::Do { number, change: change.clone() })?;
        match self.kept_back.take() {
            Some(list) => self.deliver(&list),
            None => Ok(()),
        }
    }

    fn asked(&mut self, change: &Change) -> Result<(), Failure> {
        self.ready(change)?;
        self.tell(&Message::Ask { change: change.clone() })
    }

    /// Says something to the standby, and waits until it is done there.
    fn tell(&mut self, message: &Message) -> Result<(), Failure> {
        message.send(self.link.as_ref().ok_or(Failure::Alone)?)?;
        self.answered()
    }

    fn answered(&mut self) -> Result<(), Failure> {
        loop {
            match self.events.recv().map_err(|_| Failure::Alone)? {
                Event::Referee(message) => self.deferred.push_back(message),
                Event::Other { pair, message } if pair == self.pair => {
                    return match message {
                        Some(Message::Refused { number, text }) => Err(Failure::Refused { number, text }),
                        Some(_) => Ok(()),
                        None => {
                            self.link = None;
                            Err(Failure::Alone)
                        }
                    }
                }
                Event::Other { .. } => {}
            }
        }
    }

    /// A flush or a sync, whose list the standby takes: how many records it names.
    pub(super) fn send_list(&mut self, flush: bool) -> Result<u64, Failure> {
        let list = self.write_out(flush)?;
        let records = list.addresses().len() as u64;
        if records > 0 && self.control.makes_once(Mistake::Reorder) {
            self.kept_back = Some(list);
        } else {
            self.deliver(&list)?;
        }
        Ok(records)
    }

    /// Writes every dirty record, or enough of them, and syncs the file: the message of what was written. A
    /// flush wants that nothing is held.
    fn write_out(&mut self, flush: bool) -> Result<speldervacht::Message, Failure> {
        self.stop_writing()?;
        let kind = if flush { "flush" } else { "sync" };
        self.control.note(|| format!("begins a {kind} with {} dirty records", self.host.dirty().count()));
        let list = if flush {
            self.readers.clear();
            self.host.flush()
        } else {
            self.host.sync().map(Some)
        };
        let list = list.map_err(|error| self.failure("a list", error))?;
        self.control.stop_at(Moment::BeforeList);
        list.ok_or_else(|| self.failed("a list", "it does not lead"))
    }

    fn deliver(&mut self, list: &speldervacht::Message) -> Result<(), Failure> {
        let message = Message::List { message: list.as_bytes().to_vec() };
        self.control.note(|| format!("sends message {}, a list of {} records", list.number(), list.addresses().len()));
        if self.control.reached(Moment::HalfList) {
            let frame = message.frame();
            let mut link = self.link.as_ref().ok_or(Failure::Alone)?;
            link.write_all(&frame[..frame.len() / 2])?;
            self.control.note(|| format!("{} of the list's {} bytes are sent", frame.len() / 2, frame.len()));
            self.control.stop();
        }
        self.tell(&message)
    }

    /// The world moves: all is written, the standby takes the last list and leads, and this host stands by.
    pub(super) fn move_world(&mut self) -> Result<MoveTimes, Failure> {
        let began = Instant::now();
        let list = self.write_out(true)?;
        let flushed = Instant::now();
        self.deliver(&list)?;
        self.control.stop_at(Moment::BeforeSwitch);
        let listed = Instant::now();
        self.tell(&Message::Switch)?;
        self.open(Mode::Standby)?;
        Ok(MoveTimes {
            flush: flushed.duration_since(began).as_micros() as u64,
            list: listed.duration_since(flushed).as_micros() as u64,
            switch: listed.elapsed().as_micros() as u64,
        })
    }
}
