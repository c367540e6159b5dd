//! The two host processes, as their parent has them.

use super::failure::{broken, Failure};
use crate::wire::message::Message;
use crate::wire::now;
use std::fs::File;
use std::io;
use std::os::fd::OwnedFd;
use std::os::unix::net::UnixStream;
use std::process::{Child, Command, Stdio};
use std::sync::mpsc::{channel, Receiver, Sender};
use std::thread;
use std::time::Duration;

/// A host that says nothing for so long has failed.
const PATIENCE: Duration = Duration::from_secs(20);

struct Process {
    child: Child,
    stream: UnixStream,
    serial: u64,
}

/// Something that a process said; nothing if its socket has closed.
struct Event {
    serial: u64,
    message: Option<Message>,
}

/// What was heard of the host at a place.
pub enum Heard {
    Said(usize, Message),
    Ended(usize),
}

/// A line of a trace: when, in microseconds since 1970; which host, or the referee; what.
pub struct Note {
    pub time: u64,
    pub place: Option<usize>,
    pub text: String,
}

pub struct Hosts {
    processes: [Process; 2],
    events: Receiver<Event>,
    sender: Sender<Event>,
    world: File,
    started: u64,
    tracing: bool,
    notes: Vec<Note>,
}

impl Process {
    fn start(place: usize, serial: u64, world: &File, sender: Sender<Event>) -> io::Result<Process> {
        let (stream, theirs) = UnixStream::pair()?;
        let child = Command::new(std::env::current_exe()?)
            .args([crate::HOST, &place.to_string()])
            .stdin(Stdio::from(OwnedFd::from(theirs)))
            .stdout(Stdio::from(world.try_clone()?))
            .spawn()?;
        let listening = stream.try_clone()?;
        thread::spawn(move || loop {
            let message = Message::receive(&listening).ok();
            let closed = message.is_none();
            if sender.send(Event { serial, message }).is_err() || closed {
                break;
            }
        });
        Ok(Process { child, stream, serial })
    }

    /// Ends the process at once, by SIGKILL.
    fn kill(&mut self) -> io::Result<()> {
        self.child.kill()?;
        self.child.wait().map(drop)
    }
}

impl Drop for Process {
    fn drop(&mut self) {
        // It may have ended already.
        let _ = self.kill();
    }
}

impl Hosts {
    pub fn start(world: &File) -> io::Result<Hosts> {
        let (sender, events) = channel();
        let processes = [Process::start(0, 0, world, sender.clone())?, Process::start(1, 1, world, sender.clone())?];
        Ok(Hosts {
            processes,
            events,
            sender,
            world: world.try_clone()?,
            started: 2,
            tracing: false,
            notes: Vec::new(),
        })
    }

    pub fn kill(&mut self, place: usize) -> io::Result<()> {
        self.processes[place].kill()
    }

    /// A new process at the place of one that has ended.
    pub fn replace(&mut self, place: usize) -> Result<(), Failure> {
        self.processes[place] = Process::start(place, self.started, &self.world, self.sender.clone())?;
        self.started += 1;
        match self.tracing {
            true => self.request(place, &Message::Trace { on: true }).map(drop),
            false => Ok(()),
        }
    }

    pub fn send(&mut self, place: usize, message: &Message) -> io::Result<()> {
        message.send(&self.processes[place].stream)
    }

    /// What comes next of either host. Notes are kept apart.
    pub fn hear(&mut self) -> Result<Heard, Failure> {
        loop {
            let event = self.events.recv_timeout(PATIENCE).map_err(|_| broken("the hosts do not answer"))?;
            let Some(place) = self.processes.iter().position(|process| process.serial == event.serial) else {
                continue;
            };
            match event.message {
                Some(Message::Note { time, text }) => self.notes.push(Note { time, place: Some(place), text }),
                Some(message) => return Ok(Heard::Said(place, message)),
                None => return Ok(Heard::Ended(place)),
            }
        }
    }

    /// Has a host do something, and waits for its answer. Neither host is to end meanwhile.
    pub fn request(&mut self, place: usize, message: &Message) -> Result<Message, Failure> {
        self.send(place, message)?;
        match self.hear()? {
            Heard::Said(_, Message::Refused { text, .. }) => Err(Failure::Refused(text)),
            Heard::Said(from, Message::Alone) => Err(broken(format!("host {} finds the other one gone", from + 1))),
            Heard::Said(from, answer) if from == place => Ok(answer),
            Heard::Said(from, answer) => Err(broken(format!("host {} says {answer:?}", from + 1))),
            Heard::Ended(ended) => Err(broken(format!("host {} ended by itself", ended + 1))),
        }
    }

    // ---- a trace

    /// From now on what the hosts do is noted.
    pub fn trace(&mut self) -> Result<(), Failure> {
        self.set_tracing(true)
    }

    /// What was noted, by time.
    pub fn end_trace(&mut self) -> Result<Vec<Note>, Failure> {
        self.set_tracing(false)?;
        let mut notes = std::mem::take(&mut self.notes);
        notes.sort_by_key(|note| note.time);
        Ok(notes)
    }

    fn set_tracing(&mut self, on: bool) -> Result<(), Failure> {
        self.tracing = on;
        (0..2).try_for_each(|place| self.request(place, &Message::Trace { on }).map(drop))
    }

    /// Notes what the referee does.
    pub fn note(&mut self, text: impl FnOnce() -> String) {
        if self.tracing {
            self.notes.push(Note { time: now(), place: None, text: text() });
        }
    }
}
