//! A host's process: a cache, the records in memory, a socket to the referee and one to the other host.
//!
//! Its standard input is the socket to the referee, its standard output the world's file. When the socket
//! to the referee closes, the process ends, whatever it does.

mod control;
mod lead;
mod local;
mod shared;
mod standby;
mod store;

use crate::wire::message::{Figures, Message, Resident};
use control::Control;
use speldervacht::{Cache, Decrease, Flash, Host, HostError, Increase, Mode, ReadGuard, Refusal, Settings};
use std::collections::{BTreeMap, BTreeSet, VecDeque};
use std::error::Error;
use std::fmt::Display;
use std::fs::File;
use std::io;
use std::os::fd::AsFd;
use std::os::unix::net::{UnixListener, UnixStream};
use std::process::exit;
use std::rc::Rc;
use std::sync::mpsc::{channel, Receiver, Sender};
use std::sync::Arc;
use std::thread;
use store::WorldFile;

/// The same for both hosts, as demand 3 wants it.
const THRESHOLD: u64 = 4_096;

/// The two hosts have caches of different sizes.
fn rows_and_settings(place: usize, mode: Mode) -> (usize, Settings) {
    let (rows, initial_size) = [(32, 5_120), (48, 7_168)][place];
    let settings = Settings {
        initial_size: Some(initial_size),
        maximum_size: 2 * initial_size,
        minimum_size: initial_size / 2,
        epoch_length: 100,
        increase: Increase::Threshold { lower: 0.7, multiplier: 1.5 },
        increase_cap: None,
        flash: Flash::On { multiple: 1.0, threshold: 0.1 },
        decrease: Decrease::AgeOutWithThreshold { upper: 0.75, epochs: 1, reserve: 0.1 },
        ..Settings::defaults(mode)
    };
    (rows, settings)
}

/// What came, from whom.
enum Event {
    Referee(Message),
    /// From the other host of this pair; none if its socket has closed.
    Other {
        pair: u64,
        message: Option<Message>,
    },
}

/// Why a host did not do what it was told.
enum Failure {
    /// This host or the other refuses: the library's number, and words. 0 is another failure.
    Refused { number: u64, text: String },
    /// The other host is gone.
    Alone,
}

impl From<io::Error> for Failure {
    /// The socket to the other host has failed.
    fn from(_: io::Error) -> Failure {
        Failure::Alone
    }
}

impl Failure {
    fn message(self) -> Message {
        match self {
            Failure::Refused { number, text } => Message::Refused { number, text },
            Failure::Alone => Message::Alone,
        }
    }
}

struct HostProcess {
    place: usize,
    host: Host<WorldFile>,
    control: Rc<Control>,
    /// What is held for reading, the longest first; what is pinned; what is held for writing.
    readers: VecDeque<ReadGuard>,
    pins: BTreeSet<u64>,
    writing: Option<u64>,
    /// Records that were dirty when the other host was lost, and are not brought in yet.
    waiting: BTreeMap<u64, Arc<[u8]>>,
    /// The last change of the play that was done here.
    last: u64,
    events: Receiver<Event>,
    sender: Sender<Event>,
    /// What the referee said while the other host was to answer.
    deferred: VecDeque<Message>,
    pair: u64,
    listener: Option<UnixListener>,
    link: Option<UnixStream>,
    /// A list that is sent after the next change, by mistake.
    kept_back: Option<speldervacht::Message>,
}

/// The process of the host at a place, 0 or 1.
pub fn run(place: &str) -> Result<(), Box<dyn Error>> {
    let place: usize = place.parse()?;
    let file = Rc::new(File::from(io::stdout().as_fd().try_clone_to_owned()?));
    let referee = UnixStream::from(io::stdin().as_fd().try_clone_to_owned()?);
    let (sender, events) = channel();
    listen_to_referee(referee.try_clone()?, sender.clone());
    let control = Rc::new(Control::new(referee));
    let world = WorldFile { file, control: control.clone() };
    let mut process = HostProcess {
        place,
        host: opened(place, Mode::Standby, world)?,
        control,
        readers: VecDeque::new(),
        pins: BTreeSet::new(),
        writing: None,
        waiting: BTreeMap::new(),
        last: 0,
        events,
        sender,
        deferred: VecDeque::new(),
        pair: 0,
        listener: None,
        link: None,
        kept_back: None,
    };
    loop {
        process.serve()?;
    }
}

fn opened(place: usize, mode: Mode, world: WorldFile) -> Result<Host<WorldFile>, Refusal> {
    let (rows, settings) = rows_and_settings(place, mode);
    Host::open(&Cache::builder().rows(rows).mode(mode).threshold(THRESHOLD).settings(settings), world)
}

fn listen_to_referee(stream: UnixStream, sender: Sender<Event>) {
    thread::spawn(move || {
        while let Ok(message) = Message::receive(&stream) {
            if sender.send(Event::Referee(message)).is_err() {
                break;
            }
        }
        exit(0)
    });
}

fn listen_to_other(stream: UnixStream, pair: u64, sender: Sender<Event>) {
    thread::spawn(move || loop {
        let message = Message::receive(&stream).ok();
        let closed = message.is_none();
        if sender.send(Event::Other { pair, message }).is_err() || closed {
            break;
        }
    });
}

impl HostProcess {
    /// Serves the next message, of the referee or of the lead.
    fn serve(&mut self) -> Result<(), Box<dyn Error>> {
        let event = match self.deferred.pop_front() {
            Some(message) => Event::Referee(message),
            None => self.events.recv()?,
        };
        match event {
            Event::Referee(message) => {
                let answer = self.obey(message).unwrap_or_else(Failure::message);
                self.control.send(&answer)?;
            }
            Event::Other { pair, message } if pair == self.pair => match message {
                Some(message) => {
                    let answer = self.follow(message).unwrap_or_else(Failure::message);
                    // If the lead is gone, the socket's end comes next.
                    let _ = self.link.as_ref().map(|link| answer.send(link));
                }
                None => self.link = None,
            },
            Event::Other { .. } => {}
        }
        Ok(())
    }

    /// Does what the referee says.
    fn obey(&mut self, message: Message) -> Result<Message, Failure> {
        match message {
            Message::Lead { pair } => self.lead(pair)?,
            Message::Join { pair } => self.join(pair)?,
            Message::BringIn => self.bring_in()?,
            Message::Play { number, change } => self.share(number, &change)?,
            Message::Read { address, keep, pin } => return self.read(address, keep, pin),
            Message::LetGo => self.let_go()?,
            Message::Flush => return self.send_list(true).map(|records| Message::Listed { records }),
            Message::Sync => return self.send_list(false).map(|records| Message::Listed { records }),
            Message::Move => return self.move_world().map(|times| Message::Moved { times }),
            Message::Report => return self.figures(),
            Message::Tell => return Ok(self.told()),
            Message::Stop { moment, after } => self.control.stop_later(moment, after),
            Message::MakeMistake { mistake } => self.control.plan_mistake(mistake),
            Message::Trace { on } => self.control.trace(on),
            other => return Err(self.failed("a message", format!("{other:?} is not for a host"))),
        }
        Ok(Message::Done)
    }

    /// A fresh cache, and nothing in memory.
    fn open(&mut self, mode: Mode) -> Result<(), Failure> {
        self.readers.clear();
        self.pins.clear();
        self.writing = None;
        self.kept_back = None;
        let world = self.host.store().clone();
        self.host = opened(self.place, mode, world).map_err(|refusal| self.refusal("the opening", refusal))?;
        let part = if mode == Mode::Lead { "leads" } else { "stands by" };
        self.control.note(|| format!("opens a fresh cache and {part}"));
        Ok(())
    }

    fn connect(&mut self, link: UnixStream) -> Result<(), Failure> {
        listen_to_other(link.try_clone()?, self.pair, self.sender.clone());
        self.link = Some(link);
        Ok(())
    }

    // ---- refusals

    /// The library refuses.
    fn refusal(&self, what: &str, refusal: Refusal) -> Failure {
        Failure::Refused {
            number: refusal.number(),
            text: format!("host {} refuses {what}: {refusal}", self.place + 1),
        }
    }

    /// Something else fails.
    fn failed(&self, what: &str, error: impl Display) -> Failure {
        Failure::Refused { number: 0, text: format!("host {} fails at {what}: {error}", self.place + 1) }
    }

    fn failure(&self, what: &str, error: HostError<io::Error>) -> Failure {
        match error {
            HostError::Refused(refusal) => self.refusal(what, refusal),
            other => self.failed(what, other),
        }
    }

    // ---- figures

    fn figures(&mut self) -> Result<Message, Failure> {
        self.host.settle().map_err(|error| self.failure("a release", error))?;
        let report = self.host.report().map_err(|refusal| self.refusal("a report", refusal))?;
        let figures = Figures {
            dirty: report.dirty,
            held: report.held,
            maximum: report.maximum,
            count: report.count,
            due: report.due,
            next: report.next,
            records: self.host.dirty().count() as u64,
        };
        Ok(Message::Reported { figures })
    }

    fn told(&self) -> Message {
        let resident =
            |address: u64, dirty: bool, bytes: &Arc<[u8]>| Resident { address, dirty, bytes: bytes.to_vec() };
        let waiting = self.waiting.iter().map(|(address, bytes)| resident(*address, true, bytes));
        let in_cache = self.host.cache().entries().filter_map(|entry| {
            let bytes = self.host.record(entry.address)?;
            Some(resident(entry.address, entry.dirty, bytes))
        });
        Message::Told { last: self.last, records: waiting.chain(in_cache).collect() }
    }
}
