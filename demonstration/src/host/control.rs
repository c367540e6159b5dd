//! A host's side of its socket to the referee: answers, notes, and the moment at which it stops.

use crate::mistake::Mistake;
use crate::moment::Moment;
use crate::wire::message::Message;
use crate::wire::now;
use std::cell::Cell;
use std::io;
use std::os::unix::net::UnixStream;

pub struct Control {
    stream: UnixStream,
    tracing: Cell<bool>,
    /// Where to stop, and how often that place is passed before.
    stop: Cell<Option<(Moment, u64)>>,
    mistake: Cell<Option<Mistake>>,
}

impl Control {
    pub fn new(stream: UnixStream) -> Control {
        Control { stream, tracing: Cell::new(false), stop: Cell::new(None), mistake: Cell::new(None) }
    }

    pub fn send(&self, message: &Message) -> io::Result<()> {
        message.send(&self.stream)
    }

    pub fn trace(&self, on: bool) {
        self.tracing.set(on);
    }

    /// Tells what was done, if that is wanted.
    pub fn note(&self, text: impl FnOnce() -> String) {
        if self.tracing.get() {
            // If the referee is gone, so is this process.
            let _ = self.send(&Message::Note { time: now(), text: text() });
        }
    }

    // ---- moments

    pub fn stop_later(&self, moment: Moment, after: u64) {
        self.stop.set(Some((moment, after)));
    }

    /// Whether this is the moment to stop at.
    pub fn reached(&self, moment: Moment) -> bool {
        match self.stop.get() {
            Some((wanted, 0)) => wanted == moment,
            Some((wanted, after)) if wanted == moment => {
                self.stop.set(Some((wanted, after - 1)));
                false
            }
            _ => false,
        }
    }

    /// Says so and does nothing more until the process is killed, or ends as its socket closes.
    pub fn stop(&self) -> ! {
        let _ = self.send(&Message::Stopped);
        loop {
            std::thread::park();
        }
    }

    pub fn stop_at(&self, moment: Moment) {
        if self.reached(moment) {
            self.stop();
        }
    }

    // ---- mistakes

    pub fn plan_mistake(&self, mistake: Mistake) {
        self.mistake.set(Some(mistake));
    }

    pub fn makes(&self, mistake: Mistake) -> bool {
        self.mistake.get() == Some(mistake)
    }

    /// Whether this mistake is made now; it is made once.
    pub fn makes_once(&self, mistake: Mistake) -> bool {
        let makes = self.makes(mistake);
        if makes {
            self.mistake.set(None);
        }
        makes
    }
}
