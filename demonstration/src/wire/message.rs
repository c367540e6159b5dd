//! What the referee and the hosts say to one another.

use super::frame::{damaged, read_frame, Reader, Writer};
use super::value::Value;
use crate::mistake::Mistake;
use crate::moment::Moment;
use speldervacht::Change;
use std::io::{self, Write};
use std::os::unix::net::UnixStream;
use std::sync::Arc;

/// The most records that are brought in at once.
pub const MOST_AT_ONCE: usize = 3;

/// A record in a host's memory.
#[derive(Clone, Debug, PartialEq, Eq)]
pub struct Resident {
    pub address: u64,
    pub dirty: bool,
    pub bytes: Vec<u8>,
}

/// The figures of a host's cache that the referee compares and draws, in bytes but for `next` and `records`.
#[derive(Clone, Copy, Debug, Default, PartialEq, Eq)]
pub struct Figures {
    pub dirty: u64,
    pub held: u64,
    pub maximum: u64,
    /// Made dirty since the last list, and whether a list is due.
    pub count: u64,
    pub due: bool,
    /// The number of the next list's message.
    pub next: u64,
    /// How many records are dirty.
    pub records: u64,
}

/// How long the parts of a move took, in microseconds.
#[derive(Clone, Copy, Debug, Default, PartialEq, Eq)]
pub struct MoveTimes {
    pub flush: u64,
    pub list: u64,
    pub switch: u64,
}

/// The messages by number: each is sent as its number, and then what it has in turn.
macro_rules! messages {
    ($($(#[$about:meta])* $number:literal $name:ident $({ $($field:ident: $type:ty),* })?;)*) => {
        #[derive(Clone, Debug, PartialEq, Eq)]
        pub enum Message {
            $($(#[$about])* $name $({ $($field: $type),* })?,)*
        }

        impl Message {
            /// The bytes that are sent.
            pub fn frame(&self) -> Vec<u8> {
                let mut out = Writer::default();
                match self {
                    $(Message::$name $({ $($field),* })? => {
                        out.word($number);
                        $($($field.put(&mut out);)*)?
                    })*
                }
                out.frame()
            }

            /// The message of a frame's bytes.
            fn of(bytes: &[u8]) -> io::Result<Message> {
                let mut from = Reader::new(bytes);
                match from.word()? {
                    $($number => Ok(Message::$name $({ $($field: <$type>::take(&mut from)?),* })?),)*
                    _ => Err(damaged()),
                }
            }
        }
    };
}

messages! {
    // ---- from the referee
    /// Writes what is dirty here, opens a fresh lead's cache, and listens for the standby of this pair.
    1 Lead { pair: u64 };
    /// Opens a fresh standby's cache and connects to the lead of this pair.
    2 Join { pair: u64 };
    /// Brings in what was dirty when `Lead` came.
    3 BringIn;
    /// A change of the play, by number.
    4 Play { number: u64, change: Change };
    /// Reads a record; holds it for a while, or pins it.
    5 Read { address: u64, keep: bool, pin: bool };
    /// The longest reader and the first pin go.
    6 LetGo;
    /// Writes all that is dirty, and sends the list.
    7 Flush;
    /// Writes until enough is clean, and sends the list.
    8 Sync;
    /// Flushes, sends the last list, and changes parts with the standby.
    9 Move;
    /// Tells the figures.
    10 Report;
    /// Tells all records in memory.
    11 Tell;
    /// Stops at this moment, after so many passes of it.
    12 Stop { moment: Moment, after: u64 };
    /// Makes this mistake.
    13 MakeMistake { mistake: Mistake };
    /// Notes what is done from now on, or no more.
    14 Trace { on: bool };

    // ---- to the referee
    15 Reported { figures: Figures };
    16 Moved { times: MoveTimes };
    /// How many records a list names that was sent.
    17 Listed { records: u64 };
    /// The last change of the play that was done here, and the records in memory.
    18 Told { last: u64, records: Vec<Resident> };
    /// A record as it was read.
    19 Contents { address: u64, bytes: Vec<u8> };
    /// The other host is gone.
    20 Alone;
    /// Stopped at the moment that was named.
    21 Stopped;
    /// What was done, and when, in microseconds since 1970.
    22 Note { time: u64, text: String };

    // ---- from the lead to the standby
    23 Ask { change: Change };
    /// A change that both said yes to.
    24 Do { number: u64, change: Change };
    /// Some of the records with which a new standby catches up.
    25 Records { records: Vec<(u64, Arc<[u8]>)> };
    /// A list, as the bytes of the library's message.
    26 List { message: Vec<u8> };
    /// The standby leads from now on.
    27 Switch;

    // ---- answers to any of them
    28 Done;
    /// A refusal of the library: its number, and who refuses what in words. Number 0 is another failure.
    29 Refused { number: u64, text: String };
}

impl Message {
    pub fn send(&self, mut stream: &UnixStream) -> io::Result<()> {
        stream.write_all(&self.frame())
    }

    pub fn receive(mut stream: &UnixStream) -> io::Result<Message> {
        Message::of(&read_frame(&mut stream)?)
    }
}

#[cfg(test)]
mod tests {
    use super::*;

    /// Messages with every kind of value.
    fn samples() -> Vec<Message> {
        let (address, number) = (5, 7);
        let record = Resident { address, dirty: true, bytes: vec![1, 2, 3] };
        let changes = [
            Change::Insert { address, bytes: [1][..].into() },
            Change::ReleaseChanged { address, bytes: [2, 3][..].into() },
            Change::Resize { address, bytes: [4, 5, 6][..].into() },
            Change::Discard { address },
        ];
        let mut samples = changes.map(|change| Message::Do { number, change }).to_vec();
        samples.extend([
            Message::BringIn,
            Message::Records { records: vec![(address, [1, 2][..].into()), (number, [3][..].into())] },
            Message::Read { address, keep: true, pin: false },
            Message::Stop { moment: Moment::StandbyCatchingUp, after: 2 },
            Message::MakeMistake { mistake: Mistake::Reorder },
            Message::Reported {
                figures: Figures { dirty: 1, held: 2, maximum: 3, count: 4, due: true, next: 5, records: 6 },
            },
            Message::Moved { times: MoveTimes { flush: 1, list: 2, switch: 3 } },
            Message::Listed { records: 9 },
            Message::List { message: vec![9, 8] },
            Message::Told { last: 3, records: vec![record] },
            Message::Refused { number, text: "no".into() },
        ]);
        samples
    }

    #[test]
    fn messages_read_back() {
        for message in samples() {
            assert_eq!(Message::of(&message.frame()[4..]).unwrap(), message);
        }
    }

    #[test]
    fn a_message_cut_short_is_damaged() {
        for message in samples() {
            let frame = message.frame();
            assert!(Message::of(&frame[4..frame.len() - 1]).is_err(), "{message:?}");
        }
    }
}
