//! Why a run ends before its end.

use crate::world::checksum;
use std::fmt;
use std::io;

#[derive(Debug)]
pub enum Failure {
    /// A record that both hosts had is not where the survivor would get it.
    Lost { address: u64, expected: String, found: String },
    /// A host refuses what it should accept, in words with the library's number.
    Refused(String),
    /// The demonstration itself failed.
    Broken(String),
}

/// A record in a few words.
pub fn told(record: &[u8]) -> String {
    format!("{} bytes with checksum {:016x}", record.len(), checksum(record))
}

pub fn broken(text: impl Into<String>) -> Failure {
    Failure::Broken(text.into())
}

impl fmt::Display for Failure {
    fn fmt(&self, f: &mut fmt::Formatter) -> fmt::Result {
        match self {
            Failure::Lost { address, expected, found } => {
                write!(f, "record {address} is lost: expected {expected}, found {found}")
            }
            Failure::Refused(text) => text.fmt(f),
            Failure::Broken(text) => write!(f, "the demonstration failed: {text}"),
        }
    }
}

impl From<io::Error> for Failure {
    fn from(error: io::Error) -> Failure {
        Failure::Broken(error.to_string())
    }
}
