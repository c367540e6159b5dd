//! The operator's command: shows, checks, compares and plays dumps of tables.

pub mod arguments;
pub mod check;
pub mod diff;
pub mod dump;
pub mod finding;
pub mod layout;
pub mod open;
pub mod play;
pub mod requests;
pub mod settings;
pub mod show;
pub mod text;

use arguments::{Arguments, Takes};
use std::ffi::OsString;
use std::io::{self, Read, Write};

pub const HELP: &str = include_str!("help.txt");
/// The version of the command, of the library and of its header.
pub const VERSION: &str = env!("CARGO_PKG_VERSION");

/// What a command found, as its exit status tells it.
#[derive(Clone, Copy, Debug, PartialEq, Eq)]
pub enum Status {
    /// 0: sound, the same, accepted.
    Good,
    /// 1: damaged, different, refused.
    Bad,
    /// 3: check and the library differ.
    Disagreement,
}

impl Status {
    pub fn number(self) -> u8 {
        match self {
            Status::Good => 0,
            Status::Bad => 1,
            Status::Disagreement => 3,
        }
    }
}

/// Why a command ended early, with status 2.
#[derive(Debug)]
pub enum Failure {
    /// The words of the command are wrong.
    Usage(String),
    /// A file is, or what stands in it.
    Input(String),
    /// The output cannot be written.
    Output(io::Error),
}

impl Failure {
    /// The failure with the place of the input that it is about.
    pub fn at(self, place: String) -> Failure {
        match self {
            Failure::Input(why) => Failure::Input(format!("{place}: {why}")),
            other => other,
        }
    }
}

impl From<io::Error> for Failure {
    fn from(error: io::Error) -> Failure {
        Failure::Output(error)
    }
}

type Run = fn(&Arguments, &mut dyn Read, &mut dyn Write) -> Result<Status, Failure>;

/// A command by its name: what it takes, and what it does.
fn command(name: &str) -> Option<(Takes, Run)> {
    let takes = |words, flags, values| Takes { words, more: false, flags, values };
    Some(match name {
        "show" => (takes(&["DUMP"], &["--entries", "--list", "--json"], &[]), show::run),
        "check" => (takes(&["DUMP"], &["--json"], &[]), check::run),
        "diff" => (takes(&["LEAD", "STANDBY"], &["--json"], &[]), diff::run),
        "play" => (takes(&["DUMP", "REQUESTS"], &["--why"], &["--out"]), play::run),
        "open" => (Takes { more: true, ..takes(&["OUT", "ROWS", "MODE"], &[], &["--threshold"]) }, open::run),
        _ => return None,
    })
}

/// Runs the command that the words name.
pub fn run(given: &[OsString], input: &mut dyn Read, out: &mut dyn Write) -> Result<Status, Failure> {
    let Some((first, rest)) = given.split_first() else {
        return Err(Failure::Usage("a command is missing".to_string()));
    };
    let asks_for = |names: &[&str]| given.iter().any(|word| names.iter().any(|name| word == name));
    if asks_for(&["--help", "-h"]) || first == "help" {
        out.write_all(HELP.as_bytes())?;
        return Ok(Status::Good);
    }
    if first == "--version" {
        writeln!(out, "speldervacht {VERSION}, layout {}", check::LAYOUT)?;
        return Ok(Status::Good);
    }
    let named = first.to_str().and_then(command);
    let (takes, run) = named.ok_or_else(|| Failure::Usage(format!("{first:?} is no command")))?;
    let standard_input = rest.iter().filter(|word| *word == dump::STANDARD_INPUT).count();
    if standard_input > 1 {
        return Err(Failure::Usage("standard input can be read once".to_string()));
    }
    run(&Arguments::parse(rest, &takes)?, input, out)
}
