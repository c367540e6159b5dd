//! What is told of a run.

pub mod csv;
pub mod picture;
pub mod summary;

use std::fmt::Display;
use std::io::{stdout, Write};
use std::process::exit;

/// Prints a line. If nobody reads any more, the run is over, and the hosts end as their sockets close.
pub fn say(line: impl Display) {
    if writeln!(stdout(), "{line}").is_err() {
        exit(crate::FAILED.into());
    }
}
