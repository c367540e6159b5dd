//! What the processes say to one another, and by which sockets.

pub mod frame;
pub mod message;
pub mod socket;
mod value;

use std::time::{SystemTime, UNIX_EPOCH};

/// Microseconds since 1970, which all processes have in common.
pub fn now() -> u64 {
    SystemTime::now().duration_since(UNIX_EPOCH).map_or(0, |time| time.as_micros() as u64)
}
