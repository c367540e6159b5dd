//! What a lead and a standby both do with a shared change, and with the records that are brought in.

use super::{Failure, HostProcess};
use speldervacht::Change;
use std::sync::Arc;

impl HostProcess {
    /// Makes this host ready for a change, so that it says yes; or tells why not.
    pub(super) fn ready(&mut self, change: &Change) -> Result<(), Failure> {
        let request = change.request();
        self.until_done(&text(change), |host| host.ask(&request))
    }

    /// Does a change. After a resize the hold for writing goes.
    pub(super) fn apply(&mut self, number: u64, change: &Change) -> Result<(), Failure> {
        self.host.apply(change).map_err(|error| self.failure(&text(change), error))?;
        self.control.note(|| format!("{}: done", text(change)));
        self.last = number;
        match change {
            Change::Resize { .. } => self.stop_writing(),
            _ => {
                self.writing = None;
                Ok(())
            }
        }
    }

    /// Inserts records that were dirty when a host was lost, by one batch.
    pub(super) fn insert(&mut self, records: &[(u64, Arc<[u8]>)]) -> Result<(), Failure> {
        let inserted = self.host.bring_in(records);
        inserted.map_err(|not| self.failure(&named("insert", records[not.done].0), not.error))?;
        for (address, _) in records {
            self.control.note(|| format!("{}: done", named("insert", *address)));
        }
        Ok(())
    }
}

/// A change in words.
fn text(change: &Change) -> String {
    let kind = match change {
        Change::Insert { .. } => "insert",
        Change::ReleaseChanged { .. } => "changed release",
        Change::Resize { .. } => "resize",
        Change::Discard { .. } => "discard",
    };
    named(kind, change.address())
}

fn named(kind: &str, address: u64) -> String {
    format!("the {kind} of record {address}")
}
