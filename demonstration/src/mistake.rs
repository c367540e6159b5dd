//! Mistakes that a host makes on purpose.

#[derive(Clone, Copy, Debug, PartialEq, Eq)]
pub enum Mistake {
    /// The standby drops a list.
    DropList,
    /// The lead leaves out one write of a flush, and sends the list all the same.
    SkipWrite,
    /// The standby drops a dirty record as if it had been evicted.
    EvictDirty,
    /// The lead sends a list after the change that came next.
    Reorder,
}

impl Mistake {
    pub const ALL: [Mistake; 4] = [Mistake::DropList, Mistake::SkipWrite, Mistake::EvictDirty, Mistake::Reorder];

    /// Its name on the command line.
    pub fn name(self) -> &'static str {
        match self {
            Mistake::DropList => "drop-list",
            Mistake::SkipWrite => "skip-write",
            Mistake::EvictDirty => "evict-dirty",
            Mistake::Reorder => "reorder",
        }
    }

    pub fn text(self) -> &'static str {
        match self {
            Mistake::DropList => "the standby drops a list",
            Mistake::SkipWrite => "the lead leaves out one write of a flush, and sends the list all the same",
            Mistake::EvictDirty => "the standby drops a dirty record as if it had been evicted",
            Mistake::Reorder => "the lead sends a list after the change that came next",
        }
    }
}
