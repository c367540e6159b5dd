//! The orders of a request.

use crate::layout::ORDER_WORDS;
use core::fmt;

/// What an order tells the host to do.
#[derive(Clone, Copy, Debug, PartialEq, Eq)]
pub enum OrderKind {
    /// Write the record; its entry is clean from now on.
    Write,
    /// Forget the record; its entry is gone.
    Evict,
    /// Read the record; its entry is there, and held.
    Load,
}

/// An order, to be carried out in its turn.
#[derive(Clone, Copy, Debug, PartialEq, Eq)]
pub struct Order {
    pub kind: OrderKind,
    pub address: u64,
    /// In bytes.
    pub size: u64,
}

impl fmt::Display for Order {
    fn fmt(&self, f: &mut fmt::Formatter) -> fmt::Result {
        let kind = match self.kind {
            OrderKind::Write => "write",
            OrderKind::Evict => "evict",
            OrderKind::Load => "load",
        };
        write!(f, "{kind} {} {}", self.address, self.size)
    }
}

/// The orders that one request gave, read from the order words.
#[derive(Clone, Debug)]
pub struct Orders<'a> {
    words: core::slice::ChunksExact<'a, u64>,
}

impl<'a> Orders<'a> {
    pub(crate) fn new(words: &'a [u64]) -> Orders<'a> {
        Orders { words: words.chunks_exact(ORDER_WORDS) }
    }
}

impl Iterator for Orders<'_> {
    type Item = Order;

    fn next(&mut self) -> Option<Order> {
        let words = self.words.next()?;
        let kind = match words[0] {
            1 => OrderKind::Write,
            2 => OrderKind::Evict,
            3 => OrderKind::Load,
            other => panic!("the library gave an order of kind {other}"),
        };
        Some(Order { kind, address: words[1], size: words[2] })
    }

    fn size_hint(&self) -> (usize, Option<usize>) {
        self.words.size_hint()
    }
}

impl ExactSizeIterator for Orders<'_> {}
