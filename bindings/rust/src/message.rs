//! The message that a lead sends at a flush or sync.

use crate::{message_bytes, write_message, Order, OrderKind, Refusal};
use alloc::{vec, vec::Vec};
use core::fmt;

/// The bytes of each field before its value: a tag, and a length of two bytes.
const TAG_BYTES: usize = 3;
/// Where the number and the first address stand, and the bytes from one address to the next.
const NUMBER: usize = TAG_BYTES;
const ADDRESSES: usize = 16;
const ADDRESS_BYTES: usize = 11;

/// What a lead sends to its standby at a flush or sync: a number, and the addresses that it wrote, in
/// the order in which it wrote them. docs/MESSAGE.md has the bytes.
///
/// A message is right in form. What a standby receives are bytes, which [`take`](crate::Cache::take)
/// judges: it takes each message once and whole, in the order of their numbers, before the next message
/// or shared change.
#[derive(Clone, PartialEq, Eq)]
pub struct Message {
    bytes: Vec<u8>,
}

impl Message {
    /// The message of a flush or sync that gave these orders. The number is what the lead's
    /// [`next_number`](crate::Cache::next_number) was before it.
    ///
    /// ```
    /// # use speldervacht::{Cache, Message, Mode, Refusal};
    /// let mut lead = Cache::builder().mode(Mode::Lead).open()?;
    /// lead.insert(100, 50)?;
    /// let message = Message::of(lead.next_number(), lead.flush()?);
    /// assert_eq!((message.number(), lead.next_number()), (1, 2));
    /// assert!(message.addresses().eq([100]));
    /// # Ok::<(), Refusal>(())
    /// ```
    ///
    /// # Panics
    ///
    /// If the orders write more than [`MOST_LISTED`](crate::MOST_LISTED) records. Those of one request
    /// never do.
    pub fn of(number: u64, orders: impl IntoIterator<Item = Order>) -> Message {
        let written = orders.into_iter().filter(|order| order.kind == OrderKind::Write);
        let list: Vec<u64> = written.map(|order| order.address).collect();
        Message::new(number, &list).expect("the orders of one request")
    }

    /// The message that has this number and this list of addresses.
    ///
    /// # Errors
    ///
    /// [`Refusal::LongList`].
    pub fn new(number: u64, list: &[u64]) -> Result<Message, Refusal> {
        let mut bytes = vec![0; message_bytes(list.len())];
        write_message(&mut bytes, number, list)?;
        Ok(Message { bytes })
    }

    /// The bytes, to be sent.
    #[must_use]
    pub fn as_bytes(&self) -> &[u8] {
        &self.bytes
    }

    /// The bytes, to be sent.
    #[must_use]
    pub fn into_bytes(self) -> Vec<u8> {
        self.bytes
    }

    /// The number, which the standby's `next_number` has to be.
    #[must_use]
    pub fn number(&self) -> u64 {
        word(&self.bytes[NUMBER..])
    }

    /// The addresses that were written.
    #[must_use]
    pub fn addresses(&self) -> impl ExactSizeIterator<Item = u64> + '_ {
        let end = self.bytes.len() - TAG_BYTES;
        self.bytes[ADDRESSES..end].chunks_exact(ADDRESS_BYTES).map(|field| word(&field[TAG_BYTES..]))
    }
}

impl fmt::Debug for Message {
    /// Number and addresses, not the bytes.
    fn fmt(&self, f: &mut fmt::Formatter) -> fmt::Result {
        let addresses: Vec<u64> = self.addresses().collect();
        f.debug_struct("Message").field("number", &self.number()).field("addresses", &addresses).finish()
    }
}

/// The number that the first eight bytes are, high byte first.
fn word(bytes: &[u8]) -> u64 {
    bytes[..8].iter().fold(0, |word, byte| word << 8 | u64::from(*byte))
}
