//! Writing a message.

use crate::{raw, Refusal};

/// The bytes of a message without addresses, and of each address.
const BYTES: usize = 19;
const BYTES_FOR_EACH_ADDRESS: usize = 11;

/// The bytes of the message that has so many addresses.
#[must_use]
pub const fn message_bytes(count: usize) -> usize {
    count.saturating_mul(BYTES_FOR_EACH_ADDRESS).saturating_add(BYTES)
}

/// Writes the message that has this number and this list of addresses, and tells how many bytes it has.
/// The bytes past it are left alone.
///
/// The number is the report's [`next`](crate::Report::next) before the flush or sync, the list the
/// addresses of its orders, which are all writes. Neither is judged here: the standby's take does that.
///
/// ```
/// # use speldervacht::{open, order_words, report, step, table_words, Mode, Settings};
/// # use speldervacht::{message_bytes, write_message, Refusal, Request};
/// # let (mut table, mut orders) = ([0; table_words(2)], [0; order_words(2)]);
/// # open(&mut table, 2, Mode::Lead, 1_000, &Settings::fixed(Mode::Lead, 4_096))?;
/// # for address in [200, 100] {
/// #     step(&mut table, &mut orders, &Request::Insert { address, size: 50 })?;
/// # }
/// // A lead of two rows, whose records 100 and 200 are dirty.
/// let number = report(&table)?.next;
/// let given = step(&mut table, &mut orders, &Request::Flush)?;
/// let (count, mut list) = (given.len(), [0; 2]);
/// for (place, order) in list.iter_mut().zip(given) {
///     *place = order.address;
/// }
/// let mut bytes = [0; message_bytes(2)];
/// assert_eq!(write_message(&mut bytes, number, &list[..count])?, 41);
/// assert_eq!(bytes[..16], [1, 0, 8, 0, 0, 0, 0, 0, 0, 0, 1, 2, 0, 2, 0, 2]);
/// assert_eq!(bytes[16..27], [3, 0, 8, 0, 0, 0, 0, 0, 0, 0, 100]);
/// assert_eq!(bytes[27..], [3, 0, 8, 0, 0, 0, 0, 0, 0, 0, 200, 9, 0, 0]);
/// # Ok::<(), Refusal>(())
/// ```
///
/// # Errors
///
/// [`Refusal::FewBytes`] below [`message_bytes`] of the addresses, or else [`Refusal::LongList`] above
/// [`MOST_LISTED`](crate::MOST_LISTED) of them. Then no byte has changed.
pub fn write_message(bytes: &mut [u8], number: u64, list: &[u64]) -> Result<usize, Refusal> {
    // SAFETY: the slices are ours for the call, and borrowed apart.
    let written =
        unsafe { raw::speldervacht_write_message(bytes.as_mut_ptr(), bytes.len(), number, list.as_ptr(), list.len()) };
    match written.number {
        0 => Ok(written.bytes as usize),
        number => Err(Refusal::of_writing(number, bytes.len(), list.len())),
    }
}
