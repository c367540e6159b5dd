//! The world: a file of records in slots of one size. A slot has the record's size, a checksum, and the
//! record.

use std::fs::File;
use std::io;
use std::os::unix::fs::FileExt;

/// Addresses are slot numbers, below this.
pub const SLOTS: u64 = 96;
/// The largest record, in bytes.
pub const LARGEST: u64 = 1_008;
const HEADER: u64 = 16;
const SLOT: u64 = HEADER + LARGEST;

/// The file's length in bytes.
pub const LENGTH: u64 = SLOTS * SLOT;

/// The bytes of a record's slot.
pub fn slot_of(record: &[u8]) -> Vec<u8> {
    let mut slot = (record.len() as u64).to_be_bytes().to_vec();
    slot.extend(checksum(record).to_be_bytes());
    slot.extend(record);
    slot
}

/// Writes a part of a slot, from its beginning.
pub fn put(file: &File, address: u64, part: &[u8]) -> io::Result<()> {
    file.write_all_at(part, address * SLOT)
}

/// The size of the record in a slot.
pub fn size(file: &File, address: u64) -> io::Result<u64> {
    word(file, address * SLOT)
}

/// Reads the record in a slot. A slot that was never written is an error, and so is a checksum that is not
/// the record's.
pub fn get(file: &File, address: u64) -> io::Result<Vec<u8>> {
    let size = size(file, address)?;
    if size == 0 {
        return Err(io::Error::new(io::ErrorKind::NotFound, "no record in the file"));
    }
    if size > LARGEST {
        return Err(damaged());
    }
    let mut record = vec![0; size as usize];
    file.read_exact_at(&mut record, address * SLOT + HEADER)?;
    if word(file, address * SLOT + 8)? != checksum(&record) {
        return Err(damaged());
    }
    Ok(record)
}

fn word(file: &File, at: u64) -> io::Result<u64> {
    let mut word = [0; 8];
    file.read_exact_at(&mut word, at)?;
    Ok(u64::from_be_bytes(word))
}

fn damaged() -> io::Error {
    io::Error::new(io::ErrorKind::InvalidData, "a damaged record in the file")
}

/// FNV-1a.
pub fn checksum(bytes: &[u8]) -> u64 {
    bytes.iter().fold(0xcbf2_9ce4_8422_2325, |sum, byte| (sum ^ u64::from(*byte)).wrapping_mul(0x0100_0000_01b3))
}
