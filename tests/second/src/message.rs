//! A numbered list as a message: fields of a one-byte tag, a two-byte length and their value, all
//! numbers high byte first.
//!
//!   tag 1      the list's number, 8 bytes
//!   tag 2      the count of addresses, 2 bytes
//!   tag 3      an address, 8 bytes, once per address
//!   tag 9      the end, empty

const NUMBER: u8 = 1;
const COUNT: u8 = 2;
const ADDRESS: u8 = 3;
const END: u8 = 9;

/// The most addresses that a count of two bytes can name.
pub const MOST_LISTED: usize = u16::MAX as usize;

/// The bytes before the first address, of an address's field, and of the end.
pub const HEAD_BYTES: usize = 16;
pub const ADDRESS_BYTES: usize = 11;
pub const END_BYTES: usize = 3;

/// The bytes of a message with so many addresses.
pub fn message_bytes(count: usize) -> usize {
    HEAD_BYTES + ADDRESS_BYTES * count + END_BYTES
}

// ---- writing

fn write_field(bytes: &mut Vec<u8>, tag: u8, value: &[u8]) {
    bytes.push(tag);
    bytes.extend((value.len() as u16).to_be_bytes());
    bytes.extend(value);
}

/// The message of a list that is no longer than the count can name.
pub fn write(number: u64, list: &[u64]) -> Vec<u8> {
    let count = u16::try_from(list.len()).expect("a count of two bytes");
    let mut bytes = Vec::with_capacity(message_bytes(list.len()));
    write_field(&mut bytes, NUMBER, &number.to_be_bytes());
    write_field(&mut bytes, COUNT, &count.to_be_bytes());
    for address in list {
        write_field(&mut bytes, ADDRESS, &address.to_be_bytes());
    }
    write_field(&mut bytes, END, &[]);
    bytes
}

// ---- reading

#[derive(Clone, Debug, PartialEq, Eq)]
pub struct Numbered {
    pub number: u64,
    pub list: Vec<u64>,
}

/// The first fault of bytes that are no message.
#[derive(Clone, Copy, Debug, PartialEq, Eq)]
pub enum Fault {
    /// They are the beginning of a message, and not all of it.
    EndsEarly,
    /// A byte that no message can have there.
    WrongByte,
}

/// The bytes that are not read yet.
struct Rest<'a>(&'a [u8]);

impl Rest<'_> {
    fn byte(&mut self) -> Result<u8, Fault> {
        let (first, rest) = self.0.split_first().ok_or(Fault::EndsEarly)?;
        self.0 = rest;
        Ok(*first)
    }

    fn this_byte(&mut self, only: u8) -> Result<(), Fault> {
        if self.byte()? == only {
            Ok(())
        } else {
            Err(Fault::WrongByte)
        }
    }

    /// A number of any value in so many bytes.
    fn number(&mut self, bytes: u16) -> Result<u64, Fault> {
        let mut number = 0;
        for _ in 0..bytes {
            number = 256 * number + self.byte()? as u64;
        }
        Ok(number)
    }

    /// The value of a field with this tag and length; an empty one's is 0.
    fn field(&mut self, tag: u8, bytes: u16) -> Result<u64, Fault> {
        self.this_byte(tag)?;
        for byte in bytes.to_be_bytes() {
            self.this_byte(byte)?;
        }
        self.number(bytes)
    }

    fn addresses(&mut self, count: u64) -> Result<Vec<u64>, Fault> {
        (0..count).map(|_| self.field(ADDRESS, 8)).collect()
    }

    fn nothing(&self) -> Result<(), Fault> {
        if self.0.is_empty() {
            Ok(())
        } else {
            Err(Fault::WrongByte)
        }
    }

    fn message(&mut self) -> Result<Numbered, Fault> {
        let number = self.field(NUMBER, 8)?;
        let count = self.field(COUNT, 2)?;
        let list = self.addresses(count)?;
        self.field(END, 0)?;
        self.nothing()?;
        Ok(Numbered { number, list })
    }
}

/// The numbered list of a message.
pub fn read(bytes: &[u8]) -> Result<Numbered, Fault> {
    Rest(bytes).message()
}

// ---- as text

/// Bytes that are printed whole.
const MOST_PRINTED: usize = 96;
/// Of longer messages, the bytes printed at the start and at the end.
const AT_START: usize = 49;
const AT_END: usize = 14;

fn hex(bytes: &[u8]) -> String {
    bytes.iter().map(|byte| format!("{byte:02x}")).collect::<Vec<_>>().join(" ")
}

pub fn list_text(list: &[u64]) -> String {
    match list.len() {
        0..=12 => format!("{list:?}"),
        count => format!("{count} addresses"),
    }
}

/// The bytes in hexadecimal, long ones without their middle, and what they are.
pub fn text(bytes: &[u8]) -> String {
    let shown = match bytes.len() {
        0 => "nothing".to_string(),
        1..=MOST_PRINTED => hex(bytes),
        length => format!("{} .. {}", hex(&bytes[..AT_START]), hex(&bytes[length - AT_END..])),
    };
    let what = match read(bytes) {
        Ok(Numbered { number, list }) => format!("number {number}, {}", list_text(&list)),
        Err(Fault::EndsEarly) => "ends early".to_string(),
        Err(Fault::WrongByte) => "has a wrong byte".to_string(),
    };
    format!("{shown} ({} bytes: {what})", bytes.len())
}
