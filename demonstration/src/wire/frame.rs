//! Frames: a length of four bytes, then so many bytes. Inside are words of 8 bytes, high byte first, and
//! runs of bytes with their length before them.

use std::io::{self, Read};

/// A longer frame is damaged.
const LONGEST: usize = 1 << 24;

#[derive(Default)]
pub struct Writer {
    bytes: Vec<u8>,
}

impl Writer {
    pub fn word(&mut self, word: u64) {
        self.bytes.extend(word.to_be_bytes());
    }

    pub fn run(&mut self, run: &[u8]) {
        self.word(run.len() as u64);
        self.bytes.extend(run);
    }

    /// The frame.
    pub fn frame(self) -> Vec<u8> {
        let mut frame = (self.bytes.len() as u32).to_be_bytes().to_vec();
        frame.extend(self.bytes);
        frame
    }
}

pub struct Reader<'a> {
    bytes: &'a [u8],
}

impl<'a> Reader<'a> {
    pub fn new(bytes: &'a [u8]) -> Reader<'a> {
        Reader { bytes }
    }

    fn cut(&mut self, length: usize) -> io::Result<&'a [u8]> {
        let (cut, rest) = self.bytes.split_at_checked(length).ok_or_else(damaged)?;
        self.bytes = rest;
        Ok(cut)
    }

    pub fn word(&mut self) -> io::Result<u64> {
        let word = self.cut(8)?;
        Ok(u64::from_be_bytes(word.try_into().map_err(|_| damaged())?))
    }

    pub fn run(&mut self) -> io::Result<&'a [u8]> {
        let length = self.word()?;
        self.cut(length as usize)
    }
}

pub fn damaged() -> io::Error {
    io::Error::new(io::ErrorKind::InvalidData, "a damaged frame")
}

/// Reads the bytes of one frame. The end of the stream is an error, also within a frame.
pub fn read_frame(stream: &mut impl Read) -> io::Result<Vec<u8>> {
    let mut length = [0; 4];
    stream.read_exact(&mut length)?;
    let length = u32::from_be_bytes(length) as usize;
    if length > LONGEST {
        return Err(damaged());
    }
    let mut bytes = vec![0; length];
    stream.read_exact(&mut bytes)?;
    Ok(bytes)
}
