//! A dump: a file, or standard input, of little-endian words that begin with a table.

use crate::check::frame;
use crate::layout::Table;
use crate::Failure;
use speldervacht::Report;
use std::ffi::OsStr;
use std::fs::File;
use std::io::{self, Read};

/// More than this is not read. A table takes 262,392 bytes at most.
const MOST_BYTES: u64 = 64 << 20;
/// The file name that stands for standard input.
pub const STANDARD_INPUT: &str = "-";

pub struct Dump {
    name: String,
    pub words: Vec<u64>,
    /// What lies past the last whole word.
    rest: Vec<u8>,
}

impl Dump {
    pub fn read(file: &OsStr, input: &mut dyn Read) -> Result<Dump, Failure> {
        let bytes = read(file, input)?;
        let (whole, rest) = bytes.split_at(bytes.len() / 8 * 8);
        let words = whole.chunks_exact(8).map(|word| u64::from_le_bytes(word.try_into().unwrap()));
        Ok(Dump { name: name(file), words: words.collect(), rest: rest.to_vec() })
    }

    /// A dump of these words and no more.
    pub fn of(words: Vec<u64>) -> Dump {
        Dump { name: String::new(), words, rest: Vec::new() }
    }

    /// Writes the dump, with what lies past the table as it was.
    pub fn write(&self, file: &OsStr) -> Result<(), Failure> {
        if file == STANDARD_INPUT {
            return Err(Failure::Usage("a dump is written to a file".to_string()));
        }
        let words = self.words.iter().flat_map(|word| word.to_le_bytes());
        let bytes: Vec<u8> = words.chain(self.rest.iter().copied()).collect();
        std::fs::write(file, bytes)
            .map_err(|error| Failure::Input(format!("{} cannot be written: {error}", name(file))))
    }

    /// The table and its figures, if the dump is sound.
    pub fn sound(&self) -> Result<(Table<'_>, Report), Failure> {
        let table = frame(&self.words).map_err(|finding| Failure::Input(format!("{}: {finding}", self.name)))?;
        match speldervacht::report(&self.words) {
            Ok(report) => Ok((table, report)),
            Err(_) => Err(Failure::Input(format!("{} is damaged: speldervacht check tells where", self.name))),
        }
    }
}

/// The bytes of a file or of standard input.
fn read(file: &OsStr, input: &mut dyn Read) -> Result<Vec<u8>, Failure> {
    let failure = |why: String| Failure::Input(format!("{} {why}", name(file)));
    let bytes = match file.to_str() {
        Some(STANDARD_INPUT) => read_from(input),
        _ => File::open(file).and_then(|mut opened| read_from(&mut opened)),
    };
    let bytes = bytes.map_err(|error| failure(format!("cannot be read: {error}")))?;
    match bytes.len() as u64 > MOST_BYTES {
        true => Err(failure("has more than 64 MiB and is not read".to_string())),
        false => Ok(bytes),
    }
}

fn read_from(from: &mut dyn Read) -> io::Result<Vec<u8>> {
    let mut bytes = Vec::new();
    from.take(MOST_BYTES + 1).read_to_end(&mut bytes)?;
    Ok(bytes)
}

/// The text of a file or of standard input.
pub fn read_text(file: &OsStr, input: &mut dyn Read) -> Result<String, Failure> {
    String::from_utf8(read(file, input)?).map_err(|_| Failure::Input(format!("{} is no text", name(file))))
}

/// How a file is called in text.
pub fn name(file: &OsStr) -> String {
    match file.to_str() {
        Some(STANDARD_INPUT) => "standard input".to_string(),
        _ => file.to_string_lossy().into_owned(),
    }
}
