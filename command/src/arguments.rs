//! What a command is given: files and other words by place, and options by name.

use crate::Failure;
use std::ffi::{OsStr, OsString};

/// What a command takes.
pub struct Takes {
    /// The names of the words that it needs, in their order.
    pub words: &'static [&'static str],
    /// Whether more words may follow.
    pub more: bool,
    /// Options that stand alone.
    pub flags: &'static [&'static str],
    /// Options that a value follows.
    pub values: &'static [&'static str],
}

pub struct Arguments {
    words: Vec<OsString>,
    flags: Vec<String>,
    values: Vec<(String, OsString)>,
}

impl Arguments {
    pub fn parse(given: &[OsString], takes: &Takes) -> Result<Arguments, Failure> {
        let mut arguments = Arguments { words: Vec::new(), flags: Vec::new(), values: Vec::new() };
        let mut given = given.iter();
        while let Some(word) = given.next() {
            match word.to_str() {
                Some("--") => arguments.words.extend(given.by_ref().cloned()),
                Some(flag) if takes.flags.contains(&flag) => arguments.flags.push(flag.to_string()),
                Some(name) if takes.values.contains(&name) => {
                    let value = given.next().ok_or_else(|| Failure::Usage(format!("{name} needs a value")))?;
                    arguments.values.push((name.to_string(), value.clone()));
                }
                Some(option) if option.starts_with('-') && option != "-" => {
                    return Err(Failure::Usage(format!("{option:?} is no option of this command")));
                }
                _ => arguments.words.push(word.clone()),
            }
        }
        arguments.counted(takes)
    }

    /// The arguments, if they are as many as the command takes.
    fn counted(self, takes: &Takes) -> Result<Arguments, Failure> {
        if let Some(missing) = takes.words.get(self.words.len()) {
            return Err(Failure::Usage(format!("{missing} is missing")));
        }
        match self.words.get(takes.words.len()) {
            Some(word) if !takes.more => Err(Failure::Usage(format!("{word:?} is one word too many"))),
            _ => Ok(self),
        }
    }

    pub fn count(&self) -> usize {
        self.words.len()
    }

    /// A word that the command needs, as a file's name.
    pub fn file(&self, at: usize) -> &OsStr {
        &self.words[at]
    }

    /// A word that the command needs, as text.
    pub fn text(&self, at: usize) -> Result<&str, Failure> {
        let word = &self.words[at];
        word.to_str().ok_or_else(|| Failure::Usage(format!("{word:?} is no text")))
    }

    pub fn has(&self, flag: &str) -> bool {
        self.flags.iter().any(|given| given == flag)
    }

    /// The value of an option; of several, the last.
    pub fn value(&self, name: &str) -> Option<&OsStr> {
        self.values.iter().rev().find(|(given, _)| given == name).map(|(_, value)| value.as_os_str())
    }
}
