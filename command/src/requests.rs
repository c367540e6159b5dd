//! A request as a line of text.

use crate::settings::{number, set};
use speldervacht::{Request, Settings};

/// The request of a line, or what is wrong with it. Of take, the bytes are put in `message`; configure
/// changes the settings that stand now.
pub fn parse<'m>(line: &str, now: Settings, message: &'m mut Vec<u8>) -> Result<Request<'m>, String> {
    let mut words = line.split_whitespace();
    let kind = words.next().unwrap_or_default();
    let words: Vec<&str> = words.collect();
    match kind {
        "take" => {
            words.iter().try_for_each(|word| read_bytes(word, message))?;
            Ok(Request::Take { message })
        }
        "configure" => {
            let mut settings = now;
            words.iter().try_for_each(|word| set(&mut settings, word))?;
            Ok(Request::Configure { settings })
        }
        _ => plain(kind, &words),
    }
}

fn plain(kind: &str, words: &[&str]) -> Result<Request<'static>, String> {
    let address = || read(words[0], "an address");
    let size = |at: usize| read(words[at], "a size");
    match (kind, words) {
        ("insert", [_, _]) => Ok(Request::Insert { address: address()?, size: size(1)? }),
        ("protect", [_, _, "reading"]) => Ok(Request::ProtectForReading { address: address()?, size: size(1)? }),
        ("protect", [_, _, "writing"]) => Ok(Request::ProtectForWriting { address: address()?, size: size(1)? }),
        ("release", [_, "unchanged"]) => Ok(Request::ReleaseUnchanged { address: address()? }),
        ("release", [_, "changed", _]) => Ok(Request::ReleaseChanged { address: address()?, size: size(2)? }),
        ("pin", [_]) => Ok(Request::Pin { address: address()? }),
        ("unpin", [_]) => Ok(Request::Unpin { address: address()? }),
        ("resize", [_, _]) => Ok(Request::Resize { address: address()?, size: size(1)? }),
        ("discard", [_]) => Ok(Request::Discard { address: address()? }),
        ("flush", []) => Ok(Request::Flush),
        ("sync", []) => Ok(Request::Sync),
        _ => Err(match form(kind) {
            Some(form) => format!("the form is {form:?}"),
            None => format!("{kind:?} is no request; the requests are {KINDS}"),
        }),
    }
}

const KINDS: &str = "insert, protect, release, pin, unpin, resize, discard, flush, sync, take and configure";

fn form(kind: &str) -> Option<&'static str> {
    Some(match kind {
        "insert" => "insert ADDRESS SIZE",
        "protect" => "protect ADDRESS SIZE reading, or writing",
        "release" => "release ADDRESS unchanged, or changed SIZE",
        "pin" => "pin ADDRESS",
        "unpin" => "unpin ADDRESS",
        "resize" => "resize ADDRESS SIZE",
        "discard" => "discard ADDRESS",
        "flush" => "flush",
        "sync" => "sync",
        _ => return None,
    })
}

fn read(word: &str, what: &str) -> Result<u64, String> {
    number(word).ok_or_else(|| format!("{word:?} is not {what}, a number below 2^64"))
}

/// Reads the bytes of a word, two hexadecimal digits each.
fn read_bytes(word: &str, bytes: &mut Vec<u8>) -> Result<(), String> {
    let digit = |digit: &u8| char::from(*digit).to_digit(16);
    for pair in word.as_bytes().chunks(2) {
        let byte = match pair {
            [high, low] => digit(high).zip(digit(low)).map(|(high, low)| (16 * high + low) as u8),
            _ => None,
        };
        bytes.push(byte.ok_or_else(|| format!("{word:?} is not bytes, two hexadecimal digits each"))?);
    }
    Ok(())
}
