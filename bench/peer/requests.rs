//! Lines, read as requests.

use std::ops::Bound;

use crate::store::{Key, Value};
use crate::texts::{Text, cut, position};

pub const MOST_LINE: usize = 4_096;
const MOST_LIMIT: usize = 1_000_000;

pub enum Request<'a> {
    Put(Key, Text<'a>),
    Get(Key),
    Del(Key),
    Scan(Bound<Key>, Bound<Key>, usize),
    Quit,
}

#[derive(Clone, Copy)]
pub enum Fault {
    Command,
    Words,
    Key,
    Value,
    Limit,
    Line,
}

impl Fault {
    pub fn text(self) -> &'static [u8] {
        match self {
            Fault::Command => b"ERR 1 command\n",
            Fault::Words => b"ERR 2 words\n",
            Fault::Key => b"ERR 3 key\n",
            Fault::Value => b"ERR 4 value\n",
            Fault::Limit => b"ERR 5 limit\n",
            Fault::Line => b"ERR 6 line\n",
        }
    }
}

/// Reads a line that isn't empty. Of its faults the first one is told: of the line, of its words, and then of each
/// word in turn.
#[inline(always)]
pub fn read_request(line: &[u8]) -> Result<Request<'_>, Fault> {
    if line.len() > MOST_LINE {
        Err(Fault::Line)
    } else if let Some(key) = line.strip_prefix(b"GET ") {
        Ok(Request::Get(read_key(last(key)?)?))
    } else if let Some(words) = line.strip_prefix(b"PUT ") {
        let (key, value) = cut(words).ok_or(Fault::Words)?;
        let value = last(value)?;
        Ok(Request::Put(read_key(key)?, read_value(value)?))
    } else if let Some(key) = line.strip_prefix(b"DEL ") {
        Ok(Request::Del(read_key(last(key)?)?))
    } else if let Some(words) = line.strip_prefix(b"SCAN ") {
        let (from, words) = cut(words).ok_or(Fault::Words)?;
        let (to, limit) = cut(words).ok_or(Fault::Words)?;
        let limit = last(limit)?;
        let from = read_end(from, Bound::Included)?;
        let to = read_end(to, Bound::Excluded)?;
        Ok(Request::Scan(from, to, read_limit(limit)?))
    } else if line == b"QUIT" {
        Ok(Request::Quit)
    } else {
        Err(other_fault(line))
    }
}

/// The fault of a line that begins with no command and its words.
fn other_fault(line: &[u8]) -> Fault {
    match cut(line).map_or(line, |(command, _)| command) {
        b"PUT" | b"GET" | b"DEL" | b"SCAN" | b"QUIT" => Fault::Words,
        _ => Fault::Command,
    }
}

/// The last word of a line has no space behind it.
fn last(word: &[u8]) -> Result<&[u8], Fault> {
    match position(word, b' ') {
        None => Ok(word),
        Some(_) => Err(Fault::Words),
    }
}

#[inline(always)]
fn read_key(word: &[u8]) -> Result<Key, Fault> {
    Key::new(&Text::read(word)).ok_or(Fault::Key)
}

fn read_value(word: &[u8]) -> Result<Text<'_>, Fault> {
    let value = Text::read(word);
    if value.bytes.len() > Value::MOST { Err(Fault::Value) } else { Ok(value) }
}

/// An end of a scan: a key, or none at all.
fn read_end(word: &[u8], closed: fn(Key) -> Bound<Key>) -> Result<Bound<Key>, Fault> {
    if word == b"*" { Ok(Bound::Unbounded) } else { read_key(word).map(closed) }
}

fn read_limit(word: &[u8]) -> Result<usize, Fault> {
    if word.is_empty() || word.len() > 7 || !word.iter().all(u8::is_ascii_digit) {
        return Err(Fault::Limit);
    }
    let limit = word.iter().fold(0, |limit, digit| 10 * limit + usize::from(digit - b'0'));
    if limit > MOST_LIMIT { Err(Fault::Limit) } else { Ok(limit) }
}
