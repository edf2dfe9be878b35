//! One session: lines in, replies out.

use std::collections::btree_map::Entry;
use std::io::{self, ErrorKind, Read, Write};
use std::mem;
use std::ops::Bound;

use crate::requests::{Fault, MOST_LINE, Request, read_request};
use crate::store::{Key, Map, Store, Value};
use crate::texts::{Text, append_number, position};

/// How much is asked for at once.
const PIECE: usize = 262_144;

/// Replies leave when so many bytes of them wait.
const ROOM: usize = 65_536;

/// No reply line is longer: three bytes for each of a key and a value, and the words round them.
const MOST_REPLY: usize = 3 * (Key::MOST + Value::MOST) + 8;

#[derive(PartialEq)]
enum After {
    GoOn,
    Quit,
}

pub struct Session<S, W> {
    store: S,
    sink: W,
    replies: Vec<u8>,
}

impl<S: Store, W: Write> Session<S, W> {
    pub fn new(store: S, sink: W) -> Self {
        Session { store, sink, replies: Vec::new() }
    }

    /// Serves each line, up to QUIT or to the end of the source. Whoever waits for a reply has it before more is read.
    pub fn serve(&mut self, mut source: impl Read) -> io::Result<()> {
        let mut buffer = vec![0; MOST_LINE + 1 + PIECE];
        // Of the line whose end isn't read yet: so many bytes stand at the buffer's front, or none where it's too long.
        let mut begun = 0;
        let mut is_long = false;
        loop {
            let read = read(&mut source, &mut buffer[begun..begun + PIECE])?;
            if read == 0 {
                self.line(&buffer[..begun], is_long)?;
                return self.hand_on();
            }
            let end = begun + read;
            let (mut start, mut seen) = (0, begun);
            while let Some(length) = position(&buffer[seen..end], b'\n') {
                let lf = seen + length;
                if self.line(&buffer[start..lf], mem::take(&mut is_long))? == After::Quit {
                    return self.hand_on();
                }
                start = lf + 1;
                seen = start;
            }
            // One byte more may be a CR, which doesn't count.
            is_long |= end - start > MOST_LINE + 1;
            begun = if is_long { 0 } else { end - start };
            buffer.copy_within(start..start + begun, 0);
            self.hand_on()?;
        }
    }

    /// Answers a line, or the last part of one that is too long.
    #[inline(always)]
    fn line(&mut self, line: &[u8], is_long: bool) -> io::Result<After> {
        let line = line.strip_suffix(b"\r").unwrap_or(line);
        if line.is_empty() && !is_long {
            return Ok(After::GoOn);
        }
        self.replies.reserve(MOST_REPLY);
        let request = if is_long { Err(Fault::Line) } else { read_request(line) };
        let after = match request {
            Ok(request) => self.answer(request)?,
            Err(fault) => {
                self.replies.extend_from_slice(fault.text());
                After::GoOn
            }
        };
        if self.replies.len() >= ROOM {
            self.hand_on()?;
        }
        Ok(after)
    }

    #[inline(always)]
    fn answer(&mut self, request: Request) -> io::Result<After> {
        match request {
            Request::Put(key, value) => self.put(key, &value),
            Request::Get(key) => self.get(&key),
            Request::Del(key) => {
                let gone = self.store.change(|map| map.remove(&key));
                self.tell(if gone.is_some() { b"GONE\n" } else { b"NONE\n" });
            }
            Request::Scan(from, to, limit) => self.scan(from, to, limit)?,
            Request::Quit => {
                self.tell(b"BYE\n");
                return Ok(After::Quit);
            }
        }
        Ok(After::GoOn)
    }

    fn put(&mut self, key: Key, value: &Text) {
        let is_new = self.store.change(|map| match map.entry(key) {
            Entry::Vacant(entry) => {
                entry.insert(Value::new(value));
                true
            }
            Entry::Occupied(mut entry) => {
                entry.get_mut().set(value);
                false
            }
        });
        self.tell(if is_new { b"NEW\n" } else { b"SET\n" });
    }

    fn get(&mut self, key: &Key) {
        let out = &mut self.replies;
        self.store.look(|map| match map.get(key) {
            Some(value) => {
                out.extend_from_slice(b"VALUE ");
                value.append_to(out);
                out.push(b'\n');
            }
            None => out.extend_from_slice(b"NONE\n"),
        });
    }

    /// Appends the pairs straight from the map. It doesn't hold the map while replies leave.
    fn scan(&mut self, mut from: Bound<Key>, to: Bound<Key>, limit: usize) -> io::Result<()> {
        let is_below = match (&from, &to) {
            (Bound::Included(from), Bound::Excluded(to)) => from < to,
            _ => true,
        };
        let limit = if is_below { limit } else { 0 };
        let mut left = limit;
        while left > 0 {
            let out = &mut self.replies;
            match self.store.look(|map| append_pairs(map, &from, &to, &mut left, out)) {
                Some(last) => from = Bound::Excluded(last),
                None => break,
            }
            self.hand_on()?;
        }
        self.tell(b"END ");
        append_number(limit - left, &mut self.replies);
        self.tell(b"\n");
        Ok(())
    }

    fn tell(&mut self, text: &[u8]) {
        self.replies.extend_from_slice(text);
    }

    fn hand_on(&mut self) -> io::Result<()> {
        self.sink.write_all(&self.replies)?;
        self.replies.clear();
        Ok(())
    }
}

/// Appends pairs until there are none, or until the replies are to leave: then it answers the last key.
fn append_pairs(map: &Map, from: &Bound<Key>, to: &Bound<Key>, left: &mut usize, out: &mut Vec<u8>) -> Option<Key> {
    for (key, value) in map.range::<Key, _>((from.as_ref(), to.as_ref())).take(*left) {
        out.reserve(MOST_REPLY);
        out.extend_from_slice(b"PAIR ");
        key.append_to(out);
        out.push(b' ');
        value.append_to(out);
        out.push(b'\n');
        *left -= 1;
        if out.len() >= ROOM {
            return Some(key.clone());
        }
    }
    None
}

fn read(source: &mut impl Read, piece: &mut [u8]) -> io::Result<usize> {
    loop {
        match source.read(piece) {
            Err(error) if error.kind() == ErrorKind::Interrupted => {}
            result => return result,
        }
    }
}
