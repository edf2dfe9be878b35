//! A client that gives a server work: connections that each keep so many requests under way.

use std::fmt;
use std::io::{self, Read, Write};
use std::net::TcpStream;
use std::ops::AddAssign;
use std::sync::Barrier;
use std::thread;
use std::time::Instant;

use crate::texts::position;

const KEYS: u64 = 65_536;

/// Odd, so that each key comes once, out of order.
const STRIDE: u64 = 40_507;

/// The requests of a connection are drawn by the generator that `scripts.py` has too.
const FACTOR: u64 = 6_364_136_223_846_793_005;
const ADDEND: u64 = 1_442_695_040_888_963_407;

#[derive(Clone, Copy)]
enum Kind {
    /// Each of the 65,536 web addresses is put once.
    Fill,
    /// All get one of these.
    Gets,
    /// Half put and half get one.
    Half,
}

/// How often each reply came.
#[derive(Clone, Copy, Default)]
struct Replies {
    new: u64,
    set: u64,
    value: u64,
    none: u64,
    other: u64,
}

impl Replies {
    fn count(&mut self, line: &[u8]) {
        match line.get(..2) {
            Some(b"VA") => self.value += 1,
            Some(b"SE") => self.set += 1,
            Some(b"NE") => self.new += 1,
            Some(b"NO") => self.none += 1,
            _ => self.other += 1,
        }
    }
}

impl AddAssign for Replies {
    fn add_assign(&mut self, more: Replies) {
        self.new += more.new;
        self.set += more.set;
        self.value += more.value;
        self.none += more.none;
        self.other += more.other;
    }
}

impl fmt::Display for Replies {
    fn fmt(&self, to: &mut fmt::Formatter) -> fmt::Result {
        let Replies { new, set, value, none, other } = self;
        write!(to, "new {new} set {set} value {value} none {none} other {other}")
    }
}

/// What a connection saw: its replies, when its last one came, and how long each turn lasted, in nanoseconds.
struct Seen {
    replies: Replies,
    end: Instant,
    turns: Vec<u64>,
}

/// Makes `count` requests over so many connections and tells how long that took. A connection sends `depth` requests in
/// one piece, and the next piece when all of these are answered. `fill` makes 65,536 requests, whatever the count is.
pub fn drive(address: &str, connections: u64, depth: usize, kind: &str, count: u64) -> io::Result<()> {
    let kind = match kind {
        "fill" => Kind::Fill,
        "gets" => Kind::Gets,
        "half" => Kind::Half,
        _ => return Err(io::Error::other("the kinds are fill, gets and half")),
    };
    let everyone = Barrier::new(connections as usize + 1);
    let everyone = &everyone;
    let (start, seen) = thread::scope(|scope| {
        let threads: Vec<_> = (0..connections)
            .map(|number| scope.spawn(move || converse(address, number, connections, depth, kind, count, everyone)))
            .collect();
        everyone.wait();
        let start = Instant::now();
        let seen: io::Result<Vec<Seen>> = threads.into_iter().map(|thread| thread.join().expect("it ends")).collect();
        (start, seen)
    });
    tell(start, seen?)
}

fn tell(start: Instant, seen: Vec<Seen>) -> io::Result<()> {
    let mut replies = Replies::default();
    let mut turns = Vec::new();
    let mut end = start;
    for connection in seen {
        replies += connection.replies;
        turns.extend(connection.turns);
        end = end.max(connection.end);
    }
    turns.sort_unstable();
    let at = |part: f64| turns.get((turns.len() as f64 * part) as usize).map_or(0.0, |&turn| turn as f64 / 1e3);
    writeln!(
        io::stdout(),
        "seconds {:.6} median_us {:.1} late_us {:.1} {replies}",
        (end - start).as_secs_f64(),
        at(0.5),
        at(0.99)
    )
}

fn converse(
    address: &str,
    number: u64,
    connections: u64,
    depth: usize,
    kind: Kind,
    count: u64,
    everyone: &Barrier,
) -> io::Result<Seen> {
    let stream = TcpStream::connect(address).and_then(|stream| stream.set_nodelay(true).map(|()| stream));
    let pieces = pieces(number, connections, depth, kind, count);
    // Those that could connect wait for all, also for one that couldn't.
    everyone.wait();
    let mut stream = stream?;
    let mut seen = Seen { replies: Replies::default(), end: Instant::now(), turns: Vec::with_capacity(pieces.len()) };
    let mut buffer = vec![0; 65_536];
    for (piece, requests) in &pieces {
        let start = Instant::now();
        stream.write_all(piece)?;
        read_replies(&mut stream, &mut buffer, *requests, &mut seen.replies)?;
        seen.turns.push(start.elapsed().as_nanos() as u64);
    }
    seen.end = Instant::now();
    stream.write_all(b"QUIT\n")?;
    stream.read_to_end(&mut Vec::new())?;
    Ok(seen)
}

/// Reads so many lines, which come in as many pieces as the server likes.
fn read_replies(stream: &mut TcpStream, buffer: &mut [u8], lines: usize, replies: &mut Replies) -> io::Result<()> {
    let (mut start, mut end, mut left) = (0, 0, lines);
    while left > 0 {
        let read = stream.read(&mut buffer[end..])?;
        if read == 0 {
            return Err(io::ErrorKind::UnexpectedEof.into());
        }
        end += read;
        while let Some(length) = position(&buffer[start..end], b'\n') {
            replies.count(&buffer[start..start + length]);
            start += length + 1;
            left -= 1;
        }
        // A line whose end isn't there yet.
        buffer.copy_within(start..end, 0);
        (start, end) = (0, end - start);
    }
    Ok(())
}

/// All that a connection sends, made beforehand: pieces with the number of their requests.
fn pieces(number: u64, connections: u64, depth: usize, kind: Kind, count: u64) -> Vec<(Vec<u8>, usize)> {
    let count = if let Kind::Fill = kind { KEYS } else { count };
    let mut x = number + 1;
    let mut lines = (number..count).step_by(connections as usize).map(|i| {
        x = x.wrapping_mul(FACTOR).wrapping_add(ADDEND);
        let drawn = x >> 32;
        match kind {
            Kind::Fill => put(i * STRIDE % KEYS, i),
            Kind::Half if drawn >> 31 == 1 => put(drawn % KEYS, i),
            Kind::Gets | Kind::Half => format!("GET {}\n", address(drawn % KEYS)),
        }
    });
    let mut pieces = Vec::new();
    loop {
        let piece: Vec<String> = lines.by_ref().take(depth).collect();
        if piece.is_empty() {
            return pieces;
        }
        pieces.push((piece.concat().into_bytes(), piece.len()));
    }
}

fn put(key: u64, i: u64) -> String {
    format!("PUT {} value-{i:010}\n", address(key))
}

/// A web address of 44 bytes.
fn address(i: u64) -> String {
    format!("http://host{:02}.example/path/{i:06}/index.html", i % 50)
}
