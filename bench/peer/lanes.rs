//! Lanes: the lines of one input, shared out among threads that serve one map.

use std::io::{self, Read, Write};
use std::mem::ManuallyDrop;
use std::sync::RwLock;
use std::thread;
use std::time::Instant;

use crate::requests::{Fault, MOST_LINE};
use crate::session::Session;
use crate::store::Map;
use crate::texts::{cut, position};

/// Reads the whole input, serves its lanes all at once, and writes what each of them answered.
pub fn run_lanes(count: usize, mut input: impl Read, mut output: impl Write) -> io::Result<()> {
    let start = Instant::now();
    let mut bytes = Vec::new();
    input.read_to_end(&mut bytes)?;
    let (scripts, faults) = share_out(&bytes, count);
    let shared = Instant::now();
    let outputs = serve_scripts(&scripts)?;
    let served = Instant::now();
    output.write_all(&faults)?;
    for (i, replies) in outputs.iter().enumerate() {
        writeln!(output, "LANE {i}")?;
        output.write_all(replies)?;
    }
    eprintln!(
        "peer: read and cut {:.3} s, served {:.3} s, written {:.3} s",
        (shared - start).as_secs_f64(),
        (served - shared).as_secs_f64(),
        served.elapsed().as_secs_f64()
    );
    Ok(())
}

/// The lines of each lane without its number, and the lines of the faults.
fn share_out(bytes: &[u8], count: usize) -> (Vec<Vec<u8>>, Vec<u8>) {
    let mut scripts: Vec<_> = (0..count).map(|_| Vec::with_capacity(bytes.len() / count)).collect();
    let mut faults = Vec::new();
    let mut rest = bytes;
    while !rest.is_empty() {
        let end = position(rest, b'\n').unwrap_or(rest.len());
        let line = rest[..end].strip_suffix(b"\r").unwrap_or(&rest[..end]);
        rest = rest.get(end + 1..).unwrap_or_default();
        if line.is_empty() {
            continue;
        }
        if line.len() > MOST_LINE {
            faults.extend_from_slice(Fault::Line.text());
            continue;
        }
        let (word, request) = cut(line).unwrap_or((line, b""));
        match lane(word).and_then(|lane| scripts.get_mut(lane)) {
            Some(script) => {
                script.extend_from_slice(request);
                script.push(b'\n');
            }
            None => faults.extend_from_slice(b"ERR 7 lane\n"),
        }
    }
    (scripts, faults)
}

/// The number of 1 to 3 decimal digits.
fn lane(word: &[u8]) -> Option<usize> {
    let is_number = matches!(word.len(), 1..=3) && word.iter().all(u8::is_ascii_digit);
    is_number.then(|| word.iter().fold(0, |lane, digit| 10 * lane + usize::from(digit - b'0')))
}

fn serve_scripts(scripts: &[Vec<u8>]) -> io::Result<Vec<Vec<u8>>> {
    // The process ends behind the lanes, so the map's memory needn't be given back.
    let map = ManuallyDrop::new(RwLock::new(Map::new()));
    let map = &*map;
    thread::scope(|scope| {
        let lanes: Vec<_> = scripts
            .iter()
            .map(|script| {
                scope.spawn(move || {
                    let mut output = Vec::new();
                    Session::new(map, &mut output).serve(&script[..])?;
                    Ok(output)
                })
            })
            .collect();
        lanes.into_iter().map(|lane| lane.join().expect("a lane ends")).collect()
    })
}
