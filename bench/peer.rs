//! A program with the protocol of `worm`, over a `BTreeMap` and Rust's std alone, as fast as that gets without work
//! that std has done already. Build it by `rustc` with the flags that `run.py` has. Its words:
//!
//! - none, or `run`: one session, from standard input to standard output
//! - `lanes N`: each line begins with the number of its lane; N threads serve the lanes over one map in a lock, and
//!   the output of each lane stands behind a line `LANE i`. Standard error tells the times.
//! - `serve ADDRESS`: a session for each connection, each on a thread of its own, over one map in a lock
//! - `client ADDRESS CONNECTIONS DEPTH KIND COUNT`: no peer, but what gives a server work, be it this one or `worm`:
//!   COUNT requests of the kind `gets` or `half`, or a put of each key by `fill`, and it tells how long they took

use std::env;
use std::fs::File;
use std::io;
use std::mem::ManuallyDrop;
use std::os::fd::FromRawFd;
use std::process::ExitCode;

#[path = "peer/client.rs"]
mod client;
#[path = "peer/lanes.rs"]
mod lanes;
#[path = "peer/requests.rs"]
mod requests;
#[path = "peer/server.rs"]
mod server;
#[path = "peer/session.rs"]
mod session;
#[path = "peer/store.rs"]
mod store;
#[path = "peer/texts.rs"]
mod texts;

/// Standard input and output without std's own buffers, which the session has itself.
fn ends() -> (ManuallyDrop<File>, ManuallyDrop<File>) {
    // Both are open as long as the program runs, and `ManuallyDrop` leaves them so.
    unsafe { (ManuallyDrop::new(File::from_raw_fd(0)), ManuallyDrop::new(File::from_raw_fd(1))) }
}

fn run() -> io::Result<()> {
    let (input, output) = ends();
    // The process ends behind the session, so the map's memory needn't be given back.
    let mut session = ManuallyDrop::new(session::Session::new(store::Map::new(), &*output));
    session.serve(&*input)
}

fn lanes(count: &str) -> io::Result<()> {
    let (input, output) = ends();
    match count.parse() {
        Ok(count @ 1..=64) => lanes::run_lanes(count, &*input, &*output),
        _ => Err(io::Error::other("there are 1 to 64 lanes")),
    }
}

fn client(address: &str, connections: &str, depth: &str, kind: &str, count: &str) -> io::Result<()> {
    match (connections.parse(), depth.parse(), count.parse()) {
        (Ok(connections @ 1..=64), Ok(depth @ 1..=1_000), Ok(count)) => {
            client::drive(address, connections, depth, kind, count)
        }
        _ => Err(io::Error::other("there are 1 to 64 connections and depths of 1 to 1,000")),
    }
}

fn main() -> ExitCode {
    let words: Vec<String> = env::args().skip(1).collect();
    let words: Vec<&str> = words.iter().map(String::as_str).collect();
    let done = match words[..] {
        [] | ["run"] => run(),
        ["lanes", count] => lanes(count),
        ["serve", address] => server::serve(address),
        ["client", address, connections, depth, kind, count] => client(address, connections, depth, kind, count),
        _ => Err(io::Error::other("words")),
    };
    match done {
        Ok(()) => ExitCode::SUCCESS,
        Err(error) => {
            eprintln!("peer: {error}");
            ExitCode::FAILURE
        }
    }
}
