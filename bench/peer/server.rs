//! A server: a thread for each connection, and one map.

use std::io::{self, Read};
use std::net::{Shutdown, TcpListener, TcpStream};
use std::sync::RwLock;
use std::thread;

use crate::session::Session;
use crate::store::Map;

static MAP: RwLock<Map> = RwLock::new(Map::new());

/// How much of what a client sends behind its QUIT is read and dropped, so that it gets the last reply.
const MOST_BEHIND: u64 = 1 << 20;

/// Serves connections for ever.
pub fn serve(address: &str) -> io::Result<()> {
    let listener = TcpListener::bind(address)?;
    loop {
        // A client that is gone before it was accepted is no reason to end, nor one that ends in mid-line.
        if let Ok((stream, _)) = listener.accept() {
            thread::Builder::new().spawn(move || converse(&stream))?;
        }
    }
}

fn converse(stream: &TcpStream) -> io::Result<()> {
    stream.set_nodelay(true)?;
    Session::new(&MAP, stream).serve(stream)?;
    stream.shutdown(Shutdown::Write)?;
    io::copy(&mut stream.take(MOST_BEHIND), &mut io::sink())?;
    Ok(())
}
