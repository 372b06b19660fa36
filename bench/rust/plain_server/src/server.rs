//! The server: an acceptor, a queue of new connections, and workers that take them from it.

use crate::connection::Connection;
use crate::ready::{self, Bell};
use crate::scan;
use crate::session::Pool;
use crate::shard::Owner;
use crossbeam_queue::ArrayQueue;
use std::io::Result;
use std::net::{TcpListener, TcpStream};
use std::os::unix::io::AsRawFd;
use std::sync::atomic::{AtomicU64, Ordering::Relaxed};
use std::thread::scope;

/// Connections that wait for a worker at most.
const QUEUE: usize = 256;
/// Connections that wait for the acceptor at most.
const BACKLOG: i32 = 4096;
/// Connections of a worker at most.
pub const MOST_CONNECTIONS: usize = 1024;
/// Bytes that a worker reads of a connection at once.
pub const SCRATCH: usize = 64 << 10;

pub struct Settings {
    pub is_fast: bool,
    pub port: u16,
    pub shards: usize,
    pub workers: usize,
}

/// What all workers share.
pub struct Server {
    pub pool: Pool,
    pub queue: ArrayQueue<TcpStream>,
    /// One for each worker that waits until it is told of something; none where they look at all in turn.
    pub bells: Vec<Bell>,
    next_session: AtomicU64,
}

impl Server {
    /// The connection of a stream from the queue; none where that is over already.
    pub fn connection(&self, stream: TcpStream, owner: Owner) -> Option<Connection> {
        Connection::new(stream, self.next_session.fetch_add(1, Relaxed), owner).ok()
    }
}

/// Serves until its standard input says stop, or ends.
pub fn serve(settings: Settings) -> Result<()> {
    let listener = TcpListener::bind(("127.0.0.1", settings.port))?;
    // std's own backlog is too short for clients that all connect at once
    unsafe { libc::listen(listener.as_raw_fd(), BACKLOG) };
    let bells = if settings.is_fast { settings.workers } else { 0 };
    let server = Server {
        pool: Pool::new(settings.shards, settings.is_fast),
        queue: ArrayQueue::new(QUEUE),
        bells: (0..bells).map(|_| Bell::new()).collect::<Result<_>>()?,
        next_session: AtomicU64::new(0),
    };
    scope(|threads| {
        let server = &server;
        for number in 0..settings.workers {
            threads.spawn(move || if settings.is_fast { ready::work(server, number) } else { scan::work(server) });
        }
        threads.spawn(move || accept(server, &listener));
        println!("ready");
        wait_for_stop();
        println!("stopped");
        std::process::exit(0)
    })
}

/// Puts new connections into the queue, and tells the workers of them in turn; where it is full, they are dropped.
fn accept(server: &Server, listener: &TcpListener) {
    let mut turns = (0..server.bells.len()).cycle();
    for stream in listener.incoming().flatten() {
        if server.queue.push(stream).is_ok() {
            if let Some(turn) = turns.next() {
                server.bells[turn].ring();
            }
        }
    }
}

fn wait_for_stop() {
    let mut line = String::new();
    while let Ok(1..) = std::io::stdin().read_line(&mut line) {
        if line.trim_end() == "stop" {
            return;
        }
        line.clear();
    }
}
