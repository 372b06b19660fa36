//! The worker of `fast`: it waits until a socket is ready or something waits for a client, and looks at these alone.

use crate::connection::{Connection, Gone};
use crate::server::{Server, MOST_CONNECTIONS, SCRATCH};
use crate::shard::Owner;
use crossbeam_queue::SegQueue;
use shared::epoll::Epoll;
use std::fs::File;
use std::io::{Error, Read, Result, Write};
use std::os::unix::io::FromRawFd;
use std::sync::atomic::{AtomicBool, Ordering::SeqCst};
use std::time::{Duration, Instant};

/// The number of the bell among the sockets.
const BELL: u64 = u64::MAX;
/// Milliseconds that a worker waits at most.
const LONGEST_WAIT: i32 = 1000;
/// Connections that are looked at in one round at most.
const MOST_IN_ROUND: usize = 8192;
/// Silent connections are looked for so often.
const SWEEP: Duration = Duration::from_secs(1);

/// Where a worker is told that something waits for its connections.
pub struct Bell {
    event: File,
    is_asleep: AtomicBool,
    told: SegQueue<u64>,
}

impl Bell {
    pub fn new() -> Result<Bell> {
        let descriptor = unsafe { libc::eventfd(0, libc::EFD_NONBLOCK | libc::EFD_CLOEXEC) };
        if descriptor < 0 {
            return Err(Error::last_os_error());
        }
        let event = unsafe { File::from_raw_fd(descriptor) };
        Ok(Bell { event, is_asleep: AtomicBool::new(false), told: SegQueue::new() })
    }

    /// Wakes the worker, whether it is asleep or not.
    pub fn ring(&self) {
        let _ = (&self.event).write(&1u64.to_ne_bytes());
    }

    fn wake(&self) {
        if self.is_asleep.swap(false, SeqCst) {
            self.ring();
        }
    }

    fn silence(&self) {
        let _ = (&self.event).read(&mut [0; 8]);
    }
}

/// A place for a connection. Its life is counted, so that what is told of an earlier one there is known.
#[derive(Default)]
struct Place {
    life: u32,
    connection: Option<Connection>,
}

struct Worker<'a> {
    server: &'a Server,
    number: usize,
    epoll: Epoll,
    places: Vec<Place>,
    free: Vec<usize>,
    scratch: Vec<u8>,
    woken: Vec<Owner>,
}

pub fn work(server: &Server, number: usize) {
    let epoll = Epoll::new().expect("epoll");
    epoll.add(&server.bells[number].event, BELL);
    let mut worker =
        Worker { server, number, epoll, places: vec![], free: vec![], scratch: vec![0; SCRATCH], woken: vec![] };
    let (mut round, mut swept) = (vec![], Instant::now());
    loop {
        round.clear();
        worker.wait(&mut round);
        worker.accept(&mut round);
        let ready = round.len();
        worker.listen(&mut round);
        for (at, id) in round.iter().enumerate() {
            worker.attend(*id, at < ready);
        }
        if swept.elapsed() > SWEEP {
            worker.sweep();
            swept = Instant::now();
        }
    }
}

fn id(place: usize, life: u32) -> u64 {
    u64::from(life) << 32 | place as u64
}

impl Worker<'_> {
    /// Waits until a socket can be read, or the bell rings.
    fn wait(&mut self, round: &mut Vec<u64>) {
        let bell = &self.server.bells[self.number];
        bell.is_asleep.store(true, SeqCst);
        let has_none = bell.told.is_empty() && self.server.queue.is_empty();
        self.epoll.wait(if has_none { LONGEST_WAIT } else { 0 }, round);
        bell.is_asleep.store(false, SeqCst);
        if let Some(at) = round.iter().position(|id| *id == BELL) {
            round.swap_remove(at);
            bell.silence();
        }
    }

    /// Takes one new connection, where there is one and room for it.
    fn accept(&mut self, round: &mut Vec<u64>) {
        if self.places.len() - self.free.len() == MOST_CONNECTIONS {
            return;
        }
        let stream = match self.server.queue.pop() {
            Some(stream) => stream,
            None => return,
        };
        let place = self.free.pop().unwrap_or_else(|| {
            self.places.push(Place::default());
            self.places.len() - 1
        });
        let id = id(place, self.places[place].life);
        match self.server.connection(stream, Owner { worker: self.number, connection: id }) {
            Some(connection) => {
                self.epoll.add(&connection.stream, id);
                self.places[place].connection = Some(connection);
                round.push(id);
            }
            None => self.free.push(place),
        }
    }

    /// Takes what it was told by others.
    fn listen(&mut self, round: &mut Vec<u64>) {
        let told = &self.server.bells[self.number].told;
        while round.len() <= MOST_IN_ROUND {
            match told.pop() {
                Some(id) => round.push(id),
                None => break,
            }
        }
    }

    /// Looks at one connection, also at its socket where that is ready.
    fn attend(&mut self, id: u64, is_ready: bool) {
        let place = (id & u64::from(u32::MAX)) as usize;
        if u64::from(self.places[place].life) == id >> 32 && self.turn(place, id, is_ready).is_err() {
            self.end(place);
        }
        self.tell();
    }

    /// Tells workers of their connections that something waits for.
    fn tell(&mut self) {
        for owner in self.woken.drain(..) {
            let bell = &self.server.bells[owner.worker];
            bell.told.push(owner.connection);
            if owner.worker != self.number {
                bell.wake();
            }
        }
    }

    fn turn(&mut self, place: usize, id: u64, is_ready: bool) -> std::result::Result<(), Gone> {
        let connection = match self.places[place].connection.as_mut() {
            Some(connection) => connection,
            None => return Ok(()),
        };
        let pool = &self.server.pool;
        if is_ready {
            if connection.waits_for_room {
                connection.flush()?;
            }
            // one read: where more is there, the socket is ready again
            if connection.fill(&mut self.scratch)? {
                while connection.serve(pool, &mut self.woken)? {}
            }
        }
        connection.deliver(pool);
        if connection.has_output() || connection.is_closing() {
            connection.flush()?;
        }
        if connection.waits_for_room != connection.has_output() {
            connection.waits_for_room = connection.has_output();
            self.epoll.watch_writing(&connection.stream, id, connection.waits_for_room);
        }
        Ok(())
    }

    fn end(&mut self, place: usize) {
        if let Some(connection) = self.places[place].connection.take() {
            self.epoll.remove(&connection.stream);
            connection.end(&self.server.pool, &mut self.woken);
            self.places[place].life += 1;
            self.free.push(place);
        }
    }

    /// Closes the connections that have been silent for too long.
    fn sweep(&mut self) {
        for place in 0..self.places.len() {
            let is_over =
                self.places[place].connection.as_mut().map_or(false, |it| it.close_idle() && it.flush().is_err());
            if is_over {
                self.end(place);
            }
        }
        self.tell();
    }
}
