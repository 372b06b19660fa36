//! The clients of one thread, and what these count together.

use crate::client::Client;
use crate::fold::Fold;
use crate::messages::{self, Event};
use crate::options::Options;
use shared::epoll::Epoll;
use shared::frame::{CLOSE, PING, TEXT};
use std::net::Shutdown;
use std::thread::sleep;
use std::time::{Duration, Instant};

/// So often a client that can't connect tries again, after a wait.
const TRIES: usize = 20;
const RETRY: Duration = Duration::from_millis(20);
/// So many errors are told in words.
const TOLD_ERRORS: u64 = 3;
const SCRATCH: usize = 256 << 10;

pub struct Herd<'a> {
    options: &'a Options,
    epoll: Epoll,
    pub clients: Vec<Client>,
    ready: Vec<u64>,
    scratch: Vec<u8>,
    pub messages: u64,
    pub bytes: u64,
    pub errors: u64,
    /// Connections that the server ended.
    pub hung_up: u64,
}

impl<'a> Herd<'a> {
    /// Connects a client for each of the numbers; where one can't, the program ends.
    pub fn open(options: &'a Options, ids: impl Iterator<Item = usize>) -> Herd<'a> {
        let mut herd = Herd {
            options,
            epoll: Epoll::new().expect("epoll"),
            clients: vec![],
            ready: vec![],
            scratch: vec![0; SCRATCH],
            messages: 0,
            bytes: 0,
            errors: 0,
            hung_up: 0,
        };
        for id in ids {
            let client = connected(options, id);
            herd.epoll.add(&client.stream, herd.clients.len() as u64);
            herd.clients.push(client);
        }
        herd
    }

    pub fn send(&mut self, index: usize, text: &str) {
        self.clients[index].queue(text);
        self.flush(index);
    }

    pub fn flush(&mut self, index: usize) {
        let client = &mut self.clients[index];
        match client.flush() {
            Ok(waits) if waits != client.waits_for_room => {
                client.waits_for_room = waits;
                self.epoll.watch_writing(&client.stream, index as u64, waits);
            }
            Ok(_) => {}
            Err(_) => self.lose(index),
        }
    }

    /// Waits once, and tells `each` of every message: whose it is, what it told, and the list behind it.
    /// How many clients had something is given back.
    pub fn pump(&mut self, milliseconds: i32, each: &mut dyn FnMut(usize, &Event, &Fold)) -> usize {
        let mut ready = std::mem::take(&mut self.ready);
        ready.clear();
        self.epoll.wait(milliseconds, &mut ready);
        for &number in &ready {
            let index = number as usize;
            if self.clients[index].waits_for_room {
                self.flush(index);
            }
            if !self.clients[index].gone {
                self.read(index, each);
            }
        }
        self.ready = ready;
        self.ready.len()
    }

    fn read(&mut self, index: usize, each: &mut dyn FnMut(usize, &Event, &Fold)) {
        match self.clients[index].fill(&mut self.scratch) {
            Ok(count) => self.bytes += count as u64,
            Err(_) => return self.lose(index),
        }
        loop {
            match self.clients[index].next() {
                Ok(Some((TEXT, payload))) => {
                    self.messages += 1;
                    let client = &mut self.clients[index];
                    let event = messages::read(&client.input[payload.clone()], &mut client.fold);
                    match event {
                        Event::Joined => client.joined = true,
                        Event::Left => client.joined = false,
                        Event::Error => tell_error(&mut self.errors, &client.input[payload]),
                        _ => {}
                    }
                    each(index, &event, &client.fold);
                }
                Ok(Some((PING, payload))) => {
                    self.clients[index].queue_pong(payload);
                    self.flush(index);
                }
                Ok(Some((CLOSE, payload))) => tell_error(&mut self.errors, &self.clients[index].input[payload]),
                Ok(Some(_)) => {}
                Ok(None) => break,
                Err(_) => {
                    self.errors += 1;
                    return self.forget(index);
                }
            }
        }
        self.clients[index].tidy();
    }

    /// The server has ended the client's connection.
    fn lose(&mut self, index: usize) {
        if !self.clients[index].gone {
            self.hung_up += 1;
            self.forget(index);
        }
    }

    /// Watches a client no more.
    fn forget(&mut self, index: usize) {
        let client = &mut self.clients[index];
        client.gone = true;
        self.epoll.remove(&client.stream);
    }

    pub fn hang_up(&mut self, index: usize) {
        let _ = self.clients[index].stream.shutdown(Shutdown::Both);
        self.forget(index);
    }

    /// The client joins its room, tracked under its number or not at all.
    pub fn join(&mut self, index: usize, is_tracked: bool) {
        let client = &self.clients[index];
        let text = messages::join(client.room, is_tracked.then_some(client.id));
        self.send(index, &text);
    }

    /// Joins all of them, and waits until each list has so many members. Whether that came to pass in time.
    pub fn settle(&mut self, is_tracked: bool, members: usize) -> bool {
        for index in 0..self.clients.len() {
            self.join(index, is_tracked);
        }
        let begun = Instant::now();
        while begun.elapsed().as_secs_f64() < self.options.timeout {
            self.pump(5, &mut |_, _, _| {});
            let has_all = |client: &Client| client.joined && client.fold.has_state && client.fold.len() == members;
            if self.clients.iter().all(has_all) {
                return true;
            }
        }
        false
    }
}

fn connected(options: &Options, id: usize) -> Client {
    for _ in 0..TRIES {
        match Client::connect(options, id as u64, id % options.rooms) {
            Ok(client) => return client,
            Err(_) => sleep(RETRY),
        }
    }
    Client::connect(options, id as u64, id % options.rooms).unwrap_or_else(|error| {
        eprintln!("client {id} cannot connect: {error}");
        std::process::exit(3)
    })
}

fn tell_error(errors: &mut u64, told: &[u8]) {
    if *errors < TOLD_ERRORS {
        eprintln!("error: {}", String::from_utf8_lossy(&told[..told.len().min(300)]));
    }
    *errors += 1;
}
