//! Shouts: one client of each room keeps so many on their way to everybody there.

use crate::crew::{with_herds, Crew, Meeting};
use crate::figures::{percentile, rounded};
use crate::herd::Herd;
use crate::messages::{self, Event};
use crate::options::Options;
use serde_json::{json, Value};
use std::collections::HashMap;
use std::sync::atomic::{AtomicU64, Ordering::Relaxed};
use std::time::{Duration, Instant};

/// So many bytes are in each shout beside its number.
const PADDING: usize = 32;
/// One shout of so many is timed, in the first room.
const TIMED: u64 = 16;
/// It is over where nothing has come for so long behind the last shout.
const QUIET: Duration = Duration::from_millis(400);

/// What one thread gave.
struct Part {
    settled: bool,
    shouts: u64,
    deliveries: u64,
    /// Deliveries until the time was over, and the seconds that this was.
    in_time: u64,
    seconds: f64,
    latencies: Vec<f64>,
    bytes: u64,
}

pub fn run(options: &Options) -> Value {
    let heard: Vec<AtomicU64> = (0..options.rooms).map(|_| AtomicU64::new(0)).collect();
    let meeting = Meeting::new(options);
    let crew = with_herds(options, |thread, herd| {
        let settled = herd.settle(false, 0);
        meeting.begin(thread);
        let mut shouting = Shouting::of(herd, options, &heard);
        let (in_time, seconds) = shouting.go_on(herd);
        meeting.end(thread);
        Part {
            settled,
            shouts: shouting.sent.iter().sum(),
            deliveries: shouting.deliveries,
            in_time,
            seconds,
            latencies: shouting.latencies,
            bytes: herd.bytes,
        }
    });
    line(options, &crew, &meeting)
}

/// The shouts of one thread, and what its clients heard.
struct Shouting<'a> {
    options: &'a Options,
    /// Deliveries in each room, in all threads, and those of this one that aren't among them yet.
    heard: &'a [AtomicU64],
    fresh: Vec<u64>,
    /// The clients that shout, and the room of each client.
    senders: Vec<usize>,
    rooms: Vec<usize>,
    /// Shouts in each room.
    sent: Vec<u64>,
    begun: HashMap<u64, Instant>,
    latencies: Vec<f64>,
    deliveries: u64,
    padding: String,
}

impl<'a> Shouting<'a> {
    fn of(herd: &Herd, options: &'a Options, heard: &'a [AtomicU64]) -> Shouting<'a> {
        // clients are dealt out to rooms in turn, so that the first ones are in rooms of their own
        let is_sender = |index: &usize| (herd.clients[*index].id as usize) < options.rooms;
        Shouting {
            options,
            heard,
            fresh: vec![0; options.rooms],
            senders: (0..herd.clients.len()).filter(is_sender).collect(),
            rooms: herd.clients.iter().map(|client| client.room).collect(),
            sent: vec![0; options.rooms],
            begun: HashMap::new(),
            latencies: vec![],
            deliveries: 0,
            padding: "x".repeat(PADDING),
        }
    }

    /// Shouts until the time is over, and hears until it is quiet: the deliveries in that time, and its seconds.
    fn go_on(&mut self, herd: &mut Herd) -> (u64, f64) {
        let begun = Instant::now();
        let mut last_heard = begun;
        let mut in_time = None;
        loop {
            if begun.elapsed().as_secs_f64() < self.options.seconds {
                self.send(herd);
            } else {
                in_time.get_or_insert_with(|| (self.deliveries, begun.elapsed().as_secs_f64()));
            }
            let ready = herd.pump(1, &mut |index, event, _| self.hear(index, event));
            self.tell();
            if ready > 0 {
                last_heard = Instant::now();
            }
            match in_time {
                Some(given) if last_heard.elapsed() > QUIET => return given,
                _ => {}
            }
        }
    }

    fn send(&mut self, herd: &mut Herd) {
        for &index in &self.senders {
            let room = self.rooms[index];
            let heard = self.heard[room].load(Relaxed) / self.options.members(room) as u64;
            let next = heard + self.options.window;
            for number in self.sent[room]..next {
                if room == 0 && number % TIMED == 0 {
                    self.begun.insert(number, Instant::now());
                }
                herd.clients[index].queue(&messages::shout(room, number, &self.padding));
            }
            if self.sent[room] < next {
                self.sent[room] = next;
                herd.flush(index);
            }
        }
    }

    fn hear(&mut self, index: usize, event: &Event) {
        if let Event::Shout(number) = event {
            let room = self.rooms[index];
            self.deliveries += 1;
            self.fresh[room] += 1;
            if room == 0 && number % TIMED == 0 {
                self.latencies.extend(self.begun.get(number).map(|begun| begun.elapsed().as_secs_f64() * 1e3));
            }
        }
    }

    /// Adds what came to what all threads have heard.
    fn tell(&mut self) {
        for (room, fresh) in self.fresh.iter_mut().enumerate().filter(|(_, fresh)| **fresh > 0) {
            self.heard[room].fetch_add(std::mem::take(fresh), Relaxed);
        }
    }
}

fn line(options: &Options, crew: &Crew<Part>, meeting: &Meeting) -> Value {
    let parts = &crew.parts;
    let sum = |of: fn(&Part) -> u64| parts.iter().map(of).sum::<u64>();
    let (shouts, deliveries) = (sum(|part| part.shouts), sum(|part| part.deliveries));
    let members = options.clients / options.rooms;
    let seconds = parts.iter().map(|part| part.seconds).fold(0.0, f64::max);
    let per_second = sum(|part| part.in_time) as f64 / seconds;
    let mut latencies: Vec<f64> = parts.iter().flat_map(|part| part.latencies.iter().copied()).collect();
    json!({
        "clients": options.clients,
        "rooms": options.rooms,
        "window": options.window,
        "pad": PADDING,
        "settled": parts.iter().all(|part| part.settled),
        "shouts": shouts,
        "deliveries": deliveries,
        "lost": shouts as i64 * members as i64 - deliveries as i64,
        "deliveries_per_s": rounded(per_second),
        "shouts_per_s": rounded(per_second / members as f64),
        "mbytes_per_s": rounded(sum(|part| part.bytes) as f64 / 1e6 / seconds),
        "latency_ms_p50": rounded(percentile(&mut latencies, 0.5)),
        "latency_ms_p99": rounded(percentile(&mut latencies, 0.99)),
        "errors": crew.errors,
        "dead": crew.hung_up,
        "connect_s": rounded(crew.connect_seconds),
        "server_cpu_s": rounded(meeting.processor_seconds()),
    })
}
