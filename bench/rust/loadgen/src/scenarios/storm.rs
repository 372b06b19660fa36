//! The storm: all clients join at once, tracked, until each list is whole; then half of them hang up at once, until the
//! lists of the other half say so. Behind both the lists are compared, member by member, with what they must be. At the end
//! the others hang up too, and what the server keeps is looked at.

use crate::client::Client;
use crate::crew::{with_herds, Crew, Meeting};
use crate::figures::{percentile, rounded};
use crate::fold::Fold;
use crate::herd::Herd;
use crate::messages::Event;
use crate::options::Options;
use crate::process::memory_kb;
use serde_json::{json, Value};
use std::thread::sleep;
use std::time::{Duration, Instant};

/// So many joins are written before what came back is read.
const SLICE: usize = 64;
/// Between the joins and the comparison of the lists what still comes is read for so long.
const SETTLING: Duration = Duration::from_millis(300);
/// Behind the last one who leaves the server has so long until its memory is looked at.
const EMPTYING: Duration = Duration::from_secs(3);

/// What one thread saw.
struct Part {
    arrivals: Arrivals,
    wrong: usize,
    messages: u64,
    bytes: u64,
    leave_seconds: f64,
    wrong_after_leave: usize,
    /// The server's memory once all have gone, in kB.
    memory: u64,
}

pub fn run(options: &Options) -> Value {
    let meeting = Meeting::new(options);
    let crew = with_herds(options, |thread, herd| {
        meeting.begin(thread);
        let arrivals = arrive(herd, options, meeting.moment(thread));
        meeting.end(thread);
        let settling = Instant::now();
        while settling.elapsed() < SETTLING {
            herd.pump(5, &mut |_, _, _| {});
        }
        let wrong = herd.clients.iter().filter(|client| !is_right(client, options, |_| true)).count();
        let (messages, bytes) = (herd.messages, herd.bytes);
        let leave_seconds = leave(herd, options, meeting.moment(thread));
        let wrong_after_leave =
            staying(herd, options).filter(|client| !is_right(client, options, |id| stays(options, id))).count();
        hang_up_all(herd);
        meeting.moment(thread);
        sleep(EMPTYING);
        let memory = memory_kb(options.pid);
        Part { arrivals, wrong, messages, bytes, leave_seconds, wrong_after_leave, memory }
    });
    line(options, &crew, &meeting)
}

/// What one thread sees of the joins.
struct Arrivals {
    begun: Instant,
    /// Of each client: the members of its room, and when its list was whole, where it is.
    wanted: Vec<usize>,
    whole: Vec<Option<f64>>,
    missing: usize,
    replies: Vec<f64>,
    states: u64,
    diffs: u64,
}

impl Arrivals {
    fn see(&mut self, index: usize, event: &Event, fold: &Fold) {
        let now = self.begun.elapsed().as_secs_f64();
        match event {
            Event::Joined => self.replies.push(now),
            Event::State => self.states += 1,
            Event::Diff => self.diffs += 1,
            _ => {}
        }
        let is_whole = fold.has_state && fold.len() == self.wanted[index];
        if is_whole && self.whole[index].is_none() {
            self.whole[index] = Some(now);
            self.missing -= 1;
        } else if !is_whole && self.whole[index].take().is_some() {
            self.missing += 1;
        }
    }
}

/// Joins all clients, and waits until each list is whole, or for too long.
fn arrive(herd: &mut Herd, options: &Options, begun: Instant) -> Arrivals {
    let count = herd.clients.len();
    let mut arrivals = Arrivals {
        begun,
        wanted: herd.clients.iter().map(|client| options.members(client.room)).collect(),
        whole: vec![None; count],
        missing: count,
        replies: vec![],
        states: 0,
        diffs: 0,
    };
    let mut joined = 0;
    while arrivals.missing > 0 && begun.elapsed().as_secs_f64() < options.timeout {
        let slice = joined..count.min(joined + SLICE);
        joined = slice.end;
        for index in slice {
            herd.join(index, true);
        }
        herd.pump(if joined < count { 0 } else { 2 }, &mut |index, event, fold| arrivals.see(index, event, fold));
    }
    arrivals
}

/// Whether a client is of the half that stays.
fn stays(options: &Options, id: u64) -> bool {
    (id as usize / options.rooms) % 2 == 0
}

fn staying<'a>(herd: &'a Herd, options: &'a Options) -> impl Iterator<Item = &'a Client> {
    herd.clients.iter().filter(|client| stays(options, client.id))
}

/// The clients of a room, of those that are in.
fn members<'a>(options: &'a Options, room: usize, is_in: impl Fn(u64) -> bool + 'a) -> impl Iterator<Item = u64> + 'a {
    (room as u64..options.clients as u64).step_by(options.rooms).filter(move |id| is_in(*id))
}

/// Whether a list has exactly the clients of its room that are in.
fn is_right(client: &Client, options: &Options, is_in: impl Fn(u64) -> bool) -> bool {
    members(options, client.room, is_in).eq(client.fold.numbers())
}

/// Half of the clients hang up; seconds until each other one's list is as long as it must be, or too many.
fn leave(herd: &mut Herd, options: &Options, begun: Instant) -> f64 {
    for index in 0..herd.clients.len() {
        if !stays(options, herd.clients[index].id) {
            herd.hang_up(index);
        }
    }
    let left = |room| members(options, room, |id| stays(options, id)).count();
    let wanted: Vec<usize> = herd.clients.iter().map(|client| left(client.room)).collect();
    let mut is_told = vec![false; wanted.len()];
    let (count, mut told) = (staying(herd, options).count(), 0);
    while told < count && begun.elapsed().as_secs_f64() < options.timeout {
        herd.pump(2, &mut |index, _, fold| {
            if !is_told[index] && fold.len() == wanted[index] {
                is_told[index] = true;
                told += 1;
            }
        });
    }
    let seconds = begun.elapsed().as_secs_f64();
    if told < count {
        let sizes: Vec<usize> = staying(herd, options).map(|client| client.fold.len()).take(12).collect();
        eprintln!("after the leave: {told} of {count} right, list sizes {sizes:?}, wanted {}", left(0));
    }
    seconds
}

fn hang_up_all(herd: &mut Herd) {
    for index in 0..herd.clients.len() {
        if !herd.clients[index].gone {
            herd.hang_up(index);
        }
    }
}

/// The line; a time that ended with wrong or missing lists is null.
fn line(options: &Options, crew: &Crew<Part>, meeting: &Meeting) -> Value {
    let parts = &crew.parts;
    let sum = |of: fn(&Part) -> u64| parts.iter().map(of).sum::<u64>();
    let missing: usize = parts.iter().map(|part| part.arrivals.missing).sum();
    let wrong_after_leave: usize = parts.iter().map(|part| part.wrong_after_leave).sum();
    let mut whole: Vec<f64> =
        parts.iter().flat_map(|part| part.arrivals.whole.iter().map(|at| at.unwrap_or(0.0))).collect();
    let mut replies: Vec<f64> = parts.iter().flat_map(|part| part.arrivals.replies.iter().copied()).collect();
    let all_whole = (missing == 0).then(|| percentile(&mut whole, 1.0));
    let leave = parts.iter().map(|part| part.leave_seconds).fold(0.0, f64::max);
    let emptied = parts.iter().map(|part| part.memory).max().unwrap_or(0);
    let updates = options.clients * (options.clients / options.rooms);
    json!({
        "clients": options.clients,
        "rooms": options.rooms,
        "connect_s": rounded(crew.connect_seconds),
        "all_complete_s": all_whole.map(rounded),
        "p50_complete_s": rounded(percentile(&mut whole, 0.5)),
        "last_join_reply_s": rounded(percentile(&mut replies, 1.0)),
        "joins_per_s": rounded(replies.len() as f64 / percentile(&mut replies, 1.0)),
        "complete_joins_per_s": all_whole.map(|seconds| rounded(options.clients as f64 / seconds)),
        "presence_updates_per_s": all_whole.map(|seconds| rounded(updates as f64 / seconds)),
        "states": sum(|part| part.arrivals.states),
        "diffs": sum(|part| part.arrivals.diffs),
        "messages": sum(|part| part.messages),
        "mbytes": rounded(sum(|part| part.bytes) as f64 / 1e6),
        "incomplete": missing,
        "wrong": sum(|part| part.wrong as u64),
        "half_leave_s": (wrong_after_leave == 0).then(|| rounded(leave)),
        "wrong_after_leave": wrong_after_leave,
        "errors": crew.errors,
        "dead": crew.hung_up,
        "server_cpu_s": rounded(meeting.processor_seconds()),
        "rss_mb": [crew.memory[0] / 1024, crew.memory[1] / 1024],
        "whole_mb": meeting.memory_kb() / 1024,
        "emptied_mb": emptied / 1024,
    })
}
