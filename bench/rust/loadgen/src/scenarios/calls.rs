//! Calls, which are answered: pings at a rate over all clients, and pings or lists of a few callers, of which each has
//! one call on its way.

use crate::crew::{with_herds, Crew, Meeting};
use crate::figures::{percentile, rounded};
use crate::herd::Herd;
use crate::messages::{self, Event};
use crate::options::Options;
use serde_json::{json, Value};
use std::time::Instant;

/// Answers of pings at a rate are waited for so many seconds more.
const PATIENCE: f64 = 0.5;
/// Pings at a rate go to the clients in steps of so many, so that neighbours aren't near each other.
const STRIDE: usize = 7919;
/// Where a ping is due sooner, in seconds, it is not slept for.
const SOON: f64 = 0.0015;

/// What the calls of one thread gave.
#[derive(Default)]
struct Calls {
    sent: u64,
    answered: u64,
    milliseconds: Vec<f64>,
    bytes: usize,
    seconds: f64,
}

struct Part {
    settled: bool,
    calls: Calls,
}

pub fn pings_at_a_rate(options: &Options) -> Value {
    measured(options, false, at_a_rate)
}

pub fn pings_of_callers(options: &Options) -> Value {
    measured(options, false, |herd, options| of_callers(herd, options, messages::ping))
}

/// Lists of a room in which everybody is tracked.
pub fn lists_of_callers(options: &Options) -> Value {
    measured(options, true, |herd, options| of_callers(herd, options, messages::list))
}

fn measured(options: &Options, is_tracked: bool, call: impl Fn(&mut Herd, &Options) -> Calls + Sync) -> Value {
    let meeting = Meeting::new(options);
    let crew = with_herds(options, |thread, herd| {
        let settled = herd.settle(is_tracked, if is_tracked { options.clients / options.rooms } else { 0 });
        meeting.begin(thread);
        let calls = call(herd, options);
        meeting.end(thread);
        Part { settled, calls }
    });
    line(options, &crew, &meeting)
}

fn at_a_rate(herd: &mut Herd, options: &Options) -> Calls {
    let rate = options.rate / options.threads as f64;
    let count = herd.clients.len();
    let mut calls = Calls { seconds: options.seconds, ..Calls::default() };
    let mut sent_at: Vec<f64> = vec![];
    let begun = Instant::now();
    let elapsed = || begun.elapsed().as_secs_f64();
    while elapsed() < options.seconds + PATIENCE {
        let now = elapsed();
        let due = (now.min(options.seconds) * rate) as u64;
        for number in calls.sent..due {
            let index = (number as usize * STRIDE) % count;
            let text = messages::ping(herd.clients[index].room, number);
            sent_at.push(elapsed());
            herd.send(index, &text);
        }
        calls.sent = calls.sent.max(due);
        let next = (calls.sent + 1) as f64 / rate - now;
        herd.pump(if next > SOON { 1 } else { 0 }, &mut |_, event, _| {
            if let Event::Pong(number) = event {
                calls.answered += 1;
                calls.milliseconds.push((elapsed() - sent_at[*number as usize]) * 1e3);
            }
        });
    }
    calls
}

fn of_callers(herd: &mut Herd, options: &Options, text: fn(usize, u64) -> String) -> Calls {
    let callers = (options.callers / options.threads).clamp(1, herd.clients.len());
    let mut calls = Calls::default();
    let mut sent_at = vec![Instant::now(); callers];
    let mut idle: Vec<usize> = (0..callers).collect();
    let begun = Instant::now();
    while begun.elapsed().as_secs_f64() < options.seconds {
        for index in idle.drain(..) {
            let text = text(herd.clients[index].room, calls.sent);
            sent_at[index] = Instant::now();
            calls.sent += 1;
            herd.send(index, &text);
        }
        herd.pump(1, &mut |index, event, _| {
            match event {
                Event::Pong(_) => {}
                Event::Listed(bytes) => calls.bytes += bytes,
                _ => return,
            }
            calls.answered += 1;
            calls.milliseconds.push(sent_at[index].elapsed().as_secs_f64() * 1e3);
            idle.push(index);
        });
    }
    calls.seconds = begun.elapsed().as_secs_f64();
    calls
}

fn line(options: &Options, crew: &Crew<Part>, meeting: &Meeting) -> Value {
    let calls = || crew.parts.iter().map(|part| &part.calls);
    let seconds = calls().map(|it| it.seconds).fold(0.0, f64::max);
    let answered: u64 = calls().map(|it| it.answered).sum();
    let bytes: usize = calls().map(|it| it.bytes).sum();
    let mut milliseconds: Vec<f64> = calls().flat_map(|it| it.milliseconds.iter().copied()).collect();
    json!({
        "clients": options.clients,
        "rooms": options.rooms,
        "callers": options.callers,
        "rate": options.rate,
        "settled": crew.parts.iter().all(|part| part.settled),
        "sent": calls().map(|it| it.sent).sum::<u64>(),
        "answered": answered,
        "per_s": rounded(answered as f64 / seconds),
        "ms_p50": rounded(percentile(&mut milliseconds, 0.5)),
        "ms_p99": rounded(percentile(&mut milliseconds, 0.99)),
        "ms_max": rounded(percentile(&mut milliseconds, 1.0)),
        "mbytes_per_s": rounded(bytes as f64 / 1e6 / seconds),
        "errors": crew.errors,
        "dead": crew.hung_up,
        "connect_s": rounded(crew.connect_seconds),
        "server_cpu_s": rounded(meeting.processor_seconds()),
        "rss_mb": [crew.memory[0] / 1024, crew.memory[1] / 1024],
    })
}
