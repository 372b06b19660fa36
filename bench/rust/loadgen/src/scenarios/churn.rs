//! Churn: callers leave a room and join it again, tracked, each as soon as it is answered, and all others are told.

use crate::crew::{with_herds, Meeting};
use crate::figures::rounded;
use crate::herd::Herd;
use crate::messages::{self, Event};
use crate::options::Options;
use serde_json::{json, Value};
use std::time::Instant;

/// What the callers of one thread gave.
struct Part {
    settled: bool,
    joins: u64,
    diffs: u64,
    seconds: f64,
}

/// What a caller does next.
#[derive(Clone, Copy)]
enum Step {
    Join(usize),
    Leave(usize),
}

pub fn run(options: &Options) -> Value {
    let meeting = Meeting::new(options);
    let crew = with_herds(options, |thread, herd| {
        let settled = herd.settle(true, options.clients / options.rooms);
        meeting.begin(thread);
        let mut part = Part { settled, joins: 0, diffs: 0, seconds: 0.0 };
        churn(herd, options, &mut part);
        meeting.end(thread);
        part
    });
    let seconds = crew.parts.iter().map(|part| part.seconds).fold(0.0, f64::max);
    let joins: u64 = crew.parts.iter().map(|part| part.joins).sum();
    let diffs: u64 = crew.parts.iter().map(|part| part.diffs).sum();
    json!({
        "clients": options.clients,
        "callers": options.callers,
        "rooms": options.rooms,
        "settled": crew.parts.iter().all(|part| part.settled),
        "joins_per_s": rounded(joins as f64 / seconds),
        "diffs_per_s": rounded(diffs as f64 / seconds),
        "errors": crew.errors,
        "dead": crew.hung_up,
        "server_cpu_s": rounded(meeting.processor_seconds()),
    })
}

fn churn(herd: &mut Herd, options: &Options, part: &mut Part) {
    let callers = (options.callers / options.threads).clamp(1, herd.clients.len());
    let mut steps: Vec<Step> = (0..callers).map(Step::Leave).collect();
    let begun = Instant::now();
    while begun.elapsed().as_secs_f64() < options.seconds {
        for step in steps.drain(..) {
            match step {
                Step::Join(index) => herd.join(index, true),
                Step::Leave(index) => {
                    let text = messages::leave(herd.clients[index].room);
                    herd.send(index, &text);
                }
            }
        }
        herd.pump(1, &mut |index, event, _| match event {
            Event::Joined if index < callers => {
                part.joins += 1;
                steps.push(Step::Leave(index));
            }
            Event::Left if index < callers => steps.push(Step::Join(index)),
            Event::Diff => part.diffs += 1,
            _ => {}
        });
    }
    part.seconds = begun.elapsed().as_secs_f64();
}
