//! The probe: one more client joins a room of others, whose lists are whole, and leaves it, again and again.

use crate::crew::{with_herds, Crew};
use crate::figures::{percentile, rounded};
use crate::fold::Fold;
use crate::herd::Herd;
use crate::messages;
use crate::options::Options;
use crate::process::{memory_kb, processor_seconds};
use serde_json::{json, Value};
use std::sync::atomic::{AtomicBool, AtomicU64, Ordering::SeqCst};
use std::thread::{scope, sleep};
use std::time::{Duration, Instant};

/// What the probe and the threads of the others tell each other.
struct Board {
    epoch: Instant,
    /// Threads whose lists are whole.
    settled: AtomicU64,
    /// Clients that were told of the probe's last step, and when the last one was, in nanoseconds from the epoch.
    told: AtomicU64,
    last_told: AtomicU64,
    is_over: AtomicBool,
}

impl Board {
    fn nanoseconds(&self) -> u64 {
        self.epoch.elapsed().as_nanos() as u64
    }
}

/// What the probe saw, in milliseconds; of its last step, how many clients were not told of it in time.
#[derive(Default)]
struct Seen {
    join_told_all: Vec<f64>,
    join_own: Vec<f64>,
    leave_told_all: Vec<f64>,
    untold: u64,
}

/// What one thread of the others gave.
struct Part {
    settled: bool,
    memory: u64,
}

pub fn run(options: &Options) -> Value {
    let board = Board {
        epoch: Instant::now(),
        settled: AtomicU64::new(0),
        told: AtomicU64::new(0),
        last_told: AtomicU64::new(0),
        is_over: AtomicBool::new(false),
    };
    let processor_before = processor_seconds(options.pid);
    let (seen, crew) = scope(|threads| {
        let probe = threads.spawn(|| drive(options, &board));
        let crew = with_herds(options, |_, herd| watch(herd, options, &board));
        (probe.join().expect("the probe's thread"), crew)
    });
    line(options, seen, &crew, processor_seconds(options.pid) - processor_before)
}

/// The others of one thread, until the probe is over.
fn watch(herd: &mut Herd, options: &Options, board: &Board) -> Part {
    if !herd.settle(true, options.clients) {
        board.is_over.store(true, SeqCst);
        return Part { settled: false, memory: 0 };
    }
    board.settled.fetch_add(1, SeqCst);
    let begun = Instant::now();
    let mut has_probe = vec![false; herd.clients.len()];
    while !board.is_over.load(SeqCst) && begun.elapsed().as_secs_f64() < options.seconds + options.timeout {
        herd.pump(1, &mut |index, _, fold| {
            let has_it = fold.len() == options.clients + 1;
            if has_it != has_probe[index] {
                has_probe[index] = has_it;
                board.last_told.fetch_max(board.nanoseconds(), SeqCst);
                board.told.fetch_add(1, SeqCst);
            }
        });
    }
    Part { settled: true, memory: memory_kb(options.pid) }
}

/// The probe, once all others are settled, until the time is over or somebody isn't told.
fn drive(options: &Options, board: &Board) -> Seen {
    let mut seen = Seen::default();
    while board.settled.load(SeqCst) < options.threads as u64 {
        sleep(Duration::from_millis(5));
        if board.is_over.load(SeqCst) {
            return seen;
        }
    }
    let mut herd = Herd::open(options, std::iter::once(options.clients));
    herd.clients[0].room = 0;
    let begun = Instant::now();
    while begun.elapsed().as_secs_f64() < options.seconds && seen.untold == 0 {
        step(&mut herd, options, board, false, &mut seen);
        if seen.untold == 0 {
            step(&mut herd, options, board, true, &mut seen);
        }
    }
    board.is_over.store(true, SeqCst);
    seen
}

/// Joins or leaves, and waits until the probe has its answer (and list) and all others are told.
fn step(herd: &mut Herd, options: &Options, board: &Board, is_leaving: bool, seen: &mut Seen) {
    board.told.store(0, SeqCst);
    let begun = board.nanoseconds();
    let milliseconds = |until: u64| (until - begun) as f64 / 1e6;
    if is_leaving {
        herd.send(0, &messages::leave(0));
    } else {
        herd.join(0, true);
    }
    match all_told(herd, options, board, is_leaving) {
        Err(untold) => seen.untold = untold,
        Ok(_) if is_leaving => {
            seen.leave_told_all.push(milliseconds(board.last_told.load(SeqCst)));
            herd.clients[0].fold = Fold::default();
        }
        Ok(answered) => {
            seen.join_told_all.push(milliseconds(board.last_told.load(SeqCst)));
            seen.join_own.push(milliseconds(answered));
        }
    }
    sleep(Duration::from_millis(2));
}

/// Waits until the probe is answered and all others are told: when it was answered, in nanoseconds from the epoch, or
/// how many clients weren't told in time.
fn all_told(herd: &mut Herd, options: &Options, board: &Board, is_leaving: bool) -> Result<u64, u64> {
    let (begun, others) = (Instant::now(), options.clients as u64);
    let mut answered = None;
    while begun.elapsed().as_secs_f64() < options.timeout {
        let client = &herd.clients[0];
        if client.joined != is_leaving && (is_leaving || client.fold.len() == options.clients + 1) {
            let answered = *answered.get_or_insert_with(|| board.nanoseconds());
            if board.told.load(SeqCst) == others {
                return Ok(answered);
            }
            herd.pump(0, &mut |_, _, _| {});
            sleep(Duration::from_micros(50));
        } else {
            herd.pump(1, &mut |_, _, _| {});
        }
    }
    let told = board.told.load(SeqCst);
    eprintln!("probe: {told} of {others} told, leaving {is_leaving}, answered {}", answered.is_some());
    Err(1.max(others.saturating_sub(told)))
}

fn line(options: &Options, mut seen: Seen, crew: &Crew<Part>, processor: f64) -> Value {
    let memory = crew.parts.iter().map(|part| part.memory).max().unwrap_or(0);
    json!({
        "clients": options.clients,
        "probes": seen.join_told_all.len(),
        "join_told_all_ms_p50": rounded(percentile(&mut seen.join_told_all, 0.5)),
        "join_told_all_ms_p99": rounded(percentile(&mut seen.join_told_all, 0.99)),
        "join_own_ms_p50": rounded(percentile(&mut seen.join_own, 0.5)),
        "leave_told_all_ms_p50": rounded(percentile(&mut seen.leave_told_all, 0.5)),
        "leave_told_all_ms_p99": rounded(percentile(&mut seen.leave_told_all, 0.99)),
        "settled": crew.parts.iter().all(|part| part.settled),
        "incomplete": seen.untold,
        "errors": crew.errors,
        "dead": crew.hung_up,
        "connect_s": rounded(crew.connect_seconds),
        "server_cpu_s": rounded(processor),
        "rss_mb": [crew.memory[0] / 1024, memory / 1024],
    })
}
