//! Memory: the server's with nobody, with silent connections, and with each of these joined and tracked in a room; and
//! what its processor takes while nobody says anything.

use crate::crew::{with_herds, Meeting};
use crate::figures::rounded;
use crate::options::Options;
use crate::process::{memory_kb, processor_seconds};
use serde_json::{json, Value};
use std::thread::sleep;
use std::time::{Duration, Instant};

/// From the last join to when its memory is looked at.
const SETTLING: Duration = Duration::from_millis(500);

/// What one thread saw: memory in kB, and processors that were busy.
struct Part {
    settled: bool,
    memory: u64,
    busy: f64,
}

pub fn run(options: &Options) -> Value {
    let meeting = Meeting::new(options);
    let crew = with_herds(options, |thread, herd| {
        let settled = herd.settle(true, options.clients / options.rooms);
        meeting.begin(thread);
        sleep(SETTLING);
        let memory = memory_kb(options.pid);
        let (begun, before) = (Instant::now(), processor_seconds(options.pid));
        while begun.elapsed().as_secs_f64() < options.seconds {
            herd.pump(50, &mut |_, _, _| {});
        }
        let busy = (processor_seconds(options.pid) - before) / begun.elapsed().as_secs_f64();
        meeting.end(thread);
        Part { settled, memory, busy }
    });
    let [nobody, silent] = crew.memory;
    let tracked = crew.parts.iter().map(|part| part.memory).max().unwrap_or(0);
    let of_each = |memory: u64| rounded((memory as f64 - nobody as f64) / options.clients as f64);
    json!({
        "clients": options.clients,
        "rooms": options.rooms,
        "settled": crew.parts.iter().all(|part| part.settled),
        "connect_s": rounded(crew.connect_seconds),
        "rss_kb": [nobody, silent, tracked],
        "kb_per_connection": of_each(silent),
        "kb_per_tracked_client": of_each(tracked),
        "idle_cpu_cores": rounded(crew.parts.iter().map(|part| part.busy).fold(0.0, f64::max)),
        "errors": crew.errors,
        "dead": crew.hung_up,
    })
}
