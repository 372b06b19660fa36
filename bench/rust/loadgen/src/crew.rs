//! The threads of a scenario, each with a herd of its own, and where they meet.

use crate::herd::Herd;
use crate::options::Options;
use crate::process::{memory_kb, processor_seconds};
use std::sync::{Barrier, Mutex};
use std::thread::{scope, sleep};
use std::time::{Duration, Instant};

/// What all threads gave, and what was seen of the server while they connected.
pub struct Crew<T> {
    pub parts: Vec<T>,
    pub errors: u64,
    pub hung_up: u64,
    pub connect_seconds: f64,
    /// The server's memory with nobody, and with all connected, in kB.
    pub memory: [u64; 2],
}

/// Does `part` in each thread, by its number and with its clients, once the clients of all threads are connected.
pub fn with_herds<T: Send>(options: &Options, part: impl Fn(usize, &mut Herd) -> T + Sync) -> Crew<T> {
    let memory_before = memory_kb(options.pid);
    let barrier = Barrier::new(options.threads + 1);
    let work = |thread: usize| {
        let mut herd = Herd::open(options, (thread..options.clients).step_by(options.threads));
        barrier.wait();
        barrier.wait();
        let given = part(thread, &mut herd);
        (given, herd.errors, herd.hung_up)
    };
    scope(|threads| {
        let begun = Instant::now();
        let work = &work;
        let running: Vec<_> = (0..options.threads).map(|thread| threads.spawn(move || work(thread))).collect();
        barrier.wait();
        let connect_seconds = begun.elapsed().as_secs_f64();
        sleep(Duration::from_millis(200));
        let memory = [memory_before, memory_kb(options.pid)];
        barrier.wait();
        let mut crew = Crew { parts: vec![], errors: 0, hung_up: 0, connect_seconds, memory };
        for thread in running {
            let (given, errors, hung_up) = thread.join().expect("a thread of the scenario");
            crew.parts.push(given);
            crew.errors += errors;
            crew.hung_up += hung_up;
        }
        crew
    })
}

/// Where the threads meet in front of what is measured and behind it, and what the server was like there.
pub struct Meeting {
    pid: u32,
    barrier: Barrier,
    moment: Mutex<Instant>,
    seen: Mutex<Seen>,
}

#[derive(Clone, Copy, Default)]
struct Seen {
    processor_before: f64,
    processor_behind: f64,
    memory_behind: u64,
}

impl Meeting {
    pub fn new(options: &Options) -> Meeting {
        Meeting {
            pid: options.pid,
            barrier: Barrier::new(options.threads),
            moment: Mutex::new(Instant::now()),
            seen: Mutex::default(),
        }
    }

    /// Begins what is measured, in all threads at once.
    pub fn begin(&self, thread: usize) {
        if thread == 0 {
            self.seen.lock().unwrap().processor_before = processor_seconds(self.pid);
        }
        self.barrier.wait();
    }

    /// Ends it, once all threads are done.
    pub fn end(&self, thread: usize) {
        self.barrier.wait();
        if thread == 0 {
            let mut seen = self.seen.lock().unwrap();
            seen.processor_behind = processor_seconds(self.pid);
            seen.memory_behind = memory_kb(self.pid);
        }
    }

    /// A moment at which all threads are here, the same for each.
    pub fn moment(&self, thread: usize) -> Instant {
        self.barrier.wait();
        if thread == 0 {
            *self.moment.lock().unwrap() = Instant::now();
        }
        self.barrier.wait();
        *self.moment.lock().unwrap()
    }

    /// What the server's processor took between the two meetings, in seconds.
    pub fn processor_seconds(&self) -> f64 {
        let seen = self.seen.lock().unwrap();
        seen.processor_behind - seen.processor_before
    }

    /// The server's memory at the second one, in kB.
    pub fn memory_kb(&self) -> u64 {
        self.seen.lock().unwrap().memory_behind
    }
}
