//! A presence server of presence_node's channel rules in plain Rust: one node without journal, receipts or links, as a
//! measure for the proved one. It stands in two forms:
//!
//! - `spec` is the plainest: its workers look at all their sockets in turn, and render each text for each subscriber;
//! - `fast` waits until sockets are ready, and renders each text once for all subscribers.
//!
//! It prints `ready`, and ends by the line `stop`, or at the end of its standard input.

mod connection;
mod message;
mod ready;
mod rows;
mod scan;
mod server;
mod session;
mod shard;

use server::Settings;
use std::process::exit;

const USAGE: &str = "plain_server spec|fast [--port PORT] [--shards N] [--workers N]";

fn main() {
    let settings = settings(std::env::args().skip(1)).unwrap_or_else(|said| {
        eprintln!("plain_server: {said}\n{USAGE}");
        exit(1)
    });
    if let Err(error) = server::serve(settings) {
        eprintln!("plain_server: {error}");
        exit(1)
    }
}

fn settings(mut words: impl Iterator<Item = String>) -> Result<Settings, String> {
    let is_fast = match words.next().as_deref() {
        Some("spec") => false,
        Some("fast") => true,
        _ => return Err("spec or fast is wanted".into()),
    };
    let mut settings = Settings { is_fast, port: 4000, shards: 4, workers: 4 };
    while let Some(option) = words.next() {
        let value = words.next().ok_or_else(|| format!("{option} wants a value"))?;
        let number: u16 = value.parse().map_err(|_| format!("{option} {value}: a number is wanted"))?;
        match option.as_str() {
            "--port" => settings.port = number,
            "--shards" => settings.shards = usize::from(number.max(1)),
            "--workers" => settings.workers = usize::from(number.max(1)),
            _ => return Err(format!("{option} is no option")),
        }
    }
    Ok(settings)
}
