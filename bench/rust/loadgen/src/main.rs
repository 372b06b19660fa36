//! Drives a presence server on the loopback by one scenario, and prints one line of JSON: what it measured.
//!
//! Each client folds its presence list as phoenix.js does, and the lists are compared with what they must be: the line
//! says how many were wrong or never whole, beside the errors, so that such a run counts for nothing.

mod client;
mod crew;
mod figures;
mod fold;
mod herd;
mod messages;
mod options;
mod process;
mod scenarios;

use options::Options;
use serde_json::json;
use std::process::exit;

fn main() {
    let options = Options::of(std::env::args().skip(1)).unwrap_or_else(|said| {
        eprintln!("loadgen: {said}\n{}", options::USAGE);
        exit(1)
    });
    let run = scenarios::named(&options.scenario).unwrap_or_else(|| {
        eprintln!("loadgen: {} is no scenario\n{}", options.scenario, options::USAGE);
        exit(1)
    });
    let mut line = run(&options);
    line["scenario"] = json!(options.scenario);
    line["server"] = json!(options.name);
    println!("{line}");
}
