//! The scenarios, each by its name. Each gives the line of what it measured.

mod calls;
mod churn;
mod memory;
mod probe;
mod shout;
mod storm;

use crate::options::Options;
use serde_json::Value;

pub fn named(name: &str) -> Option<fn(&Options) -> Value> {
    match name {
        "storm" => Some(storm::run),
        "probe" => Some(probe::run),
        "shout" => Some(shout::run),
        "ping" => Some(calls::pings_at_a_rate),
        "pingmax" => Some(calls::pings_of_callers),
        "list" => Some(calls::lists_of_callers),
        "churn" => Some(churn::run),
        "mem" => Some(memory::run),
        _ => None,
    }
}
