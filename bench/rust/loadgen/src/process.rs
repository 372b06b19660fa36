//! What the system says of the server's process. Where there is none, each figure is zero.

use std::fs::read_to_string;

/// The unit of processor times in /proc, on every Linux.
const TICKS_A_SECOND: f64 = 100.0;

/// Its resident memory, in kB.
pub fn memory_kb(pid: u32) -> u64 {
    let status = read_to_string(format!("/proc/{pid}/status")).unwrap_or_default();
    let resident = status.lines().find(|line| line.starts_with("VmRSS"));
    resident.and_then(|line| line.split_whitespace().nth(1)?.parse().ok()).unwrap_or(0)
}

/// The processor seconds that it has taken, its own and the system's.
pub fn processor_seconds(pid: u32) -> f64 {
    let stat = read_to_string(format!("/proc/{pid}/stat")).unwrap_or_default();
    // the name of a program may have blanks; behind it the user's ticks are the twelfth field, and the system's follow
    let fields = stat.rsplit(')').next().unwrap_or_default().split_whitespace().skip(11).take(2);
    fields.filter_map(|field| field.parse::<f64>().ok()).sum::<f64>() / TICKS_A_SECOND
}
