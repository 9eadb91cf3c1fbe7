//! What the measurements ran on, and when.

use std::fs;
use std::process::Command;
use std::thread::available_parallelism;
use std::time::{SystemTime, UNIX_EPOCH};

use crate::statistics::date;

const UNKNOWN: &str = "unknown";

/// Processor, cores and memory.
pub fn machine() -> String {
    let cores = available_parallelism().map_or(1, |cores| cores.get());
    let processor = entry("/proc/cpuinfo", "model name");
    let memory = entry("/proc/meminfo", "MemTotal");
    let kib: Option<u64> = memory.trim_end_matches(" kB").parse().ok();
    let memory = kib.map_or(memory, |kib| format!("{} GiB", (kib + (1 << 19)) >> 20));
    format!("{processor}, {cores} cores, {memory} of memory")
}

/// The value of the first line of that key.
fn entry(file: &str, key: &str) -> String {
    let text = fs::read_to_string(file).unwrap_or_default();
    let mut lines = text.lines().filter_map(|line| line.split_once(':'));
    let found = lines.find(|(name, _)| name.trim() == key);
    found.map_or(UNKNOWN.into(), |(_, value)| value.trim().to_owned())
}

/// The compilers' and valgrind's own words for their version.
pub fn tools() -> String {
    ["rustc", "valgrind"].map(version).join(", ")
}

fn version(program: &str) -> String {
    let said = Command::new(program).arg("--version").output();
    let text = said.map_or(String::new(), |output| String::from_utf8_lossy(&output.stdout).into());
    match text.trim() {
        "" => format!("{program} {UNKNOWN}"),
        text => text.split(" (").next().unwrap_or(text).to_owned(),
    }
}

/// How many processes ran or waited in the last minute, on the average.
pub fn load() -> String {
    let text = fs::read_to_string("/proc/loadavg").unwrap_or_default();
    text.split(' ').next().filter(|load| !load.is_empty()).unwrap_or(UNKNOWN).to_owned()
}

/// Today, in UTC.
pub fn today() -> String {
    let seconds = SystemTime::now().duration_since(UNIX_EPOCH).map_or(0, |since| since.as_secs());
    let (year, month, day) = date(seconds / 86_400);
    format!("{year}-{month:02}-{day:02}")
}
