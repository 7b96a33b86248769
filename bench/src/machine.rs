//! The machine that the numbers are from.

use std::fs;
use std::thread;

pub fn describe() -> String {
    let cores = thread::available_parallelism().map_or(1, usize::from);
    let info = fs::read_to_string("/proc/cpuinfo").unwrap_or_default();
    let model = info.lines().find_map(|line| {
        let (name, value) = line.split_once(':')?;
        (name.trim() == "model name").then(|| value.trim())
    });
    format!("{cores} cores, {}", model.unwrap_or("of an unknown model"))
}
