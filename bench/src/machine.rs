//! The kind of machine that a table was measured on.

use std::fs;
use std::thread;

pub fn describe() -> String {
    let cores = thread::available_parallelism().map_or(1, usize::from);
    format!("{}, cores: {cores}, {}", processor(), env!("BUILT_BY"))
}

fn processor() -> String {
    let listed = fs::read_to_string("/proc/cpuinfo").unwrap_or_default();
    let line = listed.lines().find(|line| line.starts_with("model name"));
    let name = line.and_then(|line| line.split_once(": "));
    name.map_or(String::from("a processor of unknown kind"), |(_, name)| name.to_string())
}
