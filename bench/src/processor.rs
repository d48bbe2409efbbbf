//! What is measured on: the processor's name as the kernel tells it, and its caches.

use std::env::consts::ARCH;
use std::fs;
use std::thread::available_parallelism;

/// In one line.
pub fn told() -> String {
    let cores = available_parallelism().map_or(1, usize::from);
    format!("{}, {ARCH}, {cores} cores, caches {}", name(), caches())
}

/// Arm's kernels tell no name, but numbers of who made it and what.
fn name() -> String {
    let told = fs::read_to_string("/proc/cpuinfo").unwrap_or_default();
    let value = |key: &str| {
        let line = told.lines().find(|line| line.starts_with(key))?;
        Some(line.split_once(':')?.1.trim().to_string())
    };
    let numbers = || Some(format!("CPU implementer {}, part {}", value("CPU implementer")?, value("CPU part")?));
    value("model name").or_else(numbers).unwrap_or("a processor without a name".into())
}

/// Those that hold data, the nearest first.
fn caches() -> String {
    let folder = |at: usize| format!("/sys/devices/system/cpu/cpu0/cache/index{at}");
    let read = |at: usize, what: &str| fs::read_to_string(format!("{}/{what}", folder(at)));
    let kept = (0..8).filter(|&at| read(at, "type").is_ok_and(|kind| kind.trim() != "Instruction"));
    let sizes: Vec<String> = kept.filter_map(|at| read(at, "size").ok()).map(|size| size.trim().into()).collect();
    if sizes.is_empty() {
        "not told".into()
    } else {
        sizes.join(", ")
    }
}
