//! Rounds, medians and the lines of the table.

use std::ffi::{c_int, c_long};

const CLOCK_THREAD_CPUTIME_ID: c_int = 3;

extern "C" {
    fn clock_gettime(clock: c_int, seconds_nanoseconds: *mut [c_long; 2]) -> c_int;
}

/// Nanoseconds that this thread has worked: what else the machine does then counts as little as it can.
fn worked() -> f64 {
    let mut time = [0; 2];
    let status = unsafe { clock_gettime(CLOCK_THREAD_CPUTIME_ID, &mut time) };
    assert_eq!(status, 0, "clock_gettime");
    time[0] as f64 * 1e9 + time[1] as f64
}

/// One way of doing the work.
pub struct Way<'a> {
    name: &'static str,
    prepare: Box<dyn FnMut() + 'a>,
    call: Box<dyn FnMut() -> u64 + 'a>,
}

impl<'a> Way<'a> {
    /// The call does all of the work and gives a number by which ways are seen to do the same.
    pub fn new(name: &'static str, call: impl FnMut() -> u64 + 'a) -> Way<'a> {
        Way::prepared(name, || (), call)
    }

    /// Before each call something is done that is not measured.
    pub fn prepared(name: &'static str, prepare: impl FnMut() + 'a, call: impl FnMut() -> u64 + 'a) -> Way<'a> {
        Way { name, prepare: Box::new(prepare), call: Box::new(call) }
    }

    pub fn name(&self) -> &'static str {
        self.name
    }
}

/// Measures the ways in turn, round after round, and prints the median time of each beside the ratio of the first,
/// which is the library's. All ways must give the same number. The medians are given too.
pub fn measure(title: &str, rounds: usize, count: usize, mut ways: Vec<Way>) -> Vec<f64> {
    println!("{title}");
    let mut times = vec![Vec::new(); ways.len()];
    for round in 0..=rounds {
        let mut results = Vec::new();
        for (way, times) in ways.iter_mut().zip(&mut times) {
            (way.prepare)();
            let start = worked();
            results.push((way.call)());
            let time = (worked() - start) / count as f64;
            // The first round only warms tables and caches.
            if round > 0 {
                times.push(time);
            }
        }
        assert!(results.iter().all(|result| *result == results[0]), "{title}: the answers differ: {results:?}");
    }
    let medians: Vec<f64> = times.iter_mut().map(|times| median(times)).collect();
    for (way, time) in ways.iter().zip(&medians) {
        println!("  {:<42}{time:>14.1} ns {:>10.3}", way.name, medians[0] / time);
    }
    medians
}

fn median(times: &mut [f64]) -> f64 {
    times.sort_by(f64::total_cmp);
    times[times.len() / 2]
}
