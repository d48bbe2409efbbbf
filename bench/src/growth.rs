//! How lookups grow with the arrays: random addresses in random lists that fill ever more of them.

use compare::random::Random;

use crate::dpdk::Dpdk;
use crate::engines::{Engines, Times, BOXES, COPY, LPM, PACKED, TABLE};
use crate::lists::{self, Load};
use crate::lookups::RANDOM;
use crate::{Scale, ARRAYS};

const SIZES: [usize; 4] = [64, 256, 1_024, ARRAYS];
const WAYS: [&str; 5] = [TABLE, COPY, PACKED, BOXES, LPM];

/// What was measured, and with how many arrays.
pub type Size = (usize, Times);

/// Each list fills a table that has just so many. The lists are drawn first, from their own numbers, so that a quick run has the
/// same ones.
pub fn measure_all(scale: &Scale, dpdk: Option<&Dpdk>) -> Vec<Size> {
    let random = &mut Random::for_case(1, "growth", 0);
    let loads = SIZES.map(|arrays| (arrays, lists::sparse(random, arrays)));
    let addresses = lists::random_addresses(random, scale.addresses);
    let size = |(arrays, load): &(usize, Load)| {
        (*arrays, Engines::new(load, *arrays, dpdk).few_lookups(scale, RANDOM, &addresses))
    };
    loads.iter().map(size).collect()
}

/// A line for each way: nanoseconds by arrays, and how often the first goes into the last.
pub fn tell(sizes: &[Size]) {
    let heads: String = sizes.iter().map(|size| format!("{:>10}", size.0)).collect();
    println!("a lookup of random addresses in random lists, nanoseconds by arrays, and the last over the first");
    println!("  {:<42}{heads}", "");
    for way in WAYS {
        let times: Vec<f64> = sizes.iter().filter_map(|size| size.1.of(way)).collect();
        if let [first, .., last] = times[..] {
            let cells: String = times.iter().map(|time| format!("{time:>10.1}")).collect();
            println!("  {way:<42}{cells}{:>10.2}", last / first);
        }
    }
}
