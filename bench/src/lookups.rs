//! Lookups of IPv4: the three engines and what they are measured against, on lists that need all arrays, on a real one and on
//! growing ones.

use compare::random::Random;

use crate::dpdk::Dpdk;
use crate::engines::{Engines, Times, BOXES, COPY, LPM, PACKED, TABLE};
use crate::lists::{self, Load};
use crate::{growth, packs, picture, real, Scale, ARRAYS, MOST, ROUTES};

pub const RANDOM: &str = "random addresses";
const ENGINES: [&str; 3] = [TABLE, COPY, PACKED];

/// What was measured on a list with a set of addresses.
pub struct Row {
    pub list: &'static str,
    pub routes: usize,
    pub arrays: usize,
    pub set: &'static str,
    pub times: Times,
}

pub fn measure_all(random: &mut Random, scale: &Scale, dpdk: Option<&Dpdk>) {
    let mut rows = Vec::new();
    for load in &loads(random) {
        let deep = lists::deep_addresses(random, load, scale.addresses);
        let sets =
            [(RANDOM, lists::random_addresses(random, scale.addresses)), ("addresses inside the deepest arrays", deep)];
        rows.extend(measured(scale, load, ARRAYS, dpdk, &sets));
    }
    rows.extend(real::measure_all(random, scale, dpdk));
    let sizes = growth::measure_all(scale, dpdk);
    tell(&rows);
    growth::tell(&sizes);
    picture::write(scale, &rows, &sizes);
}

/// From the sparsest to the fullest.
fn loads(random: &mut Random) -> [Load; 4] {
    let (sparse, dense) = (lists::sparse(random, ARRAYS), lists::dense(random, ARRAYS, ROUTES));
    let most = Load { name: "fullest list", ..lists::dense(random, ARRAYS, MOST) };
    [sparse, packs::networks(random), dense, most]
}

/// All ways on a list, in a table of so many arrays, with each set of addresses.
pub fn measured(
    scale: &Scale,
    load: &Load,
    arrays: usize,
    dpdk: Option<&Dpdk>,
    sets: &[(&'static str, Vec<u32>)],
) -> Vec<Row> {
    let engines = Engines::new(load, arrays, dpdk);
    engines.tell_pages();
    let (list, routes, arrays) = (load.name, load.list.routes().len(), load.list.need());
    let row = |(set, addresses): &(&'static str, Vec<u32>)| {
        let times = engines.lookups(scale, set, addresses);
        Row { list, routes, arrays, set, times }
    };
    sets.iter().map(row).collect()
}

/// Each engine's time over that of the trie with boxes and over rte_lpm's.
fn tell(rows: &[Row]) {
    println!("an engine's time over another way's");
    println!("{:<52}{:^32}{:^32}", "", "over the trie with boxes", "over rte_lpm");
    let names = format!("{:>10}{:>10}{:>12}", "table", "copy", "compressed");
    println!("  {:<14}{:<36}{names}{names}", "list", "addresses");
    for row in rows {
        let ratio = |engine: &str, other: &str| match (row.times.of(engine), row.times.of(other)) {
            (Some(engine), Some(other)) => format!("{:.3}", engine / other),
            _ => "-".into(),
        };
        let ratios = |other: &str| {
            let [table, copy, packed] = ENGINES.map(|engine| ratio(engine, other));
            format!("{table:>10}{copy:>10}{packed:>12}")
        };
        println!("  {:<14}{:<36}{}{}", row.list, row.set, ratios(BOXES), ratios(LPM));
    }
}
