//! Updates inside a run, for few arrays and many: where each update checks the table again, as single calls do, and where
//! the run's start alone does. First so few prefixes are taken out and put back, over and over, that what they touch
//! stays in the processor's cache; then all prefixes, which adds what a larger memory costs.

use compare::random::Random;
use reference::Route;

use crate::clock::{measure, Way};
use crate::lists::{self, Load};
use crate::lpm::Lpm;
use crate::{accepted, flap, table, take_and_put, title, Scale, ARRAYS};

/// Prefixes that stay in the cache, spread evenly over the list: as many for each number of arrays from 64 on.
const FEW: usize = 32;

/// For so many addresses that a lookup is measured with, a run has one update.
const ADDRESSES: usize = 10;

pub fn measure_all(random: &mut Random, scale: &Scale, lpm: Option<&Lpm>) {
    let dense = [1, 64, ARRAYS].map(|arrays| (lists::dense(random, arrays, 16 * arrays), arrays));
    let sparse = [64, ARRAYS].map(|arrays| (lists::sparse(random, arrays), arrays));
    let rivalled = [1, 2].map(|at| (lists::rivalled(&dense[at].0), dense[at].1));
    let mut rows = Vec::new();
    for loads in [&dense[..], &sparse[..], &rivalled[..]] {
        for few in [Some(FEW), None] {
            let mut flaps: Vec<Flaps> = loads.iter().map(|load| Flaps::new(load, few, random, scale)).collect();
            let prefixes = few.map_or("all prefixes".into(), |few| format!("at most {few} prefixes"));
            let title = format!("the start checks, {}s, {prefixes}, a run for each number of arrays", loads[0].0.name);
            let ways = flaps.iter_mut().map(|flaps| Way::new("toggleash_run", || flaps.run())).collect();
            let after = measure(&title, scale.rounds, scale.addresses / ADDRESSES, ways);
            for (flaps, after) in flaps.iter_mut().zip(after) {
                rows.push(flaps.row(after, scale, lpm));
            }
        }
    }
    println!("one update inside a run, nanoseconds");
    println!("  list              arrays  prefixes    each update checks    the start checks         rte_lpm");
    rows.iter().for_each(|row| println!("{row}"));
}

/// Routes of a table that are taken out and put back.
struct Flaps<'a> {
    load: &'a Load,
    arrays: usize,
    prefixes: usize,
    words: Vec<u32>,
    routes: Vec<Route>,
    feed: Vec<u8>,
    reply: Vec<u8>,
}

impl Flaps<'_> {
    fn new<'a>((load, arrays): &'a (Load, usize), few: Option<usize>, random: &mut Random, scale: &Scale) -> Flaps<'a> {
        let all = load.list.routes();
        let prefixes = few.unwrap_or(all.len()).min(all.len());
        let spread: Vec<Route> = (0..prefixes).map(|at| all[at * all.len() / prefixes]).collect();
        let routes: Vec<Route> = (0..scale.addresses / ADDRESSES / 2).map(|_| random.pick(&spread)).collect();
        let feed = routes.iter().flat_map(take_and_put).collect();
        let reply = vec![0; 10 * routes.len()];
        Flaps { load, arrays: *arrays, prefixes, words: table(&load.candidates, *arrays), routes, feed, reply }
    }

    fn run(&mut self) -> u64 {
        accepted(toggleash::run(&mut self.words, &self.feed, &mut self.reply))
    }

    fn row(&mut self, after: f64, scale: &Scale, lpm: Option<&Lpm>) -> String {
        let (name, arrays, prefixes) = (self.load.name, self.arrays, self.prefixes);
        let (before, lpm) = (self.checked(scale), self.by_lpm(scale, lpm));
        format!("  {name:<14}{arrays:>10}{prefixes:>10}{before:>22.1}{after:>20.1}{lpm:>16.1}")
    }

    /// Nanoseconds of an update by single calls. These and rte_lpm take fewer of the routes, as they are slow.
    fn checked(&mut self, scale: &Scale) -> f64 {
        let routes = &self.routes[..(scale.addresses / 200 / self.arrays).clamp(4, 2_000)];
        let ways = vec![Way::new("toggleash_withdraw, toggleash_announce", || flap(&mut self.words, routes))];
        measure(&title("each update checks", self.load, "single calls"), scale.rounds, 2 * routes.len(), ways)[0]
    }

    /// Nanoseconds of an update by rte_lpm, infinitely many where there is none.
    fn by_lpm(&self, scale: &Scale, lpm: Option<&Lpm>) -> f64 {
        let Some(lpm) = lpm else { return f64::INFINITY };
        let routes = &self.routes[..(20 * self.arrays).min(100 * self.prefixes).min(self.routes.len())];
        lpm.fill(&self.load.list);
        let ways = vec![Way::new("DPDK's rte_lpm_delete, rte_lpm_add", || lpm.flap(routes))];
        measure(&title("the same routes", self.load, "rte_lpm"), scale.rounds, 2 * routes.len(), ways)[0]
    }
}
