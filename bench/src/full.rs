//! A full internet list, where bench/full can print one. It needs more arrays than any table has, so of the library's engines
//! the copy alone holds it: its need and build, and lookups beside the tries and DPDK's tables.

use std::collections::BTreeMap;
use std::net::Ipv4Addr;
use std::process::Command;

use compare::random::Random;
use reference::{Prefix, RouteList};
use toggleash::{copy, ffi};

use crate::boxed::Boxed;
use crate::clock::{measure, Way};
use crate::dpdk::Dpdk;
use crate::engines::{Others, BOXES, COPY};
use crate::lists::{self, Load};
use crate::lookups::RANDOM;
use crate::sums::sum_of_copy;
use crate::trie::Trie;
use crate::{copies, title, Scale};

pub fn measure_all(random: &mut Random, scale: &Scale, dpdk: Option<&Dpdk>) {
    let Some(list) = list() else { return };
    let held: Vec<Prefix> = list.routes().iter().map(|route| route.prefix).collect();
    let load = Load { name: "full list", candidates: (&list).into(), list, deepest: Vec::new() };
    copies::whole(scale, &load);
    builds(&load, dpdk);
    let (copy, others) = (copies::words(&load.candidates), Others::new(&load.list, dpdk));
    let sets = [
        (RANDOM, lists::random_addresses(random, scale.addresses)),
        ("addresses inside held prefixes", lists::inside(random, &held, scale.addresses)),
    ];
    for (set, addresses) in &sets {
        let mut ways = vec![Way::new(COPY, || sum_of_copy(ffi::toggleash_copy_lookup, &copy, addresses))];
        ways.extend(others.ways(addresses));
        measure(&title("lookup", &load, set), scale.rounds, addresses.len(), ways);
    }
}

/// The routes. A hop stands for an AS, of which there may be more than hops. None where there is no list.
fn list() -> Option<RouteList> {
    let output = Command::new("./full").output().expect("bench/run starts this where bench/full is");
    if !output.status.success() {
        println!("the full list took no part: {}", String::from_utf8_lossy(&output.stderr).trim());
        return None;
    }
    let text = String::from_utf8_lossy(&output.stdout);
    let routes: BTreeMap<Prefix, u32> = text.lines().filter_map(line).collect();
    let mut list = RouteList::default();
    for (prefix, hop) in routes {
        list.set(prefix, hop);
    }
    Some(list)
}

/// None for what is no route, and for length 0, as rte_lpm has none.
fn line(text: &str) -> Option<(Prefix, u32)> {
    let (prefix, origin) = text.split_once('\t')?;
    let (address, length) = prefix.split_once('/')?;
    let (address, length, origin): (Ipv4Addr, u32, u32) =
        (address.parse().ok()?, length.parse().ok()?, origin.parse().ok()?);
    (1..=32).contains(&length).then(|| (Prefix::around(address.into(), length), 1 + origin % 65_535))
}

/// The whole list put into each, in one round after the first: rte_lpm_add looks at all routes of the same length, and takes
/// half a minute for them.
fn builds(load: &Load, dpdk: Option<&Dpdk>) {
    let (bytes, routes) = (load.candidates.encoding(), load.list.routes());
    let mut words = vec![0; copy::need(&bytes).expect("a list")];
    let count = routes.len() as u64;
    let mut ways = vec![
        Way::new("toggleash_copy_build", || copy::build(&bytes, &mut words).map_or(0, |built| built.routes as u64)),
        Way::new("Rust trie of one bit a step, one vector", || built(Trie::new(&load.list), count)),
        Way::new(BOXES, || built(Boxed::new(&load.list), count)),
    ];
    if let Some(Dpdk { lpm, fib }) = dpdk {
        ways.extend([
            Way::prepared("DPDK's rte_lpm_add", || lpm.clear(), || lpm.announce_all(routes)),
            Way::prepared("DPDK's rte_fib_add", || fib.clear(), || fib.announce_all(routes)),
        ]);
    }
    measure(&title("build", load, "one of the routes, one round"), 1, routes.len(), ways);
}

/// What was built goes, after its time.
fn built<T>(what: T, routes: u64) -> u64 {
    std::hint::black_box(what);
    routes
}
