//! Measures the library beside other ways of doing the same, all in one run: `bench/run`, with `--lookups` for lookups of IPv4
//! by all engines alone, with `--full` for a full internet list in a copy, with `--runs` for the updates inside an IPv4 run alone,
//! with `--local` for local updates alone, with `--whole` for the calls that read a whole IPv4 table alone, with `--six` for IPv6
//! alone, with `--packed`, `--shortest` and `--fronts` for compressed tables, the shortest list and fronts alone, with `--quick` for
//! a rough look. A line gives the median time of one call and how much of it the library takes.

mod axis;
mod bars;
mod boxed;
mod clock;
mod copies;
mod curves;
mod dpdk;
mod dump;
mod engines;
mod fib;
mod fronts;
mod full;
mod growth;
mod huge;
mod insides;
mod lists;
mod locals;
mod lookups;
mod lpm;
mod packs;
mod picture;
mod processor;
mod real;
mod runs;
mod shorts;
mod six;
mod sums;
mod svg;
mod trie;
mod whole;

use clock::{measure, Way};
use compare::family::Family;
use compare::random::Random;
use dpdk::Dpdk;
use lists::Load;
use lpm::Lpm;
use reference::feed::{kind_of, Role};
use reference::{layout, CandidateList, Route};
use toggleash::{Candidate, Family as _};
use trie::Trie;

const ARRAYS: usize = 4_096;
const ROUTES: usize = 100_000;
/// The parts that are measured alone where they are named.
const PARTS: [&str; 9] =
    ["--lookups", "--full", "--runs", "--local", "--whole", "--six", "--packed", "--shortest", "--fronts"];
/// About as many as the internet's routers hold.
const MOST: usize = 1_000_000;

struct Scale {
    addresses: usize,
    rounds: usize,
}

fn main() {
    let words: Vec<String> = std::env::args().skip(1).collect();
    let (parts, rest): (Vec<&str>, Vec<&str>) = words.iter().map(String::as_str).partition(|word| PARTS.contains(word));
    let known = parts.len() < 2 && rest.iter().all(|&word| word == "--quick");
    assert!(known, "usage: bench/run [--quick] [{}]", PARTS.join(" | "));
    let (full, quick) = (Scale { addresses: 10_000_000, rounds: 5 }, Scale { addresses: 500_000, rounds: 3 });
    let scale = if rest.is_empty() { full } else { quick };
    let named = |part: &str| parts.is_empty() || parts == [part];
    let dpdk = Dpdk::open(MOST as u32, 2 * ARRAYS as u32);
    let lpm = dpdk.as_ref().map(|dpdk| &dpdk.lpm);
    println!("on {}", processor::told());
    println!("one call, median of {} rounds; last column: the library's time over this one's", scale.rounds);
    if named("--lookups") {
        lookups::measure_all(&mut random(), &scale, dpdk.as_ref());
    }
    if parts == ["--full"] {
        full::measure_all(&mut random(), &scale, dpdk.as_ref());
    }
    if parts.is_empty() {
        calls(&mut random(), &scale, lpm);
    }
    if named("--runs") {
        runs::measure_all(&mut random(), &scale, lpm);
    }
    if named("--local") {
        locals::measure_all(&mut random(), &scale);
    }
    if parts == ["--whole"] {
        whole::measure_all(&mut random(), &scale);
    }
    if named("--six") {
        six::measure_all(&mut random(), &scale);
    }
    if named("--shortest") {
        shorts::measure_all(&mut random(), &scale);
    }
    if named("--fronts") {
        fronts::measure_all(&mut random(), &scale);
    }
    if parts == ["--packed"] {
        packs::measure_all(&mut random(), &scale);
    }
    if dpdk.is_none() {
        println!("rte_lpm and rte_fib took no part: libdpdk-dev is not installed, or it did not start");
    }
}

/// Each part starts with its own, so that it has the same lists alone as in a whole run.
fn random() -> Random {
    Random::for_case(1, "bench", 0)
}

/// Each call by itself, but for the lookups.
fn calls(random: &mut Random, scale: &Scale, lpm: Option<&Lpm>) {
    let (sparse, dense) = (lists::sparse(random, ARRAYS), lists::dense(random, ARRAYS, ROUTES));
    let rivalled = lists::rivalled(&dense);
    for load in [sparse, dense, rivalled] {
        insides::counts(random, scale, &load);
        updates(random, scale, &load, ARRAYS, lpm);
        whole::calls(scale, &load);
        copies::whole(scale, &load);
        packs::whole(scale, &load);
    }
    let most = lists::dense(random, ARRAYS, MOST);
    insides::counts(random, scale, &most);
    whole::calls(scale, &most);
    packs::whole(scale, &most);
    for arrays in [7, 64] {
        updates(random, scale, &lists::sparse(&mut Random::for_case(1, "small", 0), arrays), arrays, None);
    }
}

/// The list as a table, which the library's check must know.
fn table<A: Family>(list: &CandidateList<A>, arrays: usize) -> Vec<u32> {
    let words = layout::lay(list, arrays, &(2..=arrays).collect::<Vec<_>>());
    let counts = A::Sent::check(&words).expect("a table laid out is one");
    assert_eq!(counts.routes as usize, list.candidates().len());
    words
}

fn title<A: Family>(what: &str, load: &Load<A>, more: &str) -> String {
    format!("{what}, {}, {} arrays, {} routes, {more}", load.name, load.list.need(), load.list.routes().len())
}

/// Routes taken out and put back, by single calls and by a run, which is given two records for each.
fn updates(random: &mut Random, scale: &Scale, load: &Load, arrays: usize, lpm: Option<&Lpm>) {
    let mut words = table(&load.candidates, arrays);
    let mut same_words = words.clone();
    let mut trie = Trie::new(&load.list);
    let count = (scale.addresses / 200 / arrays).clamp(4, 2_000);
    let routes: Vec<Route> = (0..count).map(|_| random.pick(load.list.routes())).collect();
    let feed: Vec<u8> = routes.iter().flat_map(take_and_put).collect();
    let mut reply = vec![0; 10 * count];
    let mut ways = vec![
        Way::new("toggleash_withdraw, toggleash_announce", || flap(&mut words, &routes)),
        Way::new("toggleash_run", || accepted(toggleash::run(&mut same_words, &feed, &mut reply))),
        Way::new("Rust trie of one bit a step", || trie.flap(&routes)),
    ];
    if let Some(lpm) = lpm {
        lpm.fill(&load.list);
        ways.push(Way::new("DPDK's rte_lpm_delete, rte_lpm_add", || lpm.flap(&routes)));
    }
    measure(&title("update", load, "taken out and put back"), scale.rounds, 2 * count, ways);
}

fn accepted(ran: Result<toggleash::Ran, toggleash::Refusal>) -> u64 {
    ran.expect("a table stays one").accepted as u64
}

/// The records that withdraw a route and announce it again, by feed 1 as it is; of kinds that name no feed where there are such.
fn take_and_put<A: Family>(route: &Route<A>) -> Vec<u8> {
    let (address, length) = (route.prefix.address.bytes(), [route.prefix.length as u8]);
    let hop = (route.hop as u16).to_be_bytes();
    let kind = |plain, named| match kind_of::<A>(plain) {
        Some(kind) => (kind, false),
        None => (kind_of::<A>(named).expect("both families have one"), true),
    };
    let (withdraw, feed) = kind(Role::Withdraw, Role::WithdrawFor);
    let taken = [&[withdraw][..], &address, &length, if feed { &[1] } else { &[] }].concat();
    let (announce, feed) = kind(Role::Announce, Role::AnnounceFor);
    let put = [&[announce][..], &address, &length, &hop, if feed { &[1, 0] } else { &[] }].concat();
    [taken, put].concat()
}

/// Gives the number of updates accepted.
fn flap<A: Family>(words: &mut [u32], routes: &[Route<A>]) -> u64 {
    let mut accepted = 0;
    for route in routes {
        let (address, length) = (A::Sent::from(route.prefix.address), route.prefix.length);
        accepted += u64::from(A::Sent::withdraw(words, address, length, 1).is_ok());
        accepted += u64::from(A::Sent::announce(words, address, length, Candidate::via(route.hop)).is_ok());
    }
    accepted
}
