//! One local update, which tests what it touches, beside an update inside a run and a call that checks the whole table, for few
//! arrays and many, of both families: a prefix gets another hop, is withdrawn and announced, and gains and frees one array or three.

use std::collections::{HashMap, HashSet};

use compare::family::Family;
use compare::feeds::encode;
use compare::random::Random;
use reference::feed::Record;
use reference::{Prefix, Route};
use toggleash::{Candidate, Family as _, Refusal, Update};

use crate::clock::{measure, Way};
use crate::lists::{self, Load};
use crate::{accepted, table, title, Scale, ARRAYS};

/// The arrays that are left free where more than one is there.
const FREE: usize = 3;
/// For so many addresses that a lookup is measured with, there is one update; and one that checks the table for so many more.
const ADDRESSES: usize = 100;
const CHECKED: usize = 200;

pub fn measure_all(random: &mut Random, scale: &Scale) {
    let mut rows = Vec::new();
    for arrays in [1, 64, ARRAYS] {
        let load = lists::unicast(random, used(arrays), 16 * arrays);
        rows.extend(table_of(random, scale, &load, arrays));
    }
    for arrays in [1, 64, ARRAYS] {
        let load = lists::networks(random, used(arrays), 16 * arrays);
        rows.extend(table_of(random, scale, &load, arrays));
    }
    println!("one update, nanoseconds; that inside a run without the test at its start");
    println!("            arrays  update                              local call   in a local run    in a run      checked call");
    rows.iter().for_each(|row| println!("{row}"));
}

fn used(arrays: usize) -> usize {
    if arrays > FREE {
        arrays - FREE
    } else {
        arrays
    }
}

/// All kinds of updates to one table, a row for each. A single array has none to gain.
fn table_of<A: Family>(random: &mut Random, scale: &Scale, load: &Load<A>, arrays: usize) -> Vec<String> {
    let count = scale.addresses / ADDRESSES / 2;
    let routes = lasting(load);
    let mut kinds = vec![
        ("another hop", (0..count).flat_map(|_| rehop(random.pick(&routes))).collect::<Vec<_>>()),
        ("withdrawn and announced", (0..count).flat_map(|_| flap(random.pick(&routes))).collect()),
    ];
    if arrays > FREE {
        for (kind, missing) in [("one array gained and freed", 1), ("three arrays gained and freed", 3)] {
            kinds.push((kind, lacking(random, load, missing, count).into_iter().flat_map(come_and_go).collect()));
        }
    }
    kinds.iter().map(|(kind, updates)| row(scale, load, arrays, kind, updates)).collect()
}

/// Routes without which their array still holds one.
fn lasting<A: Family>(load: &Load<A>) -> Vec<Route<A>> {
    let own = |route: &Route<A>| (route.prefix.level(), route.prefix.address & A::mask(8 * route.prefix.level()));
    let mut held = HashMap::new();
    load.list.routes().iter().for_each(|route| *held.entry(own(route)).or_insert(0) += 1);
    load.list.routes().iter().copied().filter(|route| held[&own(route)] > 1).collect()
}

/// Level and head of each array.
fn heads<A: Family>(load: &Load<A>) -> HashSet<(u32, A)> {
    let path = |route: &Route<A>| {
        let Prefix { address, .. } = route.prefix;
        (0..=route.prefix.level()).map(move |level| (level, address & A::mask(8 * level)))
    };
    load.list.routes().iter().flat_map(path).collect()
}

/// Prefixes that lack so many arrays each.
fn lacking<A: Family>(random: &mut Random, load: &Load<A>, missing: u32, count: usize) -> Vec<Prefix<A>> {
    let heads = heads(load);
    let mut above: Vec<(u32, A)> = heads.iter().copied().filter(|head| head.0 + missing < A::LEVELS).collect();
    // A set has no order of its own, and a run should have the same prefixes as another.
    above.sort();
    let mut found = Vec::new();
    while found.len() < count {
        let (level, head) = random.pick(&above);
        let address = head | A::any(random) & !A::mask(8 * level);
        if !heads.contains(&(level + 1, address & A::mask(8 * level + 8))) {
            found.push(Prefix::around(address, 8 * (level + missing) + random.within(1..=8) as u32));
        }
    }
    found
}

fn announced<A>(Prefix { address, length }: Prefix<A>, hop: u32) -> Record<A> {
    Record::Announce { address, length, hop, feed: 1, preference: 0 }
}

fn withdrawn<A>(Prefix { address, length }: Prefix<A>) -> Record<A> {
    Record::Withdraw { address, length, feed: 1 }
}

fn rehop<A: Family>(route: Route<A>) -> [Record<A>; 2] {
    [announced(route.prefix, 1 + route.hop % 65_535), announced(route.prefix, route.hop)]
}

fn flap<A: Family>(route: Route<A>) -> [Record<A>; 2] {
    [withdrawn(route.prefix), announced(route.prefix, route.hop)]
}

fn come_and_go<A: Family>(prefix: Prefix<A>) -> [Record<A>; 2] {
    [announced(prefix, 1), withdrawn(prefix)]
}

/// Measures updates that leave the table as it was. A run is less what a run of no record takes, its test of the table.
fn row<A: Family>(scale: &Scale, load: &Load<A>, arrays: usize, kind: &str, updates: &[Record<A>]) -> String {
    let start = table(&load.candidates, arrays);
    let (mut words, mut local, mut checked) = (start.clone(), start.clone(), start.clone());
    let (mut feed, count) = (Vec::new(), updates.len());
    updates.iter().for_each(|&record| encode(record, true, &mut feed));
    let (mut reply, mut other) = (vec![0; 5 * count], vec![0; 5 * count]);
    let mut none = start.clone();
    let ways = vec![
        Way::new("local calls", || made(&mut words, updates, A::Sent::announce_local, A::Sent::withdraw_local)),
        Way::new("a local run", || accepted(A::Sent::run_local(&mut local, &feed, &mut reply))),
        Way::new("a run", || accepted(A::Sent::run(&mut checked, &feed, &mut other))),
        Way::new("its start", || count as u64 + accepted(A::Sent::run(&mut none, &[], &mut []))),
    ];
    let told = title(kind, load, &format!("of {arrays}"));
    let times = measure(&told, scale.rounds, count, ways);
    assert!([&words, &local, &checked].into_iter().all(|left| *left == start), "{told}: the table is another");
    let few = &updates[..2 * (scale.addresses / CHECKED / arrays).clamp(2, 1_000)];
    let ways = vec![Way::new("checked calls", || made(&mut words, few, A::Sent::announce, A::Sent::withdraw))];
    let whole = measure(&told, scale.rounds, few.len(), ways)[0];
    let (one, local, run) = (times[0], times[1], times[2] - times[3]);
    format!("  {:<8}{arrays:>8}  {kind:<34}{one:>12.1}{local:>17.1}{run:>12.1}{whole:>18.1}", A::NAME)
}

type Announce<A> = fn(&mut [u32], A, u32, Candidate) -> Result<Update, Refusal>;
type Withdraw<A> = fn(&mut [u32], A, u32, u32) -> Result<Update, Refusal>;

/// Makes the calls of updates and gives the number accepted.
fn made<A: Family>(
    words: &mut [u32],
    updates: &[Record<A>],
    announce: Announce<A::Sent>,
    withdraw: Withdraw<A::Sent>,
) -> u64 {
    let call = |words: &mut [u32], record: &Record<A>| match *record {
        Record::Announce { address, length, hop, feed, preference } => {
            announce(words, address.into(), length, Candidate { hop, feed, preference }).is_ok()
        }
        Record::Withdraw { address, length, feed } => withdraw(words, address.into(), length, feed).is_ok(),
        Record::Lookup { .. } | Record::End => unreachable!("{record:?} is no update"),
    };
    updates.iter().map(|record| u64::from(call(words, record))).sum()
}
