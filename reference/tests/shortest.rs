//! The shortest list: the worked cases of document 02's item 12, and the number of routes against every list of a few bits.

use std::collections::{BTreeMap, BTreeSet};

use reference::shortest::{shortest, Sets, DEFAULT};
use reference::{layout, Candidate, CandidateList, Memory, Prefix, Refusal, RouteList};

fn ip(a: u8, b: u8, c: u8, d: u8) -> u32 {
    u32::from_be_bytes([a, b, c, d])
}

fn list(routes: &[(u32, u32, u32)]) -> RouteList {
    let mut list = RouteList::default();
    for &(address, length, hop) in routes {
        list.set(Prefix { address, length }, hop);
    }
    list
}

/// A table of three arrays.
fn table(candidates: CandidateList) -> Memory {
    Memory::new(12_288, Some(candidates))
}

fn held(routes: &[(u32, u32, u32)]) -> Memory {
    table((&list(routes)).into())
}

/// As many bytes as these are written, and one fewer are refused.
fn writes(routes: &[(u32, u32, u32)], bytes: &[u8]) {
    let memory = held(routes);
    assert_eq!(shortest(&memory, true, bytes.len()).map(|list| list.encoding()), Ok(bytes.to_vec()));
    assert_eq!(shortest(&memory, true, bytes.len() - 1), Err(Refusal::BufferShort));
}

#[test]
fn worked_cases() {
    // 12.1 one route stays
    writes(&[(0, 0, 7)], &[1, 0, 0, 0, 0, 0, 0, 7, 0]);
    // 12.3 the default that nobody gets
    writes(&[(0, 0, 1), (0, 1, 2), (ip(128, 0, 0, 0), 1, 2)], &[1, 0, 0, 0, 0, 0, 0, 2, 0]);
    // 12.5 two pairs alike
    writes(
        &[(0, 0, 1), (0, 2, 2), (ip(64, 0, 0, 0), 2, 3), (ip(128, 0, 0, 0), 2, 2), (ip(192, 0, 0, 0), 2, 3)],
        &[1, 0, 0, 0, 0, 0, 0, 2, 1, 64, 0, 0, 0, 2, 0, 3, 1, 192, 0, 0, 0, 2, 0, 3, 0],
    );
    // 12.7 three quarters alike
    let quarters = [0, 64, 128, 192].map(|b| (ip(10, b, 0, 0), 10, if b == 0 { 1 } else { 2 }));
    writes(
        &[&[(0, 0, 9)], &quarters[..]].concat(),
        &[1, 0, 0, 0, 0, 0, 0, 9, 1, 10, 0, 0, 0, 8, 0, 2, 1, 10, 0, 0, 0, 10, 0, 1, 0],
    );
}

#[test]
fn worked_refusals() {
    let ten = ip(10, 0, 0, 0);
    // 12.9 the first that applies
    let none = held(&[(ten, 8, 33)]);
    assert_eq!(shortest(&none, false, 0), Err(Refusal::WordCount));
    assert_eq!(shortest(&none, true, 0), Err(Refusal::NoDefault));
    assert_eq!(shortest(&held(&[(0, 0, 33)]), true, 0), Err(Refusal::HighHop));
    let hidden = held(&[(0, 0, 1), (ten, 8, 33), (ten, 9, 1), (ip(10, 128, 0, 0), 9, 1)]);
    assert_eq!(shortest(&hidden, true, 0), Err(Refusal::HighHop));
    writes(&[(0, 0, 32)], &[1, 0, 0, 0, 0, 0, 0, 32, 0]);
    let foreign = Memory::new(12_288, None);
    assert_eq!(shortest(&foreign, true, 0), Err(Refusal::NotATable));
    assert_eq!(shortest(&foreign, false, 0), Err(Refusal::WordCount));
    assert_eq!(shortest(&Memory::new(12_289, None), true, 0), Err(Refusal::WordCount));
    // A losing candidate's hop does not matter.
    let two = [(1, 5, 33), (2, 0, 7)];
    let two = two.map(|(feed, preference, hop)| Candidate { prefix: DEFAULT, feed, preference, hop });
    assert_eq!(shortest(&table(two.to_vec().into()), true, 9), Ok(list(&[(0, 0, 7)])));
}

#[test]
fn sets_of_prefixes() {
    let sets = Sets::of(&list(&[(0, 0, 1), (0, 2, 2), (ip(64, 0, 0, 0), 2, 3), (ip(128, 0, 0, 0), 1, 3)]));
    for (address, length, hops) in [
        (0, 0, &[3][..]),
        (0, 1, &[2, 3]),
        (0, 2, &[2]),
        (ip(64, 0, 0, 0), 2, &[3]),
        (ip(200, 1, 2, 3), 32, &[3]),
        (ip(63, 0, 0, 0), 8, &[2]),
    ] {
        assert_eq!(sets.set(Prefix { address, length }), &BTreeSet::from_iter(hops.iter().copied()));
    }
}

/// Each prefix of at most three bytes' arrays stands in one slot.
#[test]
fn places_of_prefixes() {
    let list = list(&[(ip(10, 1, 1, 0), 24, 5)]);
    let words = layout::lay(&CandidateList::from(&list), 5, &[4, 2]);
    let places: BTreeMap<Prefix, usize> = layout::places(&words).into_iter().map(|(at, prefix)| (prefix, at)).collect();
    assert_eq!(places.len(), 511 + 510 + 510);
    assert_eq!(places[&DEFAULT], 3_072 + 4);
    assert_eq!(places[&Prefix { address: ip(10, 0, 0, 0), length: 8 }], 3_072 + 4 * 266);
    assert_eq!(places[&Prefix { address: ip(10, 0, 0, 0), length: 9 }], 4 * 3_072 + 8);
    assert_eq!(places[&Prefix { address: ip(10, 1, 1, 0), length: 24 }], 2 * 3_072 + 4 * 257);
    assert_eq!(words[2 * 3_072 + 4 * 257], 5);
}

/// What a list of at most three bits gives to each of the eight boxes of three bits; 0 is none.
type Painted = [u8; 8];

const HOPS: u8 = 3;

/// The boxes of three bits in each prefix of at most three bits, shorter prefixes first.
fn prefixes() -> Vec<(Prefix, std::ops::Range<usize>)> {
    let of_length = |length: u32| {
        let boxes = 8 >> length;
        (0..1 << length).map(move |value| {
            let first = value * boxes;
            (Prefix { address: (first as u32) << 29, length }, first..first + boxes)
        })
    };
    (0..=3).flat_map(of_length).collect()
}

fn painted(list: &RouteList) -> Painted {
    std::array::from_fn(|at| list.longest_match((at as u32) << 29).map_or(0, |route| route.hop as u8))
}

/// The fewest routes for every painting that a list of at most three bits can give. All such lists are tried: a longer route paints
/// over shorter ones, so in the order of lengths each prefix paints or does not; lists that painted alike so far go on as one.
fn fewest() -> BTreeMap<Painted, usize> {
    let mut fewest = BTreeMap::from([([0; 8], 0)]);
    for (_, boxes) in prefixes() {
        for (before, count) in fewest.clone() {
            for hop in 1..=HOPS {
                let mut after = before;
                after[boxes.clone()].fill(hop);
                let least = fewest.entry(after).or_insert(usize::MAX);
                *least = (*least).min(count + 1);
            }
        }
    }
    fewest
}

/// For every forwarding of eight boxes by three hops the list chosen gives it and has the fewest routes.
#[test]
fn no_list_has_fewer() {
    let fewest = fewest();
    let mut tried = 0;
    for (painting, &count) in fewest.iter().filter(|(painting, _)| !painting.contains(&0)) {
        let routes: Vec<(u32, u32, u32)> = (0..).zip(painting).map(|(at, &hop)| (at << 29, 3, hop.into())).collect();
        let chosen = Sets::of(&list(&[&[(0, 0, 9)], &routes[..]].concat())).chosen();
        assert_eq!((painted(&chosen), chosen.routes().len()), (*painting, count));
        tried += 1;
    }
    assert_eq!(tried, 3_usize.pow(8));
}

/// The same from every list of at most two bits with the default route, and some of three: what is chosen depends on the forwarding
/// alone.
#[test]
fn every_short_list() {
    let fewest = fewest();
    let prefixes = prefixes();
    let mut chosen = BTreeMap::new();
    for number in 0..4_usize.pow(7) {
        // The digits of the number are hops; those of three bits repeat them.
        let digit = |at: usize| (number / 4_usize.pow(at as u32 % 7) % 4) as u32;
        let longer = if number % 5 == 0 { 15 } else { 7 };
        let mut list = RouteList::default();
        list.set(DEFAULT, 1 + digit(0) % 3);
        for (at, (prefix, _)) in prefixes[..longer].iter().enumerate().skip(1).filter(|&(at, _)| digit(at) > 0) {
            list.set(*prefix, digit(at));
        }
        let short = Sets::of(&list).chosen();
        let painting = painted(&list);
        assert_eq!((painted(&short), short.routes().len()), (painting, fewest[&painting]), "{list:?}");
        let other = chosen.entry(painting).or_insert_with(|| short.clone());
        assert_eq!(*other, short);
    }
}
