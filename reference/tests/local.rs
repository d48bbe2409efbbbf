//! Local updates on tables and on words that are none: which arrays they may change, each reason for a refusal on each level, and
//! the order of the refusals.

use reference::layout::{announce_local, check, lay, withdraw_local, Stray, Unfit};
use reference::{Candidate, CandidateList, Prefix, Refusal, RouteList};

/// The words of an array, and where in it the cells and the totals begin.
const ARRAY: usize = 3072;
const CELLS: usize = 2048;
const TOTALS: usize = 2304;

/// 10.1.1.128/25, whose path is whole, and 10.1.2.128/25, whose path stops at 10.1/16.
const WHOLE: (u32, u32) = (0x0A01_0180, 25);
const SHORT: (u32, u32) = (0x0A01_0280, 25);

fn prefix((address, length): (u32, u32)) -> Prefix {
    Prefix { address, length }
}

/// Of hop 6 for 10.1.1.128/25 by feed 1, and of other hops for 10/8 and 10.1/16: in 12 arrays, where 10/8 is array 9, 10.1/16 is
/// 5 and 10.1.1/24 is 12. The other eight, from 2 on, are free.
fn words() -> Vec<u32> {
    let mut list = RouteList::default();
    for (route, hop) in [((0x0A00_0000, 8), 2), ((0x0A01_0000, 16), 3), (WHOLE, 6)] {
        list.set(prefix(route), hop);
    }
    lay(&CandidateList::from(&list), 12, &[9, 5, 12])
}

/// An announcement via 7 by feed 1 with preference 0.
fn announce(words: &[u32], route: (u32, u32)) -> Result<Vec<usize>, Unfit> {
    announce_local(words, Candidate { prefix: prefix(route), feed: 1, preference: 0, hop: 7 })
}

fn withdraw(words: &[u32], route: (u32, u32)) -> Result<Vec<usize>, Unfit> {
    withdraw_local(words, prefix(route), 1)
}

/// The words with some changed, by array and place in it.
fn with(changes: &[(usize, usize, u32)]) -> Vec<u32> {
    let mut words = words();
    for &(array, at, word) in changes {
        words[ARRAY * array + at] = word;
    }
    words
}

fn refused<T>(refusal: Refusal) -> Result<T, Unfit> {
    Err(Unfit::Update(refusal))
}

fn astray<T>(stray: Stray, level: u32) -> Result<T, Unfit> {
    Err(Unfit::Words(stray, level))
}

#[test]
fn the_arrays_of_an_update_to_a_table() {
    let words = words();
    assert!(check::<u32>(&words).is_ok());
    assert_eq!(announce(&words, WHOLE), Ok(vec![1, 9, 5, 12]));
    assert_eq!(announce(&words, (0x0A01_0100, 24)), Ok(vec![1, 9, 5]));
    assert_eq!(announce(&words, (0x0A00_0000, 8)), Ok(vec![1]));
    assert_eq!(announce(&words, (0, 0)), Ok(vec![1]));
    assert_eq!(announce(&words, SHORT), Ok(vec![1, 9, 5, 2]));
    assert_eq!(announce(&words, (0x0B01_0101, 32)), Ok(vec![1, 2, 3, 4]));
    assert_eq!(withdraw(&words, WHOLE), Ok(vec![1, 9, 5, 12]));
    assert_eq!(withdraw(&words, (0x0A01_0000, 16)), Ok(vec![1, 9]));
    for route in [SHORT, (0x0A01_0180, 26), (0x0A01_0180, 32), (0, 0), (0x0B00_0000, 8)] {
        assert_eq!(withdraw(&words, route), refused(Refusal::NotHeld), "{route:x?}");
    }
    assert_eq!(withdraw_local(&words, prefix(WHOLE), 2), refused(Refusal::NotHeld));
}

#[test]
fn a_candidate_that_is_held_already() {
    let own = Candidate { prefix: prefix(WHOLE), feed: 1, preference: 0, hop: 6 };
    assert_eq!(announce_local(&words(), own), Ok(vec![]));
    for other in [Candidate { hop: 5, ..own }, Candidate { preference: 1, ..own }, Candidate { feed: 2, ..own }] {
        assert_eq!(announce_local(&words(), other), Ok(vec![1, 9, 5, 12]));
    }
    // The path is tested all the same.
    let cut = with(&[(12, 0, 0)]);
    assert_eq!(announce_local(&cut, own), astray(Stray::Tag, 2));
}

#[test]
fn refusals_in_their_order() {
    let foreign = vec![u32::MAX; ARRAY * 2];
    let sent = |address, length, hop, feed| Candidate { prefix: prefix((address, length)), feed, preference: 0, hop };
    for (words, address, length, hop, feed, refusal) in [
        (&foreign[1..], 1, 33, 0, 0, Refusal::WordCount),
        (&foreign, 1, 33, 0, 0, Refusal::TooLong),
        (&foreign, 1, u32::MAX, 0, 0, Refusal::TooLong),
        (&foreign, 1, 31, 0, 0, Refusal::StrayBit),
        (&foreign, 0, 0, 0, 0, Refusal::HopOutOfRange),
        (&foreign, 0, 0, 65_536, 0, Refusal::HopOutOfRange),
        (&foreign, 0, 0, 65_535, 5, Refusal::FeedOutOfRange),
        (&foreign, 0, 0, 1, 1, Refusal::NotATable),
    ] {
        let told = announce_local(words, sent(address, length, hop, feed)).map_err(Unfit::refusal);
        assert_eq!(told, Err(refusal), "{address}/{length} via {hop} by {feed}");
        // A withdrawal has no hop.
        if refusal != Refusal::HopOutOfRange {
            let told = withdraw_local(words, prefix((address, length)), feed).map_err(Unfit::refusal);
            assert_eq!(told, Err(refusal), "{address}/{length} by {feed}");
        }
    }
}

#[test]
fn the_first_array_is_the_root() {
    for tag in [0, 2, 1 << 13 | 1, u32::MAX] {
        for route in [(0, 0), (0x0B00_0000, 8), WHOLE, SHORT] {
            assert_eq!(announce(&with(&[(1, 0, tag)]), route), astray(Stray::Root, 0), "{tag}");
            assert_eq!(withdraw(&with(&[(1, 0, tag)]), route), astray(Stray::Root, 0), "{tag}");
        }
    }
}

/// The arrays of the path to 10.1.1.128/25 that have a link on it, with its cell, and the array below.
const LINKS: [(usize, usize, usize); 3] = [(1, 10, 9), (9, 1, 5), (5, 1, 12)];

#[test]
fn each_link_of_the_path() {
    for (level, (a, cell, below)) in (0..).zip(LINKS) {
        let at = CELLS + cell;
        let both = |changes: &[(usize, usize, u32)], expected: Result<Vec<usize>, Unfit>| {
            assert_eq!(announce(&with(changes), WHOLE), expected, "{changes:?}");
            assert_eq!(withdraw(&with(changes), WHOLE), expected, "{changes:?}");
        };
        for number in [13, 14, 4096] {
            both(&[(a, at, 1 << 28 | (number - 1))], astray(Stray::Array, level));
        }
        // Arrays that are there, but hang elsewhere or are free; the first too.
        for number in [1, 2, 11] {
            both(&[(a, at, 1 << 28 | (number - 1))], astray(Stray::Tag, level));
        }
        let tag = words()[ARRAY * below];
        for other in [0, 1, tag + 1, tag - 1, tag + 32, tag - 32, tag + 8192, tag - 8192, tag | 1 << 31] {
            both(&[(below, 0, other)], astray(Stray::Tag, level));
        }
        // The mark of a cell is one more than the length of its best; the hop may be any.
        for length in [0, 1, 8] {
            both(&[(a, at, (length + 1) << 28 | 65_535 << 12 | (below as u32 - 1))], Ok(vec![1, 9, 5, 12]));
        }
        for length in [9, 14] {
            both(&[(a, at, (length + 1) << 28 | (below as u32 - 1))], astray(Stray::Best, level));
        }
        // The same cell is not on another path.
        assert_eq!(announce(&with(&[(a, at, u32::MAX)]), (0x0B00_0000, 8)), Ok(vec![1]));
    }
    // Nor is a link from the prefix's own array.
    assert_eq!(announce(&with(&[(5, CELLS + 1, u32::MAX)]), (0x0A01_0100, 24)), Ok(vec![1, 9, 5]));
}

#[test]
fn a_path_that_stops_early_is_not_held() {
    for (level, (a, cell, _)) in LINKS.into_iter().enumerate() {
        for word in [0, (1 << 28) - 1, 9 << 4 | 15] {
            let changed = with(&[(a, CELLS + cell, word)]);
            assert_eq!(withdraw(&changed, WHOLE), refused(Refusal::NotHeld), "on level {level}");
        }
    }
}

#[test]
fn the_cell_that_gets_a_link() {
    for (level, (a, cell, _)) in (0..).zip(LINKS) {
        let cut = |length: u32, hop: u32, block: u32| with(&[(a, CELLS + cell, hop << 12 | length << 4 | block)]);
        let path = &[1, 9, 5][..=level as usize];
        let gained = &[2, 3, 4][..3 - level as usize];
        for (length, hop, block) in [(0, 0, 0), (8, 65_535, 8), (8, 0, 0), (0, 7, 8)] {
            assert_eq!(announce(&cut(length, hop, block), WHOLE), Ok([path, gained].concat()), "{length} {block}");
        }
        for (length, block) in [(9, 0), (9, 9), (16, 8), (255, 15)] {
            assert_eq!(announce(&cut(length, 0, block), WHOLE), astray(Stray::LastBest, level), "{length} {block}");
        }
        for (length, block) in [(0, 9), (8, 9), (8, 15)] {
            assert_eq!(announce(&cut(length, 65_535, block), WHOLE), astray(Stray::LastBlock, level), "{block}");
        }
    }
}

#[test]
fn room_by_the_header_alone() {
    // Ten of twelve used, or so the header says: two more fit, three do not.
    let said = |used| with(&[(0, 0, used)]);
    let long = (0x0B01_0101, 32);
    assert_eq!(announce(&said(9), long), Ok(vec![1, 2, 3, 4]));
    for used in [10, 12, 13, u32::MAX] {
        assert_eq!(announce(&said(used), long), refused(Refusal::NoRoom), "{used}");
    }
    assert_eq!(announce(&said(11), SHORT), Ok(vec![1, 9, 5, 2]));
    assert_eq!(announce(&said(12), SHORT), refused(Refusal::NoRoom));
    // Where no array is missing the header is not asked.
    assert_eq!(announce(&said(u32::MAX), WHOLE), Ok(vec![1, 9, 5, 12]));
    // The cell comes first, the free arrays last.
    let odd_cell = (5, CELLS + 2, 9);
    assert_eq!(announce(&with(&[(0, 0, 12), odd_cell]), SHORT), astray(Stray::LastBlock, 2));
    let filled = (2, 4, 1);
    assert_eq!(announce(&with(&[(0, 0, 12), filled]), SHORT), refused(Refusal::NoRoom));
    assert_eq!(announce(&with(&[filled]), SHORT), astray(Stray::Filled, 2));
}

#[test]
fn free_arrays_are_blank() {
    for (at, used) in [(1, false), (3, false), (4, true), (2047, true), (2048, true), (2303, true)] {
        let expected = if used { astray(Stray::Filled, 2) } else { Ok(vec![1, 9, 5, 2]) };
        assert_eq!(announce(&with(&[(2, at, 1)]), SHORT), expected, "{at}");
    }
    for (at, used) in [(TOTALS, false), (TOTALS + 1, true), (2815, true), (2816, false), (3071, false)] {
        let expected = if used { astray(Stray::Filled, 2) } else { Ok(vec![1, 9, 5, 2]) };
        assert_eq!(announce(&with(&[(2, at, 1 << 31)]), SHORT), expected, "{at}");
    }
    // Those that are not gained are not looked at.
    assert_eq!(announce(&with(&[(3, 4, 1)]), SHORT), Ok(vec![1, 9, 5, 2]));
    assert_eq!(announce(&with(&[(3, 4, 1)]), (0x0B01_0101, 32)), astray(Stray::Filled, 0));
}

#[test]
fn full_groups_are_passed_over() {
    // Word 1 counts the arrays 1 to 8, word 2 the four after them.
    let long = (0x0B01_0101, 32);
    assert_eq!(announce(&with(&[(0, 1, 8)]), SHORT), Ok(vec![1, 9, 5, 10]));
    assert_eq!(announce(&with(&[(0, 1, 8), (0, 2, 8)]), SHORT), Ok(vec![1, 9, 5, 10]), "the last group is short");
    assert_eq!(announce(&with(&[(0, 1, 8)]), long), astray(Stray::Few, 0), "10 and 11 alone are left");
    for count in [0, 7, 9, u32::MAX] {
        assert_eq!(announce(&with(&[(0, 1, count)]), long), Ok(vec![1, 2, 3, 4]), "{count}");
    }
    // What is passed over need not be blank.
    assert_eq!(announce(&with(&[(0, 1, 8), (2, 4, 1)]), SHORT), Ok(vec![1, 9, 5, 10]));
    // A group of eight is passed over where it is the last too.
    let mut sixteen = lay(&CandidateList::<u32>::default(), 16, &[]);
    sixteen[1] = 8;
    assert_eq!(announce(&sixteen, SHORT), Ok(vec![1, 9, 10, 11]));
    sixteen[2] = 8;
    assert_eq!(announce(&sixteen, SHORT), astray(Stray::Few, 0));
}

#[test]
fn addresses_of_sixteen_bytes() {
    let way = Prefix { address: 0x2001_0db8 << 96 | 1, length: 128 };
    let mut list = RouteList::<u128>::default();
    list.set(way, 1);
    let numbers: Vec<usize> = (2..=16).collect();
    let words = lay(&CandidateList::from(&list), 20, &numbers);
    let own = Candidate { prefix: way, feed: 4, preference: 9, hop: 1 };
    assert_eq!(announce_local(&words, own), Ok((1..=16).collect()));
    assert_eq!(withdraw_local(&words, way, 1), Ok((1..=16).collect()));
    let beside = Prefix { address: way.address ^ 1 << 32, length: 128 };
    assert_eq!(
        announce_local(&words, Candidate { prefix: beside, ..own }),
        Ok([1..=12, 17..=20].into_iter().flatten().collect())
    );
    for level in 0..15 {
        let mut words = words.clone();
        words[ARRAY * (level + 2)] ^= 1;
        assert_eq!(withdraw_local(&words, way, 1), astray(Stray::Tag, level as u32));
    }
}
