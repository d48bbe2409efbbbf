//! The reading of docs/COPY.md, on cases worked by hand: ways, markers and need, bytes that are a list or just not, a
//! copy laid out word by word, and each number that the walk refuses.

use reference::copy::{build, header, kept, listed, markers, need, stands, turns, walk, Built};
use reference::{Prefix, Refusal, RouteList};

const NO: Refusal = Refusal::NotATable;

fn list(routes: &[(u32, u32, u32)]) -> RouteList {
    let mut list = RouteList::default();
    for &(address, length, hop) in routes {
        assert_eq!(list.set(Prefix { address, length }, hop), None);
    }
    list
}

#[test]
fn ways_turn_longer() {
    let ways: [(u32, &[u32]); 14] = [
        (0, &[]),
        (1, &[]),
        (3, &[2]),
        (8, &[]),
        (9, &[8]),
        (12, &[8]),
        (15, &[8, 12, 14]),
        (16, &[]),
        (17, &[16]),
        (22, &[16, 20]),
        (23, &[16, 20, 22]),
        (24, &[16]),
        (31, &[16, 24, 28, 30]),
        (32, &[16, 24, 28, 30, 31]),
    ];
    for (length, expected) in ways {
        assert_eq!(turns(length), expected, "{length}");
    }
}

#[test]
fn markers_are_counted_once_and_no_routes() {
    let count = |routes: &[(u32, u32, u32)]| markers(&list(routes)).len();
    assert_eq!(count(&[]), 0);
    assert_eq!(count(&[(0, 0, 1)]), 0);
    assert_eq!(count(&[(0x0A01_0200, 24, 1)]), 1);
    assert_eq!(count(&[(0x0A01_0200, 23, 1)]), 3);
    assert_eq!(count(&[(u32::MAX, 32, 1)]), 5);
    // two routes with one head, and with two
    assert_eq!(count(&[(0x0A01_0200, 24, 1), (0x0A01_0300, 24, 1)]), 1);
    assert_eq!(count(&[(0x0A01_0200, 24, 1), (0x0A02_0300, 24, 1)]), 2);
    // the same bits at two lengths are two heads
    assert_eq!(count(&[(0, 9, 1), (0, 17, 1)]), 2);
    // 10.1.0.0/16 is a route
    assert_eq!(count(&[(0x0A01_0000, 16, 1), (0x0A01_0200, 23, 1)]), 2);
}

#[test]
fn need_in_words() {
    let words = |routes: &[(u32, u32, u32)]| need(&list(routes).encoding());
    assert_eq!(words(&[]), Ok(1_024));
    assert_eq!(words(&[(0, 0, 65_535)]), Ok(1_032));
    assert_eq!(words(&[(0x0A01_0200, 23, 1)]), Ok(8 * 4 + 1_024));
    assert_eq!(words(&[(u32::MAX, 32, 1)]), Ok(8 * 6 + 1_024));
    let bytes = list(&[(0x0A01_0200, 23, 1)]).encoding();
    assert_eq!(build(&bytes, 1_055), Err(Refusal::BufferShort));
    assert_eq!(build(&bytes, 1_056), Ok(Built { routes: 1, markers: 3 }));
    assert_eq!(build(&bytes[1..], 0), Err(NO));
}

#[test]
fn bytes_that_are_a_list() {
    assert_eq!(listed(&[0]), Ok(RouteList::default()));
    let one = [1, 10, 0, 0, 0, 8, 1, 2];
    assert_eq!(listed(&[&one[..], &[0]].concat()), Ok(list(&[(0x0A00_0000, 8, 258)])));
    let shorter = [1, 10, 0, 0, 0, 7, 1, 2];
    let lower = [1, 9, 255, 255, 255, 32, 1, 2];
    let ordered = [&lower[..], &shorter, &one, &[0]].concat();
    assert_eq!(listed(&ordered).map(|list| list.routes().len()), Ok(3));
    for records in [[one, shorter], [shorter, lower], [one, one], [one, [1, 10, 0, 0, 0, 8, 1, 3]]] {
        assert_eq!(listed(&[&records.concat()[..], &[0]].concat()), Err(NO), "{records:?}");
    }
}

#[test]
fn bytes_that_are_none() {
    let one = [1, 10, 0, 0, 0, 8, 0, 1];
    for bytes in [&[][..], &[1], &[2], &[0, 0], &one, &one[..7]] {
        assert_eq!(listed(bytes), Err(NO), "{bytes:?}");
    }
    let ends: [&[u8]; 5] = [&[0, 0], &[1], &[3], &[0, 1, 10, 0, 0, 0, 8, 0, 1, 0], &[2, 10, 0, 0, 0, 8, 0]];
    for end in ends {
        assert_eq!(listed(&[&one[..], end].concat()), Err(NO), "{end:?}");
    }
    let changed = |at: usize, byte| {
        let mut bytes = [&one[..], &[0]].concat();
        bytes[at] = byte;
        listed(&bytes).is_ok()
    };
    // kind, stray bits, lengths and the hop 0
    for (at, byte) in [(0, 0), (0, 2), (0, 3), (4, 1), (5, 6), (5, 0), (5, 33), (5, 255), (7, 0), (8, 1)] {
        assert!(!changed(at, byte), "{at} {byte}");
    }
    for (at, byte) in [(1, 11), (4, 0), (5, 7), (5, 9), (5, 32), (6, 255), (7, 255)] {
        assert!(changed(at, byte), "{at} {byte}");
    }
}

/// A kind 4 record.
fn by_feed(address: u32, length: u8, hop: u16, feed: u8, preference: u8) -> Vec<u8> {
    [&[4][..], &address.to_be_bytes(), &[length], &hop.to_be_bytes(), &[feed, preference]].concat()
}

fn ended(records: &[&[u8]]) -> Vec<u8> {
    [&records.concat()[..], &[0]].concat()
}

const TEN_8: u32 = 0x0A00_0000;

#[test]
fn a_list_of_candidates_is_its_winners() {
    let one = by_feed(TEN_8, 8, 5, 1, 10);
    let two = by_feed(TEN_8, 8, 6, 2, 5);
    let four = by_feed(TEN_8, 8, 7, 4, 5);
    let longer = by_feed(0x0A01_0200, 24, 8, 3, 255);
    let of = |records: &[&[u8]]| listed(&ended(records));
    assert_eq!(of(&[&one]), Ok(list(&[(TEN_8, 8, 5)])));
    assert_eq!(of(&[&one, &two]), Ok(list(&[(TEN_8, 8, 6)])));
    assert_eq!(of(&[&one, &two, &four, &longer]), Ok(list(&[(TEN_8, 8, 6), (0x0A01_0200, 24, 8)])));
    // One route a prefix is needed and counted: the /24 has a marker of 16 bits.
    let bytes = ended(&[&one, &two, &four, &longer]);
    assert_eq!(need(&bytes), Ok(8 * 3 + 1_024));
    assert_eq!(build(&bytes, 1_048), Ok(Built { routes: 2, markers: 1 }));
    assert_eq!(build(&bytes, 1_047), Err(Refusal::BufferShort));
}

#[test]
fn lists_of_candidates_that_are_none() {
    let (one, two) = (by_feed(TEN_8, 8, 5, 1, 10), by_feed(TEN_8, 8, 6, 2, 5));
    let (nine, longer) = (by_feed(0x0900_0000, 8, 5, 4, 0), by_feed(TEN_8, 9, 5, 1, 0));
    assert!(listed(&ended(&[&nine, &one, &two, &longer])).is_ok());
    let plain = [1, 11, 0, 0, 0, 8, 0, 1];
    let before = [1, 9, 0, 0, 0, 8, 0, 1];
    // Out of order by feed, length or address, doubled, and of both kinds.
    let orders: [&[&[u8]]; 7] = [
        &[&two, &one],
        &[&longer, &one],
        &[&one, &nine],
        &[&one, &one],
        &[&one, &plain],
        &[&before, &one],
        &[&plain, &one],
    ];
    for records in orders {
        assert_eq!(listed(&ended(records)), Err(NO), "{records:?}");
    }
    // Five of one kind are as many bytes as four of the other.
    let mixed = [&[plain; 5].concat()[..], &one].concat();
    assert_eq!(listed(&ended(&[&mixed])), Err(NO));
    let changed = |at: usize, byte| {
        let mut bytes = ended(&[&one]);
        bytes[at] = byte;
        listed(&bytes).is_ok()
    };
    for (at, byte) in [(0, 1), (0, 5), (4, 1), (5, 6), (5, 33), (7, 0), (8, 0), (8, 5), (8, 255), (10, 1), (10, 4)] {
        assert!(!changed(at, byte), "{at} {byte}");
    }
    for (at, byte) in [(1, 11), (5, 9), (6, 255), (8, 2), (8, 4), (9, 0), (9, 255)] {
        assert!(changed(at, byte), "{at} {byte}");
    }
    for cut in 0..one.len() + 1 {
        assert_eq!(listed(&ended(&[&one])[..cut]), Err(NO), "{cut}");
    }
    assert_eq!(listed(&ended(&[&one, &[0]])), Err(NO));
}

/// Prefixes and markers count once however many candidates they have.
#[test]
fn need_of_a_list_of_candidates() {
    let heads = |count: u32| (0..count).flat_map(|head| (1..3).map(move |feed| by_feed(head << 16, 17, 1, feed, 0)));
    let list_of = |count: u32| heads(count).chain([vec![0]]).collect::<Vec<_>>().concat();
    assert_eq!(need(&list_of(4_079)), Ok(8 * 2 * 4_079 + 1_024));
    assert_eq!(need(&list_of(4_080)), Ok(8 * 2 * 4_080 + 1_024));
}

/// A route of length 17 for each of so many first 16 bits, from 0.0 on.
fn halves(count: u32) -> Vec<u8> {
    let mut halves = RouteList::default();
    for head in 0..count {
        halves.set(Prefix { address: head << 16, length: 17 }, 1);
    }
    halves.encoding()
}

#[test]
fn lists_of_any_room() {
    // 1, 16 for the first bytes 0 to 15, and 4,079 for the first 16 bits: 4,096, which is as many as a table has
    let most = 4_079;
    for count in [most, most + 1, 65_536] {
        assert_eq!(need(&halves(count)), Ok(8 * 2 * count as usize + 1_024));
    }
}

/// 10.0.0.0/8 via 1, 10.1.0.0/20 via 3 and 10.1.4.0/22 via 2. The marker 10.1.0.0/16 has the /8 as its best match.
fn sample() -> RouteList {
    list(&[(0x0A00_0000, 8, 1), (0x0A01_0400, 22, 2), (0x0A01_0000, 20, 3)])
}

/// What the places of one table have: the key and the best match of each.
type Places<'a> = &'a [(u32, u32)];

/// The key of bits.
fn key(bits: u32) -> u32 {
    u32::MAX - bits
}

/// Puts a table of length m at the end of the words, four places for each entry.
fn push_table(words: &mut Vec<u32>, m: usize, places: Places) {
    words[2 * m] = (words.len() as u32 - 1_024) / 8;
    words[2 * m + 1] = places.len() as u32 / 4;
    words.extend(places.iter().map(|place| place.0));
    words.extend(places.iter().map(|place| place.1));
}

/// Words with a table of one entry for each of these, a length, the entry's place, its bits and its best match; no
/// other length has entries.
fn laid(tables: &[(usize, usize, u32, u32)]) -> Vec<u32> {
    let mut words = vec![0; 1_024];
    for &(m, place, bits, best) in tables {
        let mut places = [(0, 0); 4];
        places[place] = (key(bits), best);
        push_table(&mut words, m, &places);
    }
    words
}

/// Its copy: a table of one entry for the lengths 8, 16, 20, 22. The products of 0xA, 0xA01, 0xA010, 0x28041 are,
/// modulo 2^32, 0x2E2AC13A, 0xC8F8B3B9, 0x8F8B3B90, 0xDC6467F9; among four places their first two bits are the start.
/// So the keys of the entries are the words 1,024, 1,035, 1,042, 1,051, and four on are the best matches.
fn words() -> Vec<u32> {
    laid(&[(8, 0, 0xA, 256 + 8), (16, 3, 0xA01, 256 + 8), (20, 2, 0xA010, 768 + 20), (22, 3, 0x28041, 512 + 22)])
}

/// Sets words of the sample's copy.
fn with(changes: &[(usize, u32)]) -> Vec<u32> {
    let mut words = words();
    for &(at, value) in changes {
        words[at] = value;
    }
    words
}

#[test]
fn the_walk_is_the_longest_match() {
    let (words, list) = (words(), sample());
    let near = |r: &reference::Route| {
        [r.prefix.address.wrapping_sub(1), r.prefix.address, r.prefix.last(), r.prefix.last().wrapping_add(1)]
    };
    for address in list.routes().iter().flat_map(near).chain([0, u32::MAX, 0x0A01_0509]) {
        let longest = list.longest_match(address).map(|route| (route.hop, route.prefix.length));
        assert_eq!(walk(&words, address), Ok(longest), "{address:08x}");
    }
}

#[test]
fn words_that_are_a_copy() {
    let of = |changes: &[(usize, u32)]| stands(&sample(), &with(changes));
    assert!(of(&[]));
    assert!(!stands(&sample(), &words()[..1_055]));
    assert!(!stands(&RouteList::default(), &words()));
    let past: Vec<u32> = words().into_iter().chain([7, 7, 7]).collect();
    assert!(stands(&sample(), &past));
    // words without a use, the best match of a free place, and an empty table anywhere past the header
    assert!(of(&[(1, 9), (66, 9), (1_023, 9), (1_029, 9), (2, 4)]));
    for change in [(0, 256), (2, 5), (2, 1 << 29), (2, u32::MAX), (2 * 32 + 1, 5), (2 * 32 + 1, 1 << 29)] {
        assert!(!of(&[change]), "{change:?}");
    }
    // a table that lies inside the words, but not inside those needed
    let (mut past, needed) = (with(&[(2, 4)]), 4);
    past.extend([0; 8]);
    assert!(stands(&sample(), &past));
    past[2] = needed + 1;
    assert!(!stands(&sample(), &past));
    // the /8's place: free, other bits, another best match, none
    for change in [(1_024, 0), (1_024, key(11)), (1_028, 512 + 8), (1_028, 0)] {
        assert!(!of(&[change]), "{change:?}");
    }
    // the marker without its best match
    assert!(!of(&[(1_039, 0)]));
}

#[test]
fn an_entry_stands_where_its_probe_meets_it() {
    let of = |changes: &[(usize, u32)]| stands(&sample(), &with(changes));
    // at another place an entry is found only if those before it are taken
    assert!(!of(&[(1_024, 0), (1_025, key(10)), (1_029, 256 + 8)]));
    assert!(of(&[(1_024, key(10)), (1_025, key(10)), (1_029, 7)]));
    // 11's product is 0xCC623AF3: an entry too many at the last place, and at the others one that no probe meets
    assert!(!of(&[(1_027, key(11))]));
    assert!(of(&[(1_025, key(11)), (1_026, key(11))]));
    assert!(of(&[(1_024, key(11)), (1_025, key(10)), (1_029, 256 + 8)]));
}

/// 255.255.255.255/32 via 7 and its copy. The products of the ones of 16, 24, 28, 30, 31, 32 bits begin with 0xD, 0x1,
/// 0xF, 0xA, 0xE, 0x6. Of length 32 its key, word 1,065, is 0; its best match is word 1,069.
fn last_address() -> (RouteList, Vec<u32>) {
    let markers = [(16, 3), (24, 0), (28, 3), (30, 2), (31, 3)].map(|(m, place)| (m, place, u32::MAX >> (32 - m), 0));
    let tables = [&markers[..], &[(32, 1, u32::MAX, 7 * 256 + 32)]].concat();
    (list(&[(u32::MAX, 32, 7)]), laid(&tables))
}

#[test]
fn the_last_address_has_the_key_of_a_free_place() {
    let (list, words) = last_address();
    assert_eq!((words.len(), words[1_065]), (1_072, 0));
    assert!(stands(&list, &words));
    assert_eq!(walk(&words, u32::MAX), Ok(Some((7, 32))));
    assert_eq!(walk(&words, u32::MAX - 1), Ok(None));
    let with = |at: usize, word| {
        let mut words = words.clone();
        words[at] = word;
        words
    };
    // without a best match its place is free
    assert!(!stands(&list, &with(1_069, 0)));
    assert_eq!(walk(&with(1_069, 0), u32::MAX), Ok(None));
    // other places with a best match are the same entry once more, which its probe does not meet
    for at in [1_068, 1_070, 1_071] {
        assert!(stands(&list, &with(at, 9)), "{at}");
    }
    // of length 31 and shorter the key 0 is no entry's, whatever the best match
    assert!(stands(&list, &with(1_024 + 4, 9)));
    assert!(!stands(&list, &with(1_024 + 3, 0)));
}

#[test]
fn a_free_place_of_length_32_has_no_best_match() {
    // the products of the heads of 0 are 0
    let tables = [16, 24, 28, 30, 31].map(|m| (m, 0, 0, 0));
    let words = laid(&[&tables[..], &[(32, 0, 0, 256 + 32)]].concat());
    let of = |at: usize| {
        let mut words = words.clone();
        words[at] = 9;
        stands(&list(&[(0, 32, 1)]), &words)
    };
    assert!(stands(&list(&[(0, 32, 1)]), &words));
    // 255.255.255.255 would be found at the second place, where its probe begins, and is not at the third
    assert!(!of(1_064 + 4 + 1));
    assert!(of(1_064 + 4 + 2));
}

#[test]
fn words_that_a_build_leaves() {
    let kept_of = |list: &RouteList, words| kept(list, words).into_iter().filter(|&at| at >= 1_024).collect::<Vec<_>>();
    assert_eq!(kept_of(&sample(), 1_056), []);
    assert_eq!(kept_of(&sample(), 1_058), [1_056, 1_057]);
    let default = list(&[(0, 0, 1)]);
    assert_eq!(kept_of(&default, 1_032), (1_024..1_032).collect::<Vec<_>>());
    // of the header all but the default's and two for each length
    assert_eq!(kept(&default, 1_032), [1].into_iter().chain(66..1_032).collect::<Vec<_>>());
}

/// The entries of all shorter lengths, and the length's own: one each of 8, 16, 20 and 22 here.
#[test]
fn the_header_of_a_build() {
    let lengths = [8, 16, 20, 22];
    let number = |m: u32| lengths.iter().filter(|&&length| length < m).count() as u32;
    let two = |m: u32| [(2 * m as usize, number(m)), (2 * m as usize + 1, number(m + 1) - number(m))];
    assert_eq!(header(&sample()), (1..=32).flat_map(two).collect::<Vec<_>>());
    // the default route has no table
    assert!(header(&list(&[(0, 0, 1)])).iter().all(|word| word.1 == 0));
}

const TEN: u32 = 0x0A01_0509;
/// An address that the sample has no route for.
const ELEVEN: u32 = 0x0B00_0000;

/// Words that are no best match: no hop, lengths over 32, hops over 65,535.
const NO_BESTS: [u32; 8] = [1, 32, 255, 256 + 33, 256 + 255, 1 << 24, (1 << 24) + 256, u32::MAX];

#[test]
fn the_walks_refusals() {
    let at = |changes: &[(usize, u32)]| walk(&with(changes), TEN);
    assert_eq!(at(&[]), Ok(Some((2, 22))));
    assert_eq!(walk(&words()[..1_023], TEN), Err(NO));
    assert_eq!(walk(&[], TEN), Err(NO));
    // tables without entries lie inside any words, after the header
    assert_eq!([1_023, 1_024].map(|count| walk(&vec![0; count], TEN)), [Err(NO), Ok(None)]);
    // the tables of 16, 24, 20, 22 and 23 are looked into, that of 18 is not
    for m in [16, 24, 20, 22, 23] {
        // eight times the middle ones is 0 or 8 modulo 2^32
        for before in [5, 1 << 29, (1 << 29) + 1, 1 << 30, 1 << 31, u32::MAX - 7, u32::MAX] {
            assert_eq!(at(&[(2 * m, before)]), Err(NO), "{m} {before}");
        }
        // eight times the last four is 0 or 8 modulo 2^32
        for entries in [5, u32::MAX, 1 << 28, 1 << 29, (1 << 29) + 1, 1 << 30, 1 << 31] {
            assert_eq!(at(&[(2 * m + 1, entries)]), Err(NO), "{m} {entries}");
        }
        // both together are 2^32, or 2^32 words
        assert_eq!(at(&[(2 * m, u32::MAX), (2 * m + 1, 1)]), Err(NO), "{m}");
        assert_eq!(at(&[(2 * m, (1 << 29) - 1), (2 * m + 1, 1)]), Err(NO), "{m}");
    }
    assert_eq!(at(&[(2 * 18, u32::MAX), (2 * 18 + 1, u32::MAX)]), Ok(Some((2, 22))));
}

#[test]
fn a_table_ends_by_the_end_of_the_words() {
    let at = |before, entries| walk(&with(&[(2 * 24, before), (2 * 24 + 1, entries)]), TEN);
    for (before, entries) in [(4, 0), (3, 1), (0, 4), (0, 0), (2, 2)] {
        assert_eq!(at(before, entries), Ok(Some((2, 22))), "{before} {entries}");
    }
    for (before, entries) in [(5, 0), (4, 1), (1, 4), (0, 5), (u32::MAX, 0)] {
        assert_eq!(at(before, entries), Err(NO), "{before} {entries}");
    }
}

#[test]
fn the_best_match_that_the_search_ends_with_is_in_range() {
    let last = |best| walk(&with(&[(1_055, best)]), TEN);
    let default = |best| walk(&with(&[(0, best)]), ELEVEN);
    for best in NO_BESTS {
        assert_eq!((last(best), default(best)), (Err(NO), Err(NO)), "{best}");
    }
    // any length up to 32, at the table of 22 and at the default route too
    for (hop, length) in [(1, 0), (1, 22), (1, 23), (1, 32), (65_535, 0), (65_535, 32)] {
        let (best, found) = (256 * hop + length, Ok(Some((hop, length))));
        assert_eq!((last(best), default(best)), (found, found), "{best}");
    }
    assert_eq!((last(0), default(0)), (Ok(None), Ok(None)));
    // what is passed over is anything: the default, and the best matches of the marker and of the /20
    for best in NO_BESTS.into_iter().chain([0, 256, 256 + 17]) {
        for passed in [0, 1_039, 1_046] {
            assert_eq!(walk(&with(&[(passed, best)]), TEN), Ok(Some((2, 22))), "{passed} {best}");
        }
    }
}

#[test]
fn a_hit_takes_the_place_of_what_is_carried() {
    let at = |changes: &[(usize, u32)], address| walk(&with(changes), address);
    assert_eq!(at(&[(0, 5 * 256)], ELEVEN), Ok(Some((5, 0))));
    assert_eq!(at(&[(0, 5 * 256), (1_028, 0)], 0x0A02_0000), Ok(None));
    // a miss at 16 goes to 8, and the /20 is not looked for
    assert_eq!(at(&[(1_035, 0)], TEN), Ok(Some((1, 8))));
}

/// The walk for the last address with a table of length 1 at the end; the way comes to 1 by misses.
fn of_one_bit(places: Places) -> Result<Option<(u32, u32)>, Refusal> {
    let mut words = words();
    push_table(&mut words, 1, places);
    walk(&words, u32::MAX)
}

const FREE: (u32, u32) = (0, 257);
/// Of bits that are not looked for, with what is no best match.
const OTHER: (u32, u32) = (u32::MAX - 3, 1);
const ONE: (u32, u32) = (u32::MAX - 1, 769);

/// The product of 1 is 0x9E3779B9, so of four places its probe begins at the third.
#[test]
fn a_probe_goes_round_the_end() {
    let found = |places: [(u32, u32); 4]| of_one_bit(&places);
    assert_eq!(found([FREE, FREE, ONE, FREE]), Ok(Some((3, 1))));
    assert_eq!(found([FREE, FREE, OTHER, ONE]), Ok(Some((3, 1))));
    assert_eq!(found([ONE, FREE, OTHER, OTHER]), Ok(Some((3, 1))));
    assert_eq!(found([OTHER, ONE, OTHER, OTHER]), Ok(Some((3, 1))));
    assert_eq!(found([FREE, ONE, OTHER, OTHER]), Ok(None));
    assert_eq!(found([OTHER, OTHER, OTHER, OTHER]), Ok(None));
    assert_eq!(found([ONE, ONE, FREE, ONE]), Ok(None));
    // the first of two that it meets
    assert_eq!(found([(key(1), 5 * 256), OTHER, OTHER, ONE]), Ok(Some((3, 1))));
    // a key of no bits of this length is that of others too
    assert_eq!(found([FREE, FREE, (1, 257), ONE]), Ok(Some((3, 1))));
}

/// 0x9E3779B9 is 0.618 of 2^32: of 8, 12, 20 and 400 places it is 4.9, 7.4, 12.4 and 247.2.
#[test]
fn a_probe_begins_at_its_share_of_the_places() {
    for (count, start) in [(8, 4), (12, 7), (20, 12), (400, 247)] {
        let only_at = |place: usize| {
            let mut places = vec![FREE; count];
            places[place] = ONE;
            of_one_bit(&places)
        };
        let found: Vec<usize> = (0..count).filter(|&place| only_at(place) == Ok(Some((3, 1)))).collect();
        assert_eq!(found, [start], "{count}");
    }
}

/// Words whose tables on the way to 32 have the last address's bits at all their places; the other tables are empty.
/// The best matches at length m are hop and length m.
fn ones() -> Vec<u32> {
    let mut words = laid(&[]);
    for m in [16, 24, 28, 30, 31, 32] {
        push_table(&mut words, m, &[(key(u32::MAX >> (32 - m)), 257 * m as u32); 4]);
    }
    words
}

#[test]
fn a_hit_at_31_tries_32() {
    let mut words = ones();
    assert_eq!(walk(&words, u32::MAX), Ok(Some((32, 32))));
    assert_eq!(walk(&words, u32::MAX - 1), Ok(Some((31, 31))));
    words[2 * 31 + 1] = 0;
    assert_eq!(walk(&words, u32::MAX), Ok(Some((30, 30))));
}

/// The walks for 255.255.255.255 and the address before it, with these places at length m. Of length 32 their probes
/// begin at the second and the last of four.
fn last_two(m: usize, places: [(u32, u32); 4]) -> [Result<Option<(u32, u32)>, Refusal>; 2] {
    let mut words = ones();
    push_table(&mut words, m, &places);
    [u32::MAX, u32::MAX - 1].map(|address| walk(&words, address))
}

#[test]
fn a_key_of_0_at_length_32() {
    let (free, last, before) = ((0, 0), (0, 7 * 256 + 32), (1, 8 * 256 + 32));
    let (seven, eight, no) = (Ok(Some((7, 32))), Ok(Some((8, 32))), Ok(Some((31, 31))));
    assert_eq!(last_two(32, [free; 4]), [no, no]);
    assert_eq!(last_two(32, [free, last, free, before]), [seven, eight]);
    // with a best match it is passed over by the probe for others, without one that ends there
    assert_eq!(last_two(32, [before, last, free, last]), [seven, eight]);
    assert_eq!(last_two(32, [before, last, free, free]), [seven, no]);
    assert_eq!(last_two(32, [before, free, last, last]), [no, eight]);
    assert_eq!(last_two(32, [last, before, before, before]), [seven, eight]);
    // what is no best match is not 0 either
    assert_eq!(last_two(32, [before, (0, 5), free, (0, u32::MAX)]), [Err(NO), eight]);
}

#[test]
fn a_key_of_0_at_a_shorter_length() {
    // The probe for the ones of 31 bits begins at the last place.
    let (no_entry, ones) = ((0, 7 * 256 + 31), (key(u32::MAX >> 1), 7 * 256 + 31));
    let thirty = Ok(Some((30, 30)));
    assert_eq!(last_two(31, [no_entry; 4]), [thirty; 2]);
    assert_eq!(last_two(31, [ones, ones, ones, no_entry]), [thirty; 2]);
    assert_eq!(last_two(31, [no_entry, no_entry, no_entry, ones])[1], Ok(Some((7, 31))));
}
