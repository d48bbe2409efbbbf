//! Compressed tables: the worked masks, needs and walks of docs/PACKED.md, built words against the list, and walks on words that
//! are none.

use reference::packed::{build, entry, index, mask, need, trace, walk, Bits, Built, Odd, HEADER};
use reference::{layout, CandidateList, Prefix, Refusal, RouteList};

fn ip(a: u8, b: u8, c: u8, d: u8) -> u32 {
    u32::from_be_bytes([a, b, c, d])
}

/// Prefixes as slots, from their bits.
fn slots(prefixes: &[&str]) -> Vec<usize> {
    let slot = |text: &&str| usize::from_str_radix(&format!("1{}", text.trim_end_matches('x')), 2).unwrap();
    prefixes.iter().map(slot).collect()
}

fn list(routes: &[(u32, u32, u32)]) -> RouteList {
    let mut list = RouteList::default();
    for &(address, length, hop) in routes {
        list.set(Prefix { address, length }, hop);
    }
    list
}

/// A table of seven arrays, whose numbers fall.
fn table(list: &RouteList) -> Vec<u32> {
    layout::lay(&CandidateList::from(list), 7, &[7, 6, 5, 4, 3, 2])
}

fn packed(list: &RouteList) -> Vec<u32> {
    let words = table(list);
    let mut packed = vec![9; need(&words).unwrap()];
    let built = build(&words, &mut packed).unwrap();
    assert_eq!(built, Built { arrays: list.need(), words: packed.len() });
    assert_eq!(packed[..HEADER], [9; HEADER]);
    packed
}

fn needs(routes: &[(u32, u32, u32)]) -> usize {
    need(&table(&list(routes))).unwrap()
}

#[test]
fn prefixes_of_slots() {
    assert_eq!(Bits::of_slot(1), Bits { value: 0, has: 0 });
    assert_eq!(Bits::of_slot(22), Bits { value: 0b0110_0000, has: 0b1111_0000 });
    assert_eq!(Bits::of_slot(376), Bits { value: 0b0111_1000, has: 0b1111_1111 });
    assert!(Bits::of_slot(22).matches(0b0110_1010) && !Bits::of_slot(22).matches(0b0111_1000));
}

#[test]
fn worked_masks() {
    for (prefixes, expected) in [
        (&["0110xxxx", "01111000", "11001101"][..], 0b0011_0000),
        (&["1110xxxx", "11101111"], 0b0000_1111),
        (&["0xxxxxxx", "00xxxxxx", "000xxxxx"], 0b0110_0000),
        (&["0000xxxx", "000001xx"], 0b0000_1100),
        (&["0xxxxxxx", "00000000"], 0b0111_1111),
        (&["01111000"], 0),
        (&[], 0),
    ] {
        assert_eq!(mask(&slots(prefixes)), expected, "{prefixes:?}");
    }
    // A prefix that others cover wholly makes no difference.
    let (with, without) = (slots(&["00xxxxxx", "000xxxxx", "001xxxxx"]), slots(&["000xxxxx", "001xxxxx"]));
    assert_eq!((mask(&with), mask(&without)), (0b0010_0000, 0b0010_0000));
    let all: Vec<usize> = (256..512).collect();
    assert_eq!(mask(&all), 255);
}

#[test]
fn indices() {
    assert_eq!(index(0b0011_0000, 0b0111_1000), 3);
    assert_eq!(index(0b1000_0001, 0b1111_1110), 2);
    assert_eq!((index(255, 200), index(0, 200)), (200, 0));
}

/// By its entry a byte gets the longest prefix that it has, for every mask without collision and not for others.
#[test]
fn the_longest_by_the_entry() {
    let sets =
        [&["0110xxxx", "01111000", "11001101"][..], &["1110xxxx", "11101111"], &["xxxxxxxx", "00xxxxxx", "000xxxxx"]];
    for prefixes in sets {
        let slots = slots(prefixes);
        let bits = |slot: usize| Bits::of_slot(slot);
        let longest = |byte| slots.iter().copied().filter(|&slot| bits(slot).matches(byte)).max();
        for mask in 0..=255 {
            let free = slots.iter().all(|&one| slots.iter().all(|&two| one == two || bits(one).apart(bits(two), mask)));
            let by_entry = |byte| entry(&slots, mask, byte).filter(|&slot| bits(slot).matches(byte));
            let told = (0..=255).all(|byte| by_entry(byte) == longest(byte));
            assert_eq!(told, free, "{prefixes:?} under {mask:08b}");
        }
    }
}

#[test]
fn worked_needs() {
    assert_eq!(needs(&[]), 2_048);
    assert_eq!(needs(&[(0, 0, 1), (ip(10, 0, 0, 0), 8, 2)]), 2_048);
    assert_eq!(needs(&[(ip(10, 0, 0, 0), 9, 1), (ip(10, 0, 0, 0), 16, 2)]), 2_560);
    let feed = [(ip(10, 0, 0, 0), 8, 1), (ip(10, 1, 4, 0), 22, 2), (ip(10, 1, 0, 0), 20, 3)];
    assert_eq!(needs(&feed), 1_024 + 4 * (256 + 1 + 4));
}

/// The link's entry keeps the shorter route's match: what matches nothing below still gets it.
#[test]
fn a_link_inside_a_shorter_route() {
    let words = packed(&list(&[(ip(10, 1, 224, 0), 20, 4), (ip(10, 1, 239, 128), 25, 9)]));
    assert_eq!(words.len(), 1_024 + 4 * (256 + 1 + 16 + 1));
    // The numbers fall from array 10 on, so that the deepest array comes first.
    assert_eq!(words[2_048..2_052], [3, 65_536 + 9, 0, 0]);
    assert_eq!(words[2_052 + 4 * 15..2_116], [256 + 239, 4 * 65_536 + 4, 2_048, 0]);
    assert_eq!(words[2_116..], [257, 0, 2_052, 0b1111]);
    assert_eq!(words[HEADER + 40..HEADER + 44], [266, 0, 2_116, 0]);
    assert_eq!(walk(&words, ip(10, 1, 239, 5)), Ok(Some((4, 20))));
    assert_eq!(walk(&words, ip(10, 1, 239, 200)), Ok(Some((9, 25))));
    assert_eq!(walk(&words, ip(10, 1, 240, 0)), Ok(None));
}

/// Every list of some of these routes: the walk gives the longest match at and beside the ends of all of them.
#[test]
fn all_sublists() {
    let routes = [
        (0, 0, 1),
        (ip(10, 0, 0, 0), 8, 2),
        (ip(10, 0, 0, 0), 9, 3),
        (ip(10, 1, 0, 0), 16, 4),
        (ip(10, 1, 224, 0), 20, 5),
        (ip(10, 1, 239, 0), 24, 6),
        (ip(10, 1, 239, 128), 25, 7),
        (ip(10, 1, 239, 255), 32, 8),
        (ip(11, 0, 0, 0), 12, 9),
    ];
    let ends = |&(address, length, _): &(u32, u32, u32)| {
        let last = Prefix { address, length }.last();
        [address.wrapping_sub(1), address, last, last.wrapping_add(1)]
    };
    for some in 0..1_usize << routes.len() {
        let held: Vec<_> = routes.iter().enumerate().filter(|(at, _)| some >> at & 1 == 1).map(|(_, &r)| r).collect();
        let list = list(&held);
        let words = packed(&list);
        for address in routes.iter().flat_map(ends) {
            let expected = list.longest_match(address).map(|route| (route.hop, route.prefix.length));
            assert_eq!(walk(&words, address), Ok(expected), "{address:08x} of {held:?}");
        }
    }
}

#[test]
fn refusals() {
    let mut words = table(&list(&[(ip(10, 1, 0, 0), 16, 4)]));
    let mut few = vec![7; need(&words).unwrap() - 1];
    assert_eq!(build(&words, &mut few), Err(Refusal::BufferShort));
    assert_eq!(build(&words, &mut []), Err(Refusal::BufferShort));
    assert_eq!(build(&words[1..], &mut []), Err(Refusal::WordCount));
    assert_eq!(need(&words[1..]), Err(Refusal::WordCount));
    words[0] += 1;
    assert_eq!(need(&words), Err(Refusal::NotATable));
    assert_eq!(build(&words, &mut []), Err(Refusal::NotATable));
    assert!(few.iter().all(|&word| word == 7));
}

/// Each word at and past the end of its range.
#[test]
fn walks_on_other_words() {
    let words = packed(&list(&[(ip(10, 1, 239, 128), 25, 9), (ip(10, 1, 0, 0), 16, 4)]));
    let (address, first) = (ip(10, 1, 239, 200), HEADER + 40);
    let with = |at: usize, value| {
        let mut words = words.clone();
        words[at] = value;
        trace(&words, address)
    };
    assert_eq!(with(first, 511), Ok(None));
    assert_eq!(with(first, 512), Err((Odd::Slot, 0)));
    assert_eq!(with(first, 1), Ok(Some((9, 25))));
    assert_eq!(with(first, 0), Ok(None));
    assert_eq!(with(first + 1, 9 * 65_536), Err((Odd::Length, 0)));
    assert_eq!(with(first + 2, 0), Ok(None));
    let end = words.len() as u32;
    assert_eq!(with(first + 2, end - 3), Err((Odd::Place, 1)));
    assert_eq!(with(first + 2, u32::MAX), Err((Odd::Place, 1)));
    assert_eq!(with(first + 3, 256), Err((Odd::Mask, 1)));
    assert_eq!(with(first + 3, u32::MAX), Err((Odd::Mask, 1)));
    // The best match of length 8, and a length without a hop, which finds nothing more.
    assert_eq!(with(first + 1, 8 * 65_536 + 5), Ok(Some((9, 25))));
    assert_eq!(trace(&words[..HEADER + 43], address), Err((Odd::Place, 0)));
    assert_eq!(trace(&[], address), Err((Odd::Place, 0)));
    // An array that is its own: at the last level it leads to no other.
    let mut round = words.clone();
    round[first..first + 4].copy_from_slice(&[1, 3 * 65_536 + 5, first as u32, 0]);
    assert_eq!(trace(&round, address), Err((Odd::Below, 3)));
}
