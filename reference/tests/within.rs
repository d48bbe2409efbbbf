//! How many prefixes lie inside one: the worked cases of both families by the list, and of IPv4 by the walk over words too; the
//! refusals; and totals that no table has.

use std::net::Ipv6Addr;

use reference::layout::{check, lay, within};
use reference::{Candidate, CandidateList, Memory, Prefix, Refusal, RouteList};

/// The words of an array, and where in it the cells and the totals begin.
const ARRAY: usize = 3072;
const CELLS: usize = 2048;
const TOTALS: usize = 2304;

const HELD: [(u32, u32); 8] = [
    (0x0000_0000, 0),
    (0x0A00_0000, 8),
    (0x0A00_0000, 9),
    (0x0A01_0000, 16),
    (0x0A01_0400, 22),
    (0x0A01_0400, 24),
    (0x0A01_0480, 25),
    (0x0B00_0000, 8),
];

fn held() -> CandidateList {
    let mut list = RouteList::default();
    for (address, length) in HELD {
        list.set(Prefix { address, length }, 1);
    }
    CandidateList::from(&list)
}

/// 10/8 is array 5, 10.1/16 is 2 and 10.1.4/24 is 7.
fn words() -> Vec<u32> {
    lay(&held(), 7, &[5, 2, 7])
}

fn inside(expected: &[(u32, u32, u32)]) {
    let words = words();
    let memory = Memory::new(words.len(), Some(held()));
    for &(address, length, count) in expected {
        assert_eq!(memory.within(address, length), Ok(count), "{address:08x}/{length}");
        assert_eq!(within(&words, address, length), Ok(count), "{address:08x}/{length}");
    }
}

#[test]
fn on_every_level() {
    let above = [(0x0A00_0000, 7, 7), (0, 1, 7), (0x8000_0000, 1, 0), (0x0C00_0000, 8, 0), (0, 0, 8)];
    let level_1 = [(0x0A00_0000, 9, 5), (0x0A80_0000, 9, 0), (0x0A01_0000, 16, 4), (0x0B00_0000, 9, 0)];
    let level_2 = [(0x0A01_0400, 22, 3), (0x0A01_0400, 24, 2), (0x0A01_0500, 24, 0), (0x0C01_0100, 24, 0)];
    let level_3 = [(0x0A01_0400, 25, 0), (0x0A01_0480, 25, 1), (0x0A01_0480, 26, 0), (0x0A01_0480, 32, 0)];
    let missing = [(0x0A02_0000, 32, 0), (0x0A00_0000, 8, 6), (0x0B00_0000, 8, 1)];
    [&above[..], &level_1, &level_2, &level_3, &missing].into_iter().for_each(inside);
}

#[test]
fn prefixes_and_not_candidates() {
    let mut memory: Memory = Memory::new(ARRAY * 3, Some(CandidateList::default()));
    for (length, feed) in [(8, 1), (8, 2), (9, 4)] {
        memory.announce(0x0A00_0000, length, 1, feed, 0).unwrap();
    }
    assert_eq!((memory.within(0, 0), memory.check().unwrap().routes), (Ok(2), 3));
    let words = lay(memory.list().unwrap(), 2, &[2]);
    assert_eq!((within(&words, 0_u32, 0), check::<u32>(&words)), (Ok(2), memory.check()));
}

#[test]
fn addresses_of_sixteen_bytes() {
    let address = |text: &str| u128::from(text.parse::<Ipv6Addr>().unwrap());
    let routes = [("::", 0), ("2001:db8::", 32), ("2001:db8:0:1::", 64), ("2001:db8::1", 128)];
    let candidate = |(text, length)| Candidate {
        prefix: Prefix { address: address(text), length },
        feed: 1,
        preference: 0,
        hop: 1,
    };
    let memory = Memory::new(ARRAY * 4, Some(routes.map(candidate).to_vec().into()));
    let expected =
        [("::", 0, 4), ("2000::", 3, 3), ("2001:db8::", 32, 3), ("2001:db8::", 33, 2), ("2001:db8::", 64, 1)];
    for (text, length, count) in [&expected[..], &[("2001:db8::", 128, 0), ("2001:db8::1", 128, 1)]].concat() {
        assert_eq!(memory.within(address(text), length), Ok(count), "{text}/{length}");
    }
    assert_eq!(memory.within(0, 129), Err(Refusal::TooLong));
}

#[test]
fn refusals_in_their_order() {
    let foreign = vec![u32::MAX; ARRAY * 2];
    for (words, address, length, refusal) in [
        (&foreign[1..], 1_u32, 33, Refusal::WordCount),
        (&foreign, 1, 33, Refusal::TooLong),
        (&foreign, 1, u32::MAX, Refusal::TooLong),
        (&foreign, 1, 31, Refusal::StrayBit),
        (&foreign, 1, 0, Refusal::StrayBit),
        (&foreign, 1, 32, Refusal::NotATable),
        (&foreign, 0, 0, Refusal::NotATable),
    ] {
        assert_eq!(within(words, address, length), Err(refusal), "{address}/{length}");
        assert_eq!(Memory::new(words.len(), None).within(address, length), Err(refusal), "{address}/{length}");
    }
}

/// The walk to 10.1.4.128/25 with one word changed, by its array and place.
fn with(array: usize, at: usize, word: u32) -> Result<u32, Refusal> {
    let mut words = words();
    words[ARRAY * array + at] = word;
    within(&words, 0x0A01_0480_u32, 25)
}

#[test]
fn the_walk_of_any_link_and_total() {
    for (array, cell) in [(1, 10), (5, 1), (2, 4)] {
        // No link, whatever length, hop and block stand there; then links to arrays that are and that are not.
        assert_eq!(with(array, CELLS + cell, (1 << 28) - 1), Ok(0));
        assert_eq!(with(array, CELLS + cell, 1 << 28 | 7), Err(Refusal::NotATable));
        assert_eq!(with(array, CELLS + cell, u32::MAX), Err(Refusal::NotATable));
        assert_eq!(with(array, CELLS + cell, 15 << 28 | 2), Ok(0), "array 3 is free");
    }
    assert_eq!(with(2, CELLS + 4, 15 << 28 | 65_535 << 12 | 6), Ok(1), "a length over 8 beside the link");
    assert_eq!(with(2, CELLS + 4, 1 << 28), Ok(0), "the root, whose slot 3 is 128/1");
    for (total, told) in
        [(0, Ok(0)), (3_577, Ok(3_577)), (3_578, Err(Refusal::NotATable)), (u32::MAX, Err(Refusal::NotATable))]
    {
        assert_eq!(with(7, TOTALS + 3, total), told, "{total}");
        assert_eq!(with(1, TOTALS + 1, total), Ok(1), "{total} is not met");
    }
}

#[test]
fn a_table_has_right_totals() {
    let seen = check::<u32>(&words());
    assert!(seen.is_ok());
    for (array, slot) in [(1, 1), (1, 2), (1, 255), (1, 256 + 10), (5, 1), (2, 511), (7, 3), (3, 1), (4, 511)] {
        for by in [1, u32::MAX, 1 << 31] {
            let mut words = words();
            let total = &mut words[ARRAY * array + TOTALS + slot];
            *total = total.wrapping_add(by);
            assert_eq!(check::<u32>(&words), Err(Refusal::NotATable), "slot {slot} of array {array}");
        }
    }
}

/// Two halves that say 2^32 in all: as words the sum would be what stands above them.
#[test]
fn sums_do_not_wrap() {
    let mut words = lay(&CandidateList::<u32>::default(), 1, &[]);
    words[ARRAY + TOTALS + 2] = 1 << 31;
    words[ARRAY + TOTALS + 3] = 1 << 31;
    assert_eq!(check::<u32>(&words), Err(Refusal::NotATable));
}
