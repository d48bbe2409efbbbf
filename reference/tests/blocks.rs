//! The block of an address: the worked cases, and the definition tried on every address of small lists.

use reference::feed::Stop;
use reference::memory::ARRAY_WORDS;
use reference::{Memory, Prefix, RouteList};

/// A cleared table of 7 arrays takes a feed with so many reply bytes. Each line has a record and its reply, in hexadecimal.
fn replied(reply_bytes: usize, lines: &[(&str, &str)]) -> (Stop, usize, usize) {
    let mut memory: Memory = Memory::new(ARRAY_WORDS * 8, None);
    memory.clear().unwrap();
    let (feed, expected): (Vec<_>, Vec<_>) = lines.iter().map(|line| (bytes(line.0), bytes(line.1))).unzip();
    let mut reply = vec![0xEE; reply_bytes];
    let ran = memory.run(&feed.concat(), &mut reply).unwrap();
    assert_eq!(reply[..ran.written], expected.concat());
    assert!(reply[ran.written..].iter().all(|&byte| byte == 0xEE));
    (ran.stop, ran.consumed, ran.written)
}

fn bytes(hex: &str) -> Vec<u8> {
    let digits: Vec<u32> = hex.chars().filter_map(|digit| digit.to_digit(16)).collect();
    digits.chunks(2).map(|pair| (pair[0] * 16 + pair[1]) as u8).collect()
}

#[test]
fn no_route_and_the_default_route() {
    let lines = [
        ("03 00000000", "12 00"),
        ("03 FFFFFFFF", "12 00"),
        ("01 00000000 00 0001", "10 0001 0100"),
        ("03 01020304", "11 0001 00 00"),
        ("00", ""),
    ];
    assert_eq!(replied(4096, &lines), (Stop::End, 24, 14));
}

#[test]
fn boxes_in_boxes() {
    let lines = [
        ("01 0A000000 08 0001", "10 0001 0001"),
        ("01 0A010400 16 0002", "10 0002 0004"),
        ("03 0A010509", "11 0002 16 16"),
        ("03 0A010001", "11 0001 08 16"),
        ("03 0A010800", "11 0001 08 15"),
        ("03 0A020000", "11 0001 08 0F"),
        ("03 0A800000", "11 0001 08 09"),
        ("03 0B000000", "12 08"),
        ("00", ""),
    ];
    assert_eq!(replied(4096, &lines), (Stop::End, 47, 37));
}

#[test]
fn the_last_bits() {
    let lines = [
        ("01 0A000000 20 0001", "10 0001 0001"),
        ("03 0A000000", "11 0001 20 20"),
        ("03 0A000001", "12 20"),
        ("03 0A000002", "12 1F"),
        ("03 0A000080", "12 19"),
        ("03 0A000100", "12 18"),
        ("01 00000000 00 0002", "10 0002 0100"),
        ("03 0A000001", "11 0002 00 20"),
        ("03 FF000000", "11 0002 00 01"),
        ("00", ""),
    ];
    assert_eq!(replied(4096, &lines), (Stop::End, 52, 33));
}

#[test]
fn a_lookup_asks_for_five_free_bytes() {
    let lines = [("03 01010101", "12 00"), ("03 02020202", "12 00"), ("03 03030303 00", "")];
    assert_eq!(replied(8, &lines), (Stop::ReplyFull, 10, 4));
}

/// Numbers that look random.
fn numbers() -> impl Iterator<Item = u64> {
    std::iter::successors(Some(1_u64), |n| Some(n.wrapping_mul(6_364_136_223_846_793_005).wrapping_add(1)))
        .map(|n| n >> 32)
}

/// Routes of at most 6 bits: what an address gets is told by its first 6 bits, so that all of them can be tried.
#[test]
fn the_fewest_bits_with_one_answer() {
    let mut numbers = numbers();
    let mut number = |below: u64| numbers.next().unwrap() % below;
    for routes in (0..120).map(|case| case % 12) {
        let mut list: RouteList = RouteList::default();
        for _ in 0..routes {
            // One hop for several routes: they are still different routes.
            list.set(Prefix::around((number(64) as u32) << 26, number(7) as u32), 1 + number(2) as u32);
        }
        for first in 0..64_u32 {
            let gets = |first: u32| list.longest_match(first << 26).map(|route| route.prefix);
            let same = |q: &u32| (0..64).filter(|n| n >> (6 - q) == first >> (6 - q)).all(|n| gets(n) == gets(first));
            assert_eq!(list.block(first << 26), (0..=6).find(same).unwrap(), "{first} in {list:?}");
        }
    }
}

/// A route counts for its length, or for the bits up to the first where it leaves the address; the greatest is the block.
#[test]
fn the_closed_form() {
    let mut numbers = numbers();
    let mut number = |below: u64| numbers.next().unwrap() % below;
    for routes in 0..60 {
        let mut list: RouteList<u128> = RouteList::default();
        let base = u128::from(number(1 << 32)) << 96 | u128::from(number(1 << 32)) << 40;
        let mut near = |shared: u64| base ^ (1 << (127 - shared)) ^ u128::from(number(1 << 32));
        for n in 0..routes {
            list.set(Prefix::around(near(n * 37 % 128), (n * 53 % 129) as u32), 1);
        }
        for shared in 0..128 {
            let address = near(shared);
            let reach = |p: Prefix<u128>| p.length.min(1 + (p.address ^ address).leading_zeros());
            let greatest = list.routes().iter().map(|route| reach(route.prefix)).max().unwrap_or(0);
            assert_eq!(list.block(address), greatest);
        }
    }
}
