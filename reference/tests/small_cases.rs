//! The small cases of the rules, the worked feed of docs/FEED.md, and the stops and refusals of the run.

use reference::feed::Stop;
use reference::memory::ARRAY_WORDS;
use reference::{program, Counts, Lookup, Memory, Refusal, Update};

fn table(arrays: usize) -> Memory {
    let mut memory = Memory::new(ARRAY_WORDS * (arrays + 1), None);
    memory.clear().unwrap();
    memory
}

fn ip(a: u8, b: u8, c: u8, d: u8) -> u32 {
    u32::from_be_bytes([a, b, c, d])
}

/// By feed 1 with preference 0, as kinds 1 and 2 do.
fn announce(memory: &mut Memory, address: u32, length: u32, hop: u32) -> Result<Update, Refusal> {
    memory.announce(address, length, hop, 1, 0)
}

fn withdraw(memory: &mut Memory, address: u32, length: u32) -> Result<Update, Refusal> {
    memory.withdraw(address, length, 1)
}

fn cells(update: Result<Update, Refusal>) -> u32 {
    update.unwrap().cells
}

fn arrays(memory: &Memory) -> u32 {
    memory.check().unwrap().arrays
}

#[test]
fn p1_empty_finds_none() {
    assert_eq!(table(7).lookup(0), Ok(Lookup { route: None, block: 0 }));
}

#[test]
fn p2_default_route() {
    let mut memory = table(7);
    assert_eq!(cells(announce(&mut memory, 0, 0, 9)), 256);
    assert_eq!(arrays(&memory), 1);
    let Lookup { route, block } = memory.lookup(u32::MAX).unwrap();
    let route = route.unwrap();
    assert_eq!((route.hop, route.prefix.length, block), (9, 0, 0));
}

#[test]
fn p3_half() {
    assert_eq!(cells(announce(&mut table(7), ip(128, 0, 0, 0), 1, 1)), 128);
}

#[test]
fn p4_p5_shorter_after_longer() {
    let mut memory = table(7);
    announce(&mut memory, ip(10, 0, 0, 0), 8, 1).unwrap();
    assert_eq!(cells(announce(&mut memory.clone(), ip(10, 0, 0, 0), 7, 2)), 1);
    announce(&mut memory, ip(11, 0, 0, 0), 8, 1).unwrap();
    assert_eq!(cells(announce(&mut memory, ip(10, 0, 0, 0), 7, 2)), 0);
}

#[test]
fn p6_p7_four_arrays() {
    let mut memory = table(7);
    assert_eq!(cells(announce(&mut memory, ip(10, 1, 1, 128), 25, 1)), 128);
    assert_eq!(arrays(&memory), 4);
    announce(&mut memory, ip(10, 1, 4, 0), 22, 1).unwrap();
    assert_eq!(arrays(&memory), 4);
}

#[test]
fn p8_one_address() {
    let mut memory = table(7);
    assert_eq!(cells(announce(&mut memory, u32::MAX, 32, 1)), 1);
    assert_eq!(arrays(&memory), 4);
}

#[test]
fn p9_around_a_longer() {
    let mut memory = table(7);
    announce(&mut memory, ip(10, 1, 4, 0), 22, 2).unwrap();
    assert_eq!(cells(announce(&mut memory, ip(10, 1, 0, 0), 20, 3)), 12);
}

#[test]
fn p10_p11_order_of_refusals() {
    assert_eq!(announce(&mut table(7), 0, 33, 0), Err(Refusal::TooLong));
    assert_eq!(announce(&mut table(7), ip(10, 0, 0, 1), 24, 0), Err(Refusal::StrayBit));
    let mut foreign: Memory = Memory::new(6_144, None);
    assert_eq!(announce(&mut foreign, 0, 0, 0), Err(Refusal::HopOutOfRange));
    assert_eq!(announce(&mut foreign, 0, 0, 65_536), Err(Refusal::HopOutOfRange));
    assert_eq!(announce(&mut foreign, 0, 0, 1), Err(Refusal::NotATable));
    assert_eq!(withdraw(&mut foreign, 1, 0), Err(Refusal::StrayBit));
    let mut misfit: Memory = Memory::new(6_143, None);
    assert_eq!(announce(&mut misfit, 0, 33, 0), Err(Refusal::WordCount));
    assert_eq!(withdraw(&mut misfit, 0, 33), Err(Refusal::WordCount));
}

#[test]
fn p12_one_array() {
    let mut memory = table(1);
    assert!(announce(&mut memory, ip(10, 0, 0, 0), 8, 1).is_ok());
    assert_eq!(announce(&mut memory, ip(10, 0, 0, 0), 9, 1), Err(Refusal::NoRoom));
}

#[test]
fn four_arrays_are_used_again() {
    let mut memory = table(4);
    announce(&mut memory, ip(10, 1, 1, 128), 25, 1).unwrap();
    assert_eq!(announce(&mut memory, ip(10, 1, 2, 0), 25, 1), Err(Refusal::NoRoom));
    assert_eq!(withdraw(&mut memory, ip(10, 1, 1, 128), 25), Ok(Update { hop: 1, cells: 128 }));
    assert!(announce(&mut memory, ip(10, 1, 2, 0), 25, 1).is_ok());
}

#[test]
fn a_second_announcement_replaces() {
    let mut memory = table(3);
    announce(&mut memory, ip(10, 1, 0, 0), 20, 1).unwrap();
    announce(&mut memory, ip(10, 1, 4, 0), 22, 2).unwrap();
    assert_eq!(announce(&mut memory, ip(11, 0, 0, 0), 9, 1), Err(Refusal::NoRoom));
    assert_eq!(announce(&mut memory, ip(10, 1, 0, 0), 20, 3), Ok(Update { hop: 3, cells: 12 }));
    assert_eq!(announce(&mut memory, ip(10, 1, 0, 0), 20, 3), Ok(Update { hop: 3, cells: 0 }));
    assert_eq!(announce(&mut memory, ip(10, 1, 0, 0), 20, 0), Err(Refusal::HopOutOfRange));
    let hop = |address| memory.lookup(address).unwrap().route.unwrap().hop;
    assert_eq!((hop(ip(10, 1, 5, 9)), hop(ip(10, 1, 8, 1))), (2, 3));
    assert_eq!(memory.check(), Ok(Counts { routes: 2, arrays: 3 }));
    assert_eq!(withdraw(&mut memory, ip(10, 1, 0, 0), 20), Ok(Update { hop: 3, cells: 12 }));
    assert_eq!(withdraw(&mut memory, ip(10, 1, 0, 0), 20), Err(Refusal::NotHeld));
}

#[test]
fn writing_out() {
    let mut memory = table(7);
    let mut buffer = [0xEE; 24];
    assert_eq!(memory.write_out(&mut buffer[..0]), Err(Refusal::BufferShort));
    assert_eq!(memory.write_out(&mut buffer), Ok(1));
    assert_eq!(buffer[..2], [0, 0xEE]);
    announce(&mut memory, ip(10, 0, 0, 0), 8, 258).unwrap();
    announce(&mut memory, ip(10, 0, 0, 0), 7, 3).unwrap();
    assert_eq!(memory.write_out(&mut buffer[..20]), Err(Refusal::BufferShort));
    assert_eq!(memory.write_out(&mut buffer), Ok(21));
    let list = [4, 10, 0, 0, 0, 7, 0, 3, 1, 0, 4, 10, 0, 0, 0, 8, 1, 2, 1, 0, 0];
    assert_eq!(buffer[..21], list);
    assert_eq!(buffer[21..], [0xEE; 3]);
}

#[test]
fn stops_in_their_order() {
    let stop = |feed: &[u8], room: usize| {
        let ran = table(1).run(feed, &mut vec![0; room]).unwrap();
        (ran.stop, ran.consumed, ran.written)
    };
    assert_eq!(stop(&[], 0), (Stop::NoByteLeft, 0, 0));
    assert_eq!(stop(&[6], 0), (Stop::UnknownKind, 0, 0));
    assert_eq!(stop(&[16, 0, 1, 0, 1], 9), (Stop::UnknownKind, 0, 0));
    assert_eq!(stop(&[3, 0, 0, 0], 0), (Stop::BodyShort, 0, 0));
    assert_eq!(stop(&[4, 0, 0, 0, 0, 0, 0, 1, 1], 0), (Stop::BodyShort, 0, 0));
    assert_eq!(stop(&[5, 0, 0, 0, 0, 0], 0), (Stop::BodyShort, 0, 0));
    assert_eq!(stop(&[4, 0, 0, 0, 0, 0, 0, 1, 1, 0], 4), (Stop::ReplyFull, 0, 0));
    assert_eq!(stop(&[5, 0, 0, 0, 0, 0, 1], 4), (Stop::ReplyFull, 0, 0));
    assert_eq!(stop(&[3, 0, 0, 0, 0], 4), (Stop::ReplyFull, 0, 0));
    assert_eq!(stop(&[3, 0, 0, 0, 0, 0, 9], 5), (Stop::End, 6, 2));
    assert_eq!(stop(&[0, 0], 0), (Stop::End, 1, 0));
    assert_eq!(stop(&[3, 0, 0, 0, 0, 3, 0, 0, 0, 0], 5), (Stop::ReplyFull, 5, 2));
    assert_eq!(Memory::<u32>::new(6_144, None).run(&[0], &mut []), Err(Refusal::NotATable));
    assert_eq!(Memory::<u32>::new(0, None).run(&[0], &mut []), Err(Refusal::WordCount));
}

const EXAMPLE: &str = "01 0A000000 08 0001, 01 0A010400 16 0002, 01 0A010000 14 0003, 03 0A010509, \
                       02 0A010400 16, 03 0A010509, 02 0A010400 17, 03 0B000001, 00";

const EXAMPLE_OUTPUT: &str = "\
announce 10.0.0.0/8 via 1 cells 1
announce 10.1.4.0/22 via 2 cells 4
announce 10.1.0.0/20 via 3 cells 12
lookup 10.1.5.9 via 2 length 22 block 22
withdraw 10.1.4.0/22 via 2 cells 4
lookup 10.1.5.9 via 3 length 20 block 20
withdraw 10.1.4.0/23 refused 7
lookup 11.0.0.1 none block 8
routes 2 arrays 3 accepted 4 refused 1
stopped 0 at 52
";

fn bytes(hex: &str) -> Vec<u8> {
    let digits: Vec<u32> = hex.chars().filter_map(|digit| digit.to_digit(16)).collect();
    digits.chunks(2).map(|pair| (pair[0] * 16 + pair[1]) as u8).collect()
}

#[test]
fn the_example_feed() {
    let feed = bytes(EXAMPLE);
    assert_eq!(feed.len(), 52);
    assert_eq!(program::output::<u32>(&feed), EXAMPLE_OUTPUT);
    let ran = table(3).run(&feed, &mut [0; 4096]).unwrap();
    assert_eq!((ran.written, ran.accepted, ran.refused), (34, 4, 1));
}

#[test]
fn inputs_at_the_limit() {
    assert_eq!(program::output::<u32>(&[]), "routes 0 arrays 1 accepted 0 refused 0\nstopped 1 at 0\n");
    assert_eq!(program::output::<u32>(&[9; 4096]), "routes 0 arrays 1 accepted 0 refused 0\nstopped 2 at 0\n");
    assert_eq!(program::output::<u32>(&[0; 4097]), "too long\n");
}
