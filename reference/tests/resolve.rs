//! The worked cases of docs/EDITS.md, Item 11.

use reference::resolve::{resolve, Entry, Reached};
use reference::{Memory, Refusal};

fn ip(a: u8, b: u8, c: u8, d: u8) -> u32 {
    u32::from_be_bytes([a, b, c, d])
}

fn leaves(interface: u32) -> Entry {
    Entry { interface, gateway: 7 }
}

fn via(gateway: u32) -> Entry {
    Entry { interface: 0, gateway }
}

fn table(routes: &[(u32, u32, u32)]) -> Memory {
    let mut memory = Memory::new(3_072 * 8, None);
    memory.clear().unwrap();
    for &(address, length, hop) in routes {
        memory.announce(address, length, hop, 1, 0).unwrap();
    }
    memory
}

fn resolved(memory: &Memory, entries: &[Entry], address: u32) -> Result<(u32, Option<u32>), Refusal> {
    let hop = |asked| Ok(memory.lookup(asked)?.route.map(|route| route.hop));
    resolve(memory.room().is_ok(), hop, entries, address).map(|Reached { interface, gateway }| (interface, gateway))
}

fn mixed() -> Memory {
    table(&[
        (0, 0, 1),
        (ip(10, 0, 0, 0), 8, 2),
        (ip(10, 1, 0, 0), 16, 3),
        (ip(192, 0, 2, 0), 24, 4),
        (ip(192, 0, 2, 1), 32, 5),
        (ip(203, 0, 113, 0), 24, 300),
    ])
}

fn eights() -> Memory {
    table(&[1, 2, 3, 4, 5].map(|n| (ip(n, 0, 0, 0), 8, u32::from(n))))
}

fn chain(last: u32) -> [Entry; 5] {
    [via(ip(2, 0, 0, 0)), via(ip(3, 0, 0, 0)), via(ip(4, 0, 0, 0)), via(ip(5, 0, 0, 0)), leaves(last)]
}

#[test]
fn none_to_three_gateways() {
    let entries = [leaves(1), via(ip(192, 0, 2, 9)), via(ip(10, 9, 9, 9)), leaves(64), via(ip(10, 1, 0, 1))];
    let (table, last) = (mixed(), Some(ip(192, 0, 2, 9)));
    assert_eq!(resolved(&table, &entries, ip(8, 8, 8, 8)), Ok((1, None)));
    assert_eq!(resolved(&table, &entries, ip(192, 0, 2, 200)), Ok((64, None)));
    assert_eq!(resolved(&table, &entries, ip(10, 9, 9, 9)), Ok((64, last)));
    assert_eq!(resolved(&table, &entries, ip(10, 1, 2, 3)), Ok((64, last)));
    assert_eq!(resolved(&table, &entries, ip(192, 0, 2, 1)), Ok((64, last)));
    assert_eq!(resolved(&table, &entries, ip(203, 0, 113, 1)), Err(Refusal::NoEntry));
}

#[test]
fn loop_ends() {
    let entries = [leaves(1), via(ip(10, 0, 0, 1))];
    assert_eq!(resolved(&mixed(), &entries, ip(10, 0, 0, 1)), Err(Refusal::NoInterface));
}

#[test]
fn out_of_range() {
    let table = eights();
    assert_eq!(resolved(&table, &chain(65), ip(5, 0, 0, 0)), Err(Refusal::NoEntry));
    assert_eq!(resolved(&table, &chain(65), ip(2, 0, 0, 0)), Err(Refusal::NoEntry));
    assert_eq!(resolved(&table, &chain(65), ip(1, 0, 0, 0)), Err(Refusal::NoInterface));
    assert_eq!(resolved(&table, &chain(64), ip(5, 0, 0, 0)), Ok((64, None)));
    assert_eq!(resolved(&table, &chain(64), ip(9, 9, 9, 9)), Err(Refusal::NoRoute));
}

#[test]
fn how_many_entries() {
    let table = eights();
    assert_eq!(resolved(&table, &[leaves(1); 256], ip(1, 0, 0, 0)), Ok((1, None)));
    assert_eq!(resolved(&table, &[leaves(1); 257], ip(1, 0, 0, 0)), Err(Refusal::NoEntry));
    assert_eq!(resolved(&table, &[leaves(1); 257], ip(9, 9, 9, 9)), Err(Refusal::NoEntry));
    assert_eq!(resolved(&Memory::new(3_072, None), &[leaves(1); 257], 0), Err(Refusal::WordCount));
    assert_eq!(resolved(&Memory::new(6_144, None), &[leaves(1); 257], 0), Err(Refusal::NoEntry));
    assert_eq!(resolved(&Memory::new(6_144, None), &[leaves(1); 256], 0), Err(Refusal::NotATable));
}
