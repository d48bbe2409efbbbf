//! Lists, room and cells over addresses of sixteen bytes: levels 0 to 15, lengths 0 to 128.

use reference::memory::ARRAY_WORDS;
use reference::{Lookup, Memory, Prefix, Refusal, Route, Update};

const NET: u128 = 0x2001_0db8 << 96;

fn table(arrays: usize) -> Memory<u128> {
    let mut memory = Memory::new(ARRAY_WORDS * (arrays + 1), None);
    memory.clear().unwrap();
    memory
}

/// By feed 1 with preference 0.
fn announce(memory: &mut Memory<u128>, address: u128, length: u32, hop: u32) -> Result<Update, Refusal> {
    memory.announce(address, length, hop, 1, 0)
}

fn withdraw(memory: &mut Memory<u128>, address: u128, length: u32) -> Result<Update, Refusal> {
    memory.withdraw(address, length, 1)
}

fn arrays(memory: &Memory<u128>) -> u32 {
    memory.check().unwrap().arrays
}

#[test]
fn a_route_for_one_address_needs_sixteen_arrays() {
    let mut memory = table(16);
    assert_eq!(announce(&mut memory, NET | 1, 128, 5).unwrap().cells, 1);
    assert_eq!(arrays(&memory), 16);
    // One that differs in the last byte belongs to the same array; one that differs in the byte before needs another.
    assert_eq!(announce(&mut memory, NET | 2, 128, 5).unwrap().cells, 1);
    assert_eq!(announce(&mut memory, NET | 256, 128, 5), Err(Refusal::NoRoom));
    assert_eq!(withdraw(&mut memory, NET | 2, 128).unwrap().cells, 1);
    assert_eq!(arrays(&memory), 16);
}

#[test]
fn the_longest_match_is_found_at_every_length() {
    let mut memory = table(16);
    for length in 0..=128 {
        announce(&mut memory, Prefix::around(NET, length).address, length, length + 1).unwrap();
    }
    for length in 0..128 {
        // The address leaves the routes at the bit after this length.
        let address = NET ^ 1 << (127 - length);
        let prefix = Prefix::around(NET, length);
        let route = Some(Route { prefix, hop: length + 1 });
        assert_eq!(memory.lookup(address), Ok(Lookup { route, block: length + 1 }));
    }
    let Lookup { route, block } = memory.lookup(NET).unwrap();
    assert_eq!((route.unwrap().prefix.length, block), (128, 128));
}

#[test]
fn cells_are_those_of_the_last_byte_before_the_length() {
    let mut memory = table(4);
    assert_eq!(announce(&mut memory, 0, 0, 1).unwrap().cells, 256);
    assert_eq!(announce(&mut memory, NET, 31, 1).unwrap().cells, 2);
    assert_eq!(announce(&mut memory, NET, 32, 1).unwrap().cells, 1);
    assert_eq!(announce(&mut memory, NET, 30, 1).unwrap().cells, 2);
    assert_eq!(announce(&mut memory, NET, 29, 1).unwrap().cells, 4);
}

#[test]
fn refusal_3_is_over_128() {
    let mut memory = table(16);
    assert_eq!(announce(&mut memory, 0, 129, 0), Err(Refusal::TooLong));
    assert_eq!(announce(&mut memory, 1, 127, 0), Err(Refusal::StrayBit));
    assert_eq!(announce(&mut memory, 1, 128, 0), Err(Refusal::HopOutOfRange));
    assert_eq!(withdraw(&mut memory, 1, 128), Err(Refusal::NotHeld));
}
