//! How much of an answer may be remembered: worked cases, by single calls and by runs, and words that are no table.

use std::net::Ipv4Addr;

use toggleash::{lookup, replies, words_for, Candidate, Lookup, Match, Record, Refusal, Reply, Stop, Table};

fn table(routes: &[(&str, u32)]) -> Table<Vec<u32>> {
    let mut table = Table::new(vec![0; words_for(7).unwrap()]).unwrap();
    for (prefix, hop) in routes {
        table.announce(prefix.parse().unwrap(), Candidate::via(*hop)).unwrap();
    }
    table
}

fn found(hop: u32, length: u32, block: u32) -> Result<Lookup, Refusal> {
    Ok(Lookup { found: Some(Match { hop, length }), block })
}

fn none(block: u32) -> Result<Lookup, Refusal> {
    Ok(Lookup { found: None, block })
}

/// Looks each address up, and sends the same lookups as one feed.
fn looked_up(table: &mut Table<Vec<u32>>, expected: &[([u8; 4], Result<Lookup, Refusal>)]) {
    for &(address, answer) in expected {
        assert_eq!(table.lookup(address.into()), answer, "{}", Ipv4Addr::from(address));
    }
    let record = |&(address, _): &([u8; 4], _)| Record::Lookup { address: address.into() };
    let feed: Vec<u8> = expected.iter().flat_map(|row| record(row).bytes()).collect();
    let mut reply = vec![0; Reply::MOST * expected.len()];
    let ran = table.run(&feed, &mut reply).unwrap();
    let replied = replies(&reply[..ran.written]).map(|reply| match reply {
        Reply::Found { hop, length, block } => found(hop.into(), length.into(), block.into()),
        Reply::None { block } => none(block.into()),
        other => panic!("{other:?} is no answer of a lookup"),
    });
    assert!(replied.eq(expected.iter().map(|row| row.1)));
}

#[test]
fn no_route_and_the_default_route() {
    looked_up(&mut table(&[]), &[([0; 4], none(0)), ([255; 4], none(0))]);
    looked_up(&mut table(&[("0.0.0.0/0", 1)]), &[([1, 2, 3, 4], found(1, 0, 0))]);
}

#[test]
fn boxes_in_boxes() {
    let expected = [
        ([10, 1, 5, 9], found(2, 22, 22)),
        ([10, 1, 0, 1], found(1, 8, 22)),
        ([10, 1, 8, 0], found(1, 8, 21)),
        ([10, 2, 0, 0], found(1, 8, 15)),
        ([10, 128, 0, 0], found(1, 8, 9)),
        ([11, 0, 0, 0], none(8)),
    ];
    looked_up(&mut table(&[("10.0.0.0/8", 1), ("10.1.4.0/22", 2)]), &expected);
}

#[test]
fn the_last_bits() {
    let expected = [
        ([10, 0, 0, 0], found(1, 32, 32)),
        ([10, 0, 0, 1], none(32)),
        ([10, 0, 0, 2], none(31)),
        ([10, 0, 0, 128], none(25)),
        ([10, 0, 1, 0], none(24)),
    ];
    let mut table = table(&[("10.0.0.0/32", 1)]);
    looked_up(&mut table, &expected);
    table.announce("0.0.0.0/0".parse().unwrap(), Candidate::via(2)).unwrap();
    looked_up(&mut table, &[([10, 0, 0, 1], found(2, 0, 32)), ([255, 0, 0, 0], found(2, 0, 1))]);
}

/// Two halves by one hop are two routes.
#[test]
fn routes_of_one_hop() {
    let mut table = table(&[("0.0.0.0/1", 1), ("128.0.0.0/1", 1)]);
    looked_up(&mut table, &[([0; 4], found(1, 1, 1)), ([255; 4], found(1, 1, 1))]);
}

#[test]
fn a_lookup_asks_for_five_free_bytes() {
    let feed = [3, 1, 1, 1, 1, 3, 2, 2, 2, 2, 3, 3, 3, 3, 3, 0];
    let mut reply = [0xEE; 8];
    let ran = table(&[]).run(&feed, &mut reply).unwrap();
    assert_eq!((ran.stop, ran.consumed, ran.written), (Stop::ReplyFull, 10, 4));
    assert_eq!(reply, [18, 0, 18, 0, 0xEE, 0xEE, 0xEE, 0xEE]);
}

/// One word of a cell on the way to 0.0.0.0, in words that are 0 else: three arrays, of which the first is met.
#[test]
fn cells_that_no_table_has() {
    let ends = |length: u32, hop: u32, block: u32| hop << 12 | length << 4 | block;
    let leads = |length: u32, hop: u32, array: u32| (length + 1) << 28 | hop << 12 | (array - 1);
    let mut words = vec![0; words_for(3).unwrap()];
    let mut with = |cell: u32| {
        words[3_072 + 2_048] = cell;
        lookup(&words, Ipv4Addr::UNSPECIFIED)
    };
    assert_eq!(with(0), none(0));
    assert_eq!(with(ends(8, 0, 8)), none(8));
    assert_eq!(with(ends(8, 65_535, 3)), found(65_535, 8, 3));
    assert_eq!(with(leads(8, 1, 3)), found(1, 8, 8));
    for hop in [0, 1] {
        let lengths = [ends(9, hop, 0), ends(255, hop, 8), leads(9, hop, 3), leads(14, hop, 3)];
        let blocks = [ends(0, hop, 9), ends(8, hop, 15)];
        // The last leads back to itself, level after level.
        let links = [leads(0, hop, 4), leads(8, hop, 4_096), leads(0, hop, 1)];
        for cell in [&lengths[..], &blocks, &links].concat() {
            assert_eq!(with(cell), Err(Refusal::NotATable), "{cell:08x}");
        }
    }
}
