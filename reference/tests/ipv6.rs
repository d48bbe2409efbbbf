//! Feeds, written lists, words and the program's lines of IPv6: the worked cases, the kinds of both families, what a table of one
//! family is to the other, the walk over sixteen levels, and the text of addresses.

use reference::feed::Stop;
use reference::layout::{check, lay, read, walk, within, Cell, End, Walked};
use reference::memory::ARRAY_WORDS;
use reference::{program, rfc5952, Address, Candidate, CandidateList, Counts, Lookup, Memory, Prefix, Ran, Refusal};

fn table<A: Address>(arrays: usize) -> Memory<A> {
    let mut memory = Memory::new(ARRAY_WORDS * (arrays + 1), None);
    memory.clear().unwrap();
    memory
}

fn bytes(hex: &str) -> Vec<u8> {
    let digits: Vec<u32> = hex.chars().filter_map(|digit| digit.to_digit(16)).collect();
    digits.chunks(2).map(|pair| (pair[0] * 16 + pair[1]) as u8).collect()
}

/// A feed on a cleared table, and on the same table laid out: a record and its reply a line, all bytes in hexadecimal.
struct Worked {
    arrays: usize,
    lines: &'static str,
    /// Consumed, written, accepted, refused: the feed ends with an end.
    ran: [usize; 4],
    counts: Counts,
    written: &'static str,
}

impl Worked {
    fn feed(&self) -> Vec<u8> {
        self.lines.lines().flat_map(|line| bytes(line.split("->").next().unwrap())).collect()
    }

    fn holds(&self) -> Memory<u128> {
        let expected: Vec<u8> = self.lines.lines().flat_map(|line| bytes(line.split("->").nth(1).unwrap())).collect();
        let mut memory = table(self.arrays);
        let mut reply = [0xEE; 4096];
        let [consumed, written, accepted, refused] = self.ran;
        let ran = Ran { stop: Stop::End, consumed, written, accepted, refused };
        assert_eq!(memory.run(&self.feed(), &mut reply), Ok(ran));
        assert_eq!(reply[..written], expected);
        assert_eq!(memory.check(), Ok(self.counts));
        self.writes(&memory);
        let numbers: Vec<usize> = (2..=self.arrays).rev().collect();
        assert_eq!(read(&lay(memory.list().unwrap(), self.arrays, &numbers)), memory);
        memory
    }

    /// The list is written out to as many bytes as it has and to no fewer, and gives itself again.
    fn writes(&self, memory: &Memory<u128>) {
        let expected = bytes(self.written);
        let mut buffer = vec![0xEE; expected.len() + 1];
        let short = expected.len() - 1;
        assert_eq!(memory.write_out(&mut buffer[..short]), Err(Refusal::BufferShort));
        assert_eq!(memory.write_out(&mut buffer), Ok(expected.len()));
        assert_eq!(buffer, [&expected[..], &[0xEE]].concat());
        let mut again = table(self.arrays);
        again.run(&expected, &mut [0; 4096]).unwrap();
        assert_eq!(again, *memory);
    }
}

#[test]
fn default_route_and_none() {
    let worked = Worked {
        arrays: 1,
        lines: "08 00000000000000000000000000000001               -> 12 00
                06 00000000000000000000000000000000 00 0001 01 00 -> 10 0001 0100
                08 FFFFFFFFFFFFFFFFFFFFFFFFFFFFFFFF               -> 11 0001 00 00
                06 80000000000000000000000000000000 01 0002 01 00 -> 10 0002 0080
                08 80000000000000000000000000000000               -> 11 0002 01 01
                07 00000000000000000000000000000000 00 01         -> 10 0001 0080
                00                                                ->",
        ran: [115, 27, 3, 0],
        counts: Counts { routes: 1, arrays: 1 },
        written: "06 80000000000000000000000000000000 01 0002 01 00 00",
    };
    worked.holds();
}

#[test]
fn length_128_needs_sixteen_arrays() {
    let worked = Worked {
        arrays: 16,
        lines: "06 FF000000000000000000000000000001 80 0007 04 09 -> 10 0007 0001
                08 FF000000000000000000000000000001               -> 11 0007 80 80
                08 FF000000000000000000000000000000               -> 12 80
                08 FF000000000000000000000000000002               -> 12 7F
                06 FF000000000000000000000000000000 78 0008 01 00 -> 10 0008 0001
                06 FF000000000000000000000000000000 79 0009 01 00 -> 10 0009 007F
                06 FE000000000000000000000000000000 09 0009 01 00 -> 13 08
                00                                                ->",
        ran: [140, 26, 3, 1],
        counts: Counts { routes: 3, arrays: 16 },
        written: "06 FF000000000000000000000000000000 78 0008 01 00
                  06 FF000000000000000000000000000000 79 0009 01 00
                  06 FF000000000000000000000000000001 80 0007 04 09 00",
    };
    worked.holds();
    // With one array fewer the first is refused.
    let one = table::<u128>(15).announce(0xFF << 120 | 1, 128, 7, 4, 9);
    assert_eq!(one, Err(Refusal::NoRoom));
}

#[test]
fn candidates_and_writing_out() {
    let worked = Worked {
        arrays: 3,
        lines: "06 20010000000000000000000000000000 10 0005 02 01 -> 10 0005 0001
                06 20010000000000000000000000000000 10 0006 01 01 -> 10 0006 0001
                06 20000000000000000000000000000000 03 0007 03 00 -> 10 0007 0020
                07 20010000000000000000000000000000 10 01         -> 10 0006 0001
                00                                                ->",
        ran: [86, 20, 4, 0],
        counts: Counts { routes: 2, arrays: 2 },
        written: "06 20000000000000000000000000000000 03 0007 03 00
                  06 20010000000000000000000000000000 10 0005 02 01 00",
    };
    let memory = worked.holds();
    assert_eq!(memory.list().unwrap().encoded_size(), 45);
    let lines = "\
announce 2001::/16 via 5 cells 1
announce 2001::/16 via 6 cells 1
announce 2000::/3 via 7 cells 32
withdraw 2001::/16 via 6 cells 1
routes 2 arrays 2 accepted 4 refused 0
stopped 0 at 86
";
    assert_eq!(program::output::<u128>(&worked.feed()), lines);
}

#[test]
fn feeds_of_both_families() {
    fn stop<A: Address>(feed: &[u8]) -> (u8, usize) {
        let ran = table::<A>(1).run(feed, &mut [0; 9]).unwrap();
        (ran.stop as u8, ran.consumed)
    }
    assert_eq!((stop::<u32>(&[]), stop::<u128>(&[])), ((1, 0), (1, 0)));
    assert_eq!((stop::<u32>(&[0]), stop::<u128>(&[0])), ((0, 1), (0, 1)));
    for kind in 1..=255 {
        let stops = match kind {
            1..=5 => [3, 2],
            6..=8 => [2, 3],
            _ => [2, 2],
        };
        assert_eq!([stop::<u32>(&[kind]), stop::<u128>(&[kind])], stops.map(|stop| (stop, 0)), "{kind}");
    }
    // A kind of the other family stops the run at its record, those before it having been taken; one byte fewer is a short body.
    for (kind, size) in [(6, 22), (7, 19), (8, 17)] {
        let record = [&[kind][..], &vec![0; size - 1]].concat();
        assert_eq!(stop::<u128>(&[&record[..], &[3, 0, 0, 0, 0]].concat()), (2, size));
        assert_eq!(stop::<u128>(&record[..size - 1]), (3, 0));
    }
    assert_eq!(stop::<u32>(&[3, 0, 0, 0, 0, 8]), (2, 5));
}

const NET: u128 = 0x2001_0db8 << 96;

fn candidate(address: u128, length: u32, feed: u32, preference: u8, hop: u32) -> Candidate<u128> {
    Candidate { prefix: Prefix { address, length }, feed, preference, hop }
}

/// Routes on the way to one address, of which one has candidates of all feeds, and one that leaves it on the first level.
fn sample() -> CandidateList<u128> {
    let mut candidates = vec![candidate(0, 0, 1, 0, 65_535), candidate(0xFE << 120, 7, 2, 255, 1)];
    candidates.extend((1..=4).map(|feed| candidate(NET, 32, feed, 9 - feed as u8, 20 + feed)));
    candidates.push(candidate(NET | 0xC000 << 64, 50, 3, 1, 30));
    candidates.push(candidate(NET | 0xABCD << 64, 64, 1, 1, 31));
    candidates.extend([candidate(NET | 1, 128, 1, 0, 40), candidate(NET, 127, 4, 200, 41)]);
    candidates.into()
}

fn words() -> Vec<u32> {
    lay(&sample(), 40, &(2..=40).rev().collect::<Vec<_>>())
}

#[test]
fn laid_out_is_read_again() {
    let words = words();
    assert_eq!(read(&words), Memory::new(words.len(), Some(sample())));
    assert_eq!(check::<u128>(&words), Ok(Counts { routes: 10, arrays: 17 }));
    for at in (0..words.len()).step_by(1_531) {
        let mut other = words.clone();
        other[at] ^= 1;
        let unused = at >= ARRAY_WORDS && matches!(at % ARRAY_WORDS, 1..=3 | 2304 | 2816..);
        assert_eq!(read(&other) == Memory::new(words.len(), Some(sample())), unused, "word {at}");
    }
}

#[test]
fn the_walk_is_the_longest_match_and_the_block() {
    let (words, list) = (words(), sample());
    let memory = Memory::new(words.len(), Some(list.clone()));
    let near = |p: Prefix<u128>| [p.address.wrapping_sub(1), p.address, p.last(), p.last().wrapping_add(1)];
    let leaves = (0..128).map(|bit| (NET | 1) ^ 1 << bit);
    for address in list.candidates().iter().flat_map(|candidate| near(candidate.prefix)).chain(leaves) {
        let Lookup { route, block } = memory.lookup(address).unwrap();
        let found = route.map(|route| (route.hop, route.prefix.length));
        assert_eq!(walk(&words, address), Ok(Walked { found, block }), "{address:032x}");
        for length in [0, 7, 8, 9, 33, 64, 120, 127, 128] {
            let prefix = Prefix::around(address, length);
            assert_eq!(within(&words, prefix.address, length), memory.within(prefix.address, length));
        }
    }
}

/// What is a table of both families stands for no list with a length over 32; a deeper one is of IPv6 alone.
#[test]
fn tables_of_both_families() {
    assert_eq!(check::<u32>(&words()), Err(Refusal::NotATable));
    assert_eq!(walk(&words(), 0x2001_0db8_u32), Err(Refusal::NotATable));
    let list: CandidateList<u128> = vec![candidate(NET, 32, 1, 0, 7), candidate(0, 0, 1, 0, 8)].into();
    let words = lay(&list, 5, &[5, 4, 3]);
    assert_eq!(check::<u128>(&words), check::<u32>(&words));
    assert_eq!(check::<u32>(&words), Ok(Counts { routes: 2, arrays: 4 }));
    let same: Memory<u32> = read(&words);
    assert_eq!(same.list().unwrap().candidates()[1].prefix, Prefix { address: 0x2001_0db8, length: 32 });
}

/// A ring of links is left at the last level, here after sixteen.
#[test]
fn links_run_out_of_levels() {
    let mut words = lay(&CandidateList::<u128>::default(), 2, &[2]);
    words[ARRAY_WORDS + 2048] = Cell { hop: 9, length: 3, end: End::Link(1) }.word();
    assert_eq!(walk(&words, 0_u128), Err(Refusal::NotATable));
    for level in 1..16 {
        let address = 1_u128 << (120 - 8 * level);
        let found = Some((9, 8 * (level - 1) + 3));
        assert_eq!(walk(&words, address), Ok(Walked { found, block: 8 * level }), "{level}");
        let expected = if level < 4 { Ok(Walked { found, block: 8 * level }) } else { Err(Refusal::NotATable) };
        assert_eq!(walk(&words, (address >> 96) as u32), expected, "{level}");
    }
}

#[test]
fn refusals_of_numbers_no_record_has() {
    let words = vec![u32::MAX; 2 * ARRAY_WORDS];
    for length in [129, 256, 1 << 31, u32::MAX] {
        assert_eq!(within(&words, 1_u128, length), Err(Refusal::TooLong), "{length}");
    }
    assert_eq!(within(&words, 1_u128, 127), Err(Refusal::StrayBit));
    assert_eq!(within(&words, 1_u128, 128), Err(Refusal::NotATable));
    assert_eq!(within(&words[1..], 1_u128, 129), Err(Refusal::WordCount));
}

#[test]
fn texts_of_addresses() {
    for (address, text) in [
        (0, "::"),
        (1, "::1"),
        (1 << 112, "1::"),
        (NET, "2001:db8::"),
        (NET | 1, "2001:db8::1"),
        // Longest run; the first of two as long; one group stays.
        (0x2001_0000_0000_0001_0000_0000_0000_0001, "2001:0:0:1::1"),
        (0x2001_0db8_0000_0000_0001_0000_0000_0001, "2001:db8::1:0:0:1"),
        (0x2001_0db8_0000_0001_0001_0001_0001_0001, "2001:db8:0:1:1:1:1:1"),
        (0x0000_0001_0001_0001_0001_0001_0001_0000, "0:1:1:1:1:1:1:0"),
        (0x0001_0002_0003_0004_0005_0006_0000_0000, "1:2:3:4:5:6::"),
        (0x0000_0000_0003_0004_0005_0006_0007_0008, "::3:4:5:6:7:8"),
        // No leading zeros, small letters, no IPv4 address.
        (0xABCD_00EF_0A0B_0000_1000_0100_0010_0001, "abcd:ef:a0b:0:1000:100:10:1"),
        (0xFFFF_C000_0201, "::ffff:c000:201"),
        (u128::MAX, "ffff:ffff:ffff:ffff:ffff:ffff:ffff:ffff"),
    ] {
        assert_eq!(rfc5952::text(address), text);
        assert_eq!(text.parse(), Ok(std::net::Ipv6Addr::from(address)));
    }
}
