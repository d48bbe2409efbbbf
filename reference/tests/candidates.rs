//! Candidates: the worked cases as feeds, with their replies, counts, lists and the program's lines; who wins; and the
//! refusals of feeds.

use reference::feed::Stop;
use reference::memory::{arrays_in, ARRAY_WORDS};
use reference::{program, Candidate, CandidateList, Counts, Lookup, Memory, Prefix, Ran, Refusal, Update};

fn table(arrays: usize) -> Memory {
    let mut memory = Memory::new(ARRAY_WORDS * (arrays + 1), None);
    memory.clear().unwrap();
    memory
}

fn bytes(hex: &str) -> Vec<u8> {
    let digits: Vec<u32> = hex.chars().filter_map(|digit| digit.to_digit(16)).collect();
    digits.chunks(2).map(|pair| (pair[0] * 16 + pair[1]) as u8).collect()
}

/// A feed on a cleared table: a record and its reply a line, all bytes in hexadecimal.
struct Worked {
    arrays: usize,
    lines: &'static str,
    /// Consumed, written, accepted, refused: the feed ends with an end.
    ran: [usize; 4],
    counts: Counts,
    written: &'static str,
}

impl Worked {
    fn feed(&self) -> Vec<u8> {
        self.lines.lines().flat_map(|line| bytes(line.split("->").next().unwrap())).collect()
    }

    fn holds(&self) {
        let expected: Vec<u8> = self.lines.lines().flat_map(|line| bytes(line.split("->").nth(1).unwrap())).collect();
        let mut memory = table(self.arrays);
        let mut reply = [0xEE; 4096];
        let [consumed, written, accepted, refused] = self.ran;
        let ran = Ran { stop: Stop::End, consumed, written, accepted, refused };
        assert_eq!(memory.run(&self.feed(), &mut reply), Ok(ran));
        assert_eq!(reply[..written], expected);
        assert!(reply[written..].iter().all(|&byte| byte == 0xEE));
        assert_eq!(memory.check(), Ok(self.counts));
        self.writes(&memory);
    }

    /// The list is written out to as many bytes as it has and to no fewer, and gives itself again.
    fn writes(&self, memory: &Memory) {
        let expected = bytes(self.written);
        let mut buffer = vec![0xEE; expected.len() + 1];
        let short = expected.len() - 1;
        assert_eq!(memory.write_out(&mut buffer[..short]), Err(Refusal::BufferShort));
        assert_eq!(memory.write_out(&mut buffer), Ok(expected.len()));
        assert_eq!(buffer, [&expected[..], &[0xEE]].concat());
        let mut again = table(self.arrays);
        again.run(&expected, &mut [0; 4096]).unwrap();
        assert_eq!(again, *memory);
    }
}

const BETTER_PREFERENCE: Worked = Worked {
    arrays: 3,
    lines: "04 0A000000 08 0005 01 0A -> 10 0005 0001
            04 0A000000 08 0006 02 05 -> 10 0006 0001
            03 0A000001               -> 11 0006 08 08
            05 0A000000 08 02         -> 10 0006 0001
            03 0A000001               -> 11 0005 08 08
            05 0A000000 08 01         -> 10 0005 0001
            03 0A000001               -> 12 00
            00                        ->",
    ran: [50, 32, 4, 0],
    counts: Counts { routes: 0, arrays: 1 },
    written: "00",
};

#[test]
fn the_better_preference_wins_and_goes() {
    BETTER_PREFERENCE.holds();
    let lines = "\
announce 10.0.0.0/8 via 5 cells 1
announce 10.0.0.0/8 via 6 cells 1
lookup 10.0.0.1 via 6 length 8 block 8
withdraw 10.0.0.0/8 via 6 cells 1
lookup 10.0.0.1 via 5 length 8 block 8
withdraw 10.0.0.0/8 via 5 cells 1
lookup 10.0.0.1 none block 0
routes 0 arrays 1 accepted 4 refused 0
stopped 0 at 50
";
    assert_eq!(program::output::<u32>(&BETTER_PREFERENCE.feed()), lines);
}

#[test]
fn equal_preference_and_equal_hop() {
    let worked = Worked {
        arrays: 3,
        lines: "04 0A000000 08 0006 02 00 -> 10 0006 0001
                04 0A000000 08 0007 03 00 -> 10 0007 0000
                04 0A000000 08 0005 01 00 -> 10 0005 0001
                03 0A000001               -> 11 0005 08 08
                05 0A000000 08 01         -> 10 0005 0001
                03 0A000001               -> 11 0006 08 08
                04 0A000000 08 0006 04 00 -> 10 0006 0000
                05 0A000000 08 02         -> 10 0006 0001
                04 0A000000 08 0007 04 09 -> 10 0007 0000
                05 0A000000 08 03         -> 10 0007 0000
                00                        ->",
        ran: [82, 50, 8, 0],
        counts: Counts { routes: 1, arrays: 1 },
        written: "040A0000000800070409 00",
    };
    worked.holds();
}

const KINDS_1_AND_2: Worked = Worked {
    arrays: 3,
    lines: "04 0A000000 08 0005 01 09 -> 10 0005 0001
            04 0A000000 08 0006 02 03 -> 10 0006 0001
            01 0A000000 08 0005       -> 10 0005 0001
            03 0A000001               -> 11 0005 08 08
            02 0A000000 08            -> 10 0005 0001
            02 0A000000 08            -> 13 07
            05 0A000000 08 01         -> 13 07
            05 0A000000 08 02         -> 10 0006 0001
            00                        ->",
    ran: [60, 34, 5, 2],
    counts: Counts { routes: 0, arrays: 1 },
    written: "00",
};

#[test]
fn kinds_1_and_2_are_feed_1_with_preference_0() {
    KINDS_1_AND_2.holds();
    let lines = "\
announce 10.0.0.0/8 via 5 cells 1
announce 10.0.0.0/8 via 6 cells 1
announce 10.0.0.0/8 via 5 cells 1
lookup 10.0.0.1 via 5 length 8 block 8
withdraw 10.0.0.0/8 via 5 cells 1
withdraw 10.0.0.0/8 refused 7
withdraw 10.0.0.0/8 refused 7
withdraw 10.0.0.0/8 via 6 cells 1
routes 0 arrays 1 accepted 5 refused 2
stopped 0 at 60
";
    assert_eq!(program::output::<u32>(&KINDS_1_AND_2.feed()), lines);
}

#[test]
fn room_is_of_prefixes() {
    let worked = Worked {
        arrays: 2,
        lines: "04 0A000000 09 0001 01 00 -> 10 0001 0080
                04 0A000000 09 0002 02 00 -> 10 0002 0000
                04 0B000000 09 0001 01 00 -> 13 08
                05 0A000000 09 01         -> 10 0001 0080
                04 0B000000 09 0001 01 00 -> 13 08
                05 0A000000 09 02         -> 10 0002 0080
                04 0B000000 09 0001 01 00 -> 10 0001 0080
                00                        ->",
        ran: [65, 29, 5, 2],
        counts: Counts { routes: 1, arrays: 2 },
        written: "040B0000000900010100 00",
    };
    worked.holds();
}

const WRITING_OUT: Worked = Worked {
    arrays: 3,
    lines: "04 0A010400 16 0002 03 C8 -> 10 0002 0004
            04 0A000000 08 0001 04 00 -> 10 0001 0001
            04 0A010400 16 0003 01 C9 -> 10 0003 0000
            01 0A000000 08 0009       -> 10 0009 0001
            00                        ->",
    ran: [39, 20, 4, 0],
    counts: Counts { routes: 4, arrays: 3 },
    written: "040A0000000800090100 040A0000000800010400 040A01040016000301C9 040A01040016000203C8 00",
};

#[test]
fn written_out_by_address_length_and_feed() {
    WRITING_OUT.holds();
    let lines = "\
announce 10.1.4.0/22 via 2 cells 4
announce 10.0.0.0/8 via 1 cells 1
announce 10.1.4.0/22 via 3 cells 0
announce 10.0.0.0/8 via 9 cells 1
routes 4 arrays 3 accepted 4 refused 0
stopped 0 at 39
";
    assert_eq!(program::output::<u32>(&WRITING_OUT.feed()), lines);
}

#[test]
fn numbers_of_words() {
    let sizes = [6_144, 9_216, 12_288, 12_585_984, 3_072, 2_048, 4_195_328, 7_168, 12_589_056];
    let arrays = [Some(1), Some(2), Some(3), Some(4_096), None, None, None, None, None];
    assert_eq!(sizes.map(arrays_in), arrays);
}

/// The prefix of these cases: 4 cells.
const NET: u32 = 0x0A01_0400;

fn announced(memory: &mut Memory, hop: u32, feed: u32, preference: u8) -> u32 {
    let done = memory.announce(NET, 22, hop, feed, preference).unwrap();
    assert_eq!(done.hop, hop);
    done.cells
}

#[test]
fn cells_where_the_winning_hop_changes() {
    let mut memory = table(3);
    assert_eq!(announced(&mut memory, 5, 1, 10), 4);
    assert_eq!(announced(&mut memory, 6, 2, 20), 0);
    // A loser's hop changes, and its preference; then it wins by the preference alone.
    assert_eq!(announced(&mut memory, 7, 2, 20), 0);
    assert_eq!(announced(&mut memory, 7, 2, 11), 0);
    assert_eq!(announced(&mut memory, 7, 2, 9), 4);
    // The winner gets worse with the hop that it had, and another one wins.
    assert_eq!(announced(&mut memory, 7, 2, 11), 4);
    // Worse, but still the best.
    assert_eq!(announced(&mut memory, 5, 1, 11), 0);
    // Another winner with the same hop.
    assert_eq!(announced(&mut memory, 5, 3, 0), 0);
    assert_eq!(memory.withdraw(NET, 22, 3), Ok(Update { hop: 5, cells: 0 }));
    assert_eq!(memory.withdraw(NET, 22, 2), Ok(Update { hop: 7, cells: 0 }));
    assert_eq!(memory.withdraw(NET, 22, 1), Ok(Update { hop: 5, cells: 4 }));
    assert_eq!(memory.check(), Ok(Counts { routes: 0, arrays: 1 }));
}

/// However many candidates a prefix has, it covers its cells once.
#[test]
fn a_prefix_is_one_route() {
    let mut memory = table(3);
    for feed in 1..=4 {
        memory.announce(NET, 22, feed, feed, 0).unwrap();
    }
    assert_eq!(memory.announce(0x0A01_0000, 20, 9, 4, 255), Ok(Update { hop: 9, cells: 12 }));
    assert_eq!(memory.check(), Ok(Counts { routes: 5, arrays: 3 }));
    let Lookup { route, block } = memory.lookup(NET).unwrap();
    assert_eq!((route.unwrap().hop, block), (1, 22));
}

#[test]
fn refusals_of_feeds() {
    let bad = [0, 5, 255, 256, u32::MAX];
    let mut memory = table(1);
    let mut foreign: Memory = Memory::new(6_144, None);
    let mut misfit: Memory = Memory::new(6_143, None);
    for feed in bad {
        for memory in [&mut memory, &mut foreign] {
            assert_eq!(memory.announce(1, 33, 0, feed, 0), Err(Refusal::TooLong));
            assert_eq!(memory.announce(1, 0, 0, feed, 0), Err(Refusal::StrayBit));
            assert_eq!(memory.announce(0, 0, 0, feed, 0), Err(Refusal::HopOutOfRange));
            assert_eq!(memory.announce(0, 9, 1, feed, 0), Err(Refusal::FeedOutOfRange));
            assert_eq!(memory.withdraw(1, 33, feed), Err(Refusal::TooLong));
            assert_eq!(memory.withdraw(1, 0, feed), Err(Refusal::StrayBit));
            assert_eq!(memory.withdraw(0, 0, feed), Err(Refusal::FeedOutOfRange));
        }
        assert_eq!(misfit.announce(0, 0, 1, feed, 0), Err(Refusal::WordCount));
        assert_eq!(misfit.withdraw(0, 0, feed), Err(Refusal::WordCount));
    }
    assert_eq!(foreign.announce(0, 0, 1, 4, 0), Err(Refusal::NotATable));
    assert_eq!(foreign.withdraw(0, 0, 4), Err(Refusal::NotATable));
    assert_eq!(memory.announce(0, 9, 1, 4, 0), Err(Refusal::NoRoom));
    assert_eq!(Refusal::FeedOutOfRange.number(), 10);
}

#[test]
fn bad_feeds_in_a_run() {
    let feed = bytes("04 00000000 00 0001 00 00, 04 00000000 00 0000 05 00, 05 00000000 00 05, 05 00000000 21 05, 00");
    let mut reply = [0; 20];
    let ran = table(1).run(&feed, &mut reply).unwrap();
    assert_eq!((ran.consumed, ran.accepted, ran.refused), (35, 0, 4));
    assert_eq!(reply[..ran.written], [19, 10, 19, 5, 19, 10, 19, 3]);
}

/// The winners that are kept are those found afresh, whatever is announced and withdrawn.
#[test]
fn winners_of_any_candidates() {
    let mut state = 1_u64;
    let mut number = |below: u64| {
        state = state.wrapping_mul(6_364_136_223_846_793_005).wrapping_add(1);
        (state >> 33) % below
    };
    let mut list: CandidateList = CandidateList::default();
    for _ in 0..4_000 {
        let prefix = Prefix { address: (number(6) as u32) << 24, length: 8 };
        let feed = 1 + number(4) as u32;
        match number(3) {
            0 => drop(list.remove(prefix, feed)),
            _ => list.set(Candidate { prefix, feed, preference: number(3) as u8, hop: 1 + number(3) as u32 }),
        }
        for prefix in (0..6).map(|head| Prefix { address: head << 24, length: 8 }) {
            let of = list.candidates().iter().filter(|candidate| candidate.prefix == prefix);
            let lowest = of.clone().map(|candidate| candidate.preference).min();
            let winner = of.clone().find(|candidate| Some(candidate.preference) == lowest);
            assert_eq!(list.winners().hop(prefix), winner.map(|winner| winner.hop));
            assert!(list.of(prefix).iter().eq(of));
        }
    }
}
