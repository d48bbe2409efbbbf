//! A front before a table: the worked cases as feeds, with replies, counts, lists and ticks; refusals and their order; places; and
//! which words are a front.

use reference::feed::Stop;
use reference::front::{held, lay, read, Damped, Held, Kept, Place, Places, Told, FRONT_WORDS, MOST_PLACES};
use reference::memory::ARRAY_WORDS;
use reference::{Counts, Memory, Prefix, Ran, Refusal, Update};

fn cleared(arrays: usize) -> Damped {
    let mut memory = Memory::new(ARRAY_WORDS * (arrays + 1), None);
    memory.clear().unwrap();
    Damped { places: Some(Places::new()), memory }
}

fn bytes(hex: &str) -> Vec<u8> {
    let digits: Vec<u32> = hex.chars().filter_map(|digit| digit.to_digit(16)).collect();
    digits.chunks(2).map(|pair| (pair[0] * 16 + pair[1]) as u8).collect()
}

/// A feed on a cleared front and table: a record or tick and its reply a line, all bytes in hexadecimal.
struct Worked {
    arrays: usize,
    lines: &'static str,
    /// How many are held back after each tick.
    ticks: &'static [u32],
    /// Consumed, written, accepted, refused: the feed ends with an end.
    ran: [usize; 4],
    counts: Counts,
    written: &'static str,
}

impl Worked {
    fn side(&self, side: usize) -> Vec<u8> {
        self.lines.lines().filter_map(|line| line.split("->").nth(side)).flat_map(bytes).collect()
    }

    fn holds(&self) {
        let mut both = cleared(self.arrays);
        let (mut reply, mut ticks) = ([0xEE; 4096], Vec::new());
        let [consumed, written, accepted, refused] = self.ran;
        let ran = both.run_and_tell(&self.side(0), &mut reply, |told| {
            if let Told::Tick(held) = told {
                ticks.push(held.held_back);
            }
        });
        assert_eq!(ran, Ok(Ran { stop: Stop::End, consumed, written, accepted, refused }));
        assert_eq!(reply[..written], self.side(1));
        assert!(reply[written..].iter().all(|&byte| byte == 0xEE));
        assert_eq!(ticks, self.ticks);
        assert_eq!(both.memory.check(), Ok(self.counts));
        let mut buffer = [0; 100];
        let size = both.memory.write_out(&mut buffer).unwrap();
        assert_eq!(buffer[..size], bytes(self.written));
        let places = both.places.unwrap();
        assert_eq!(read(&lay(&places)), Some(places));
    }
}

/// Case 14.1: four flaps hold back, three ticks let go.
#[test]
fn let_go() {
    Worked {
        arrays: 3,
        lines: "
            01 0A000000 08 0005 -> 10 0005 0001
            02 0A000000 08 -> 10 0005 0001
            01 0A000000 08 0005 -> 10 0005 0001
            02 0A000000 08 -> 10 0005 0001
            01 0A000000 08 0005 -> 10 0005 0001
            02 0A000000 08 -> 10 0005 0001
            01 0A000000 08 0005 -> 10 0005 0001
            02 0A000000 08 -> 10 0005 0001
            02 0A000000 08 -> 13 07
            01 0A000000 08 0006 -> 10 0006 0000
            03 0A000001 -> 12 00
            01 0A000000 08 0007 -> 10 0007 0000
            09 -> 10 0000 0000
            09 -> 10 0000 0000
            03 0A000001 -> 12 00
            09 -> 10 0000 0000
            03 0A000001 -> 11 0007 08 08
            00 ->",
        ticks: &[1, 1, 0],
        ran: [97, 76, 10, 1],
        counts: Counts { routes: 1, arrays: 1 },
        written: "040A0000000800070100 00",
    }
    .holds();
}

/// Case 14.3: a withdrawal of what is kept adds 1,000.
#[test]
fn withdrawn() {
    Worked {
        arrays: 3,
        lines: "
            01 0A000000 08 0005 -> 10 0005 0001
            02 0A000000 08 -> 10 0005 0001
            01 0A000000 08 0005 -> 10 0005 0001
            02 0A000000 08 -> 10 0005 0001
            01 0A000000 08 0005 -> 10 0005 0001
            02 0A000000 08 -> 10 0005 0001
            01 0A000000 08 0005 -> 10 0005 0001
            02 0A000000 08 -> 10 0005 0001
            01 0A000000 08 0006 -> 10 0006 0000
            02 0A000000 08 -> 10 0006 0000
            02 0A000000 08 -> 13 07
            09 -> 10 0000 0000
            09 -> 10 0000 0000
            09 -> 10 0000 0000
            01 0A000000 08 0008 -> 10 0008 0001
            00 ->",
        ticks: &[1, 1, 0],
        ran: [88, 72, 11, 1],
        counts: Counts { routes: 1, arrays: 1 },
        written: "040A0000000800080100 00",
    }
    .holds();
}

/// Case 14.5: no room at its tick, tried again.
#[test]
fn no_room() {
    Worked {
        arrays: 2,
        lines: "
            01 0A000000 09 0005 -> 10 0005 0080
            02 0A000000 09 -> 10 0005 0080
            01 0A000000 09 0005 -> 10 0005 0080
            02 0A000000 09 -> 10 0005 0080
            01 0A000000 09 0005 -> 10 0005 0080
            02 0A000000 09 -> 10 0005 0080
            01 0A000000 09 0005 -> 10 0005 0080
            02 0A000000 09 -> 10 0005 0080
            01 0A000000 09 0006 -> 10 0006 0000
            01 0B000000 09 0001 -> 10 0001 0080
            09 -> 10 0000 0000
            09 -> 10 0000 0000
            09 -> 10 0000 0000
            09 -> 10 0000 0000
            02 0B000000 09 -> 10 0001 0080
            04 0C000000 09 0002 02 00 -> 10 0002 0080
            09 -> 10 0000 0000
            05 0C000000 09 02 -> 10 0002 0080
            09 -> 10 0000 0000
            03 0A000001 -> 11 0006 09 09
            00 ->",
        ticks: &[1, 1, 1, 1, 1, 0],
        ran: [107, 100, 13, 0],
        counts: Counts { routes: 1, arrays: 2 },
        written: "040A0000000900060100 00",
    }
    .holds();
}

/// Case 14.7: candidates of one prefix are apart; faults come first.
#[test]
fn apart() {
    Worked {
        arrays: 3,
        lines: "
            01 0A000000 08 0005 -> 10 0005 0001
            02 0A000000 08 -> 10 0005 0001
            01 0A000000 08 0005 -> 10 0005 0001
            02 0A000000 08 -> 10 0005 0001
            01 0A000000 08 0005 -> 10 0005 0001
            02 0A000000 08 -> 10 0005 0001
            01 0A000000 08 0005 -> 10 0005 0001
            02 0A000000 08 -> 10 0005 0001
            01 0A000000 08 0000 -> 13 05
            01 0A000000 21 0006 -> 13 03
            04 0A000000 08 0006 05 00 -> 13 0A
            04 0A000000 08 0006 02 09 -> 10 0006 0001
            05 0A000000 08 03 -> 13 07
            04 0A000000 08 0007 01 03 -> 10 0007 0000
            03 0A000001 -> 11 0006 08 08
            09 -> 10 0000 0000
            09 -> 10 0000 0000
            09 -> 10 0000 0000
            03 0A000001 -> 11 0007 08 08
            05 0A000000 08 01 -> 10 0007 0001
            00 ->",
        ticks: &[1, 1, 0],
        ran: [130, 88, 11, 4],
        counts: Counts { routes: 1, arrays: 1 },
        written: "040A0000000800060209 00",
    }
    .holds();
}

/// Case 14.9: held back again before it is let go.
#[test]
fn again() {
    Worked {
        arrays: 3,
        lines: "
            01 0A000000 08 0005 -> 10 0005 0001
            02 0A000000 08 -> 10 0005 0001
            01 0A000000 08 0005 -> 10 0005 0001
            02 0A000000 08 -> 10 0005 0001
            01 0A000000 08 0005 -> 10 0005 0001
            02 0A000000 08 -> 10 0005 0001
            01 0A000000 08 0005 -> 10 0005 0001
            02 0A000000 08 -> 10 0005 0001
            01 0A000000 08 0006 -> 10 0006 0000
            09 -> 10 0000 0000
            09 -> 10 0000 0000
            02 0A000000 08 -> 10 0006 0000
            01 0A000000 08 0007 -> 10 0007 0000
            09 -> 10 0000 0000
            09 -> 10 0000 0000
            03 0A000001 -> 11 0007 08 08
            00 ->",
        ticks: &[1, 1, 1, 0],
        ran: [88, 80, 11, 0],
        counts: Counts { routes: 1, arrays: 1 },
        written: "040A0000000800070100 00",
    }
    .holds();
}

/// Case 14.11: 750 is not below 750.
#[test]
fn border() {
    Worked {
        arrays: 3,
        lines: "
            01 0A000000 08 0005 -> 10 0005 0001
            02 0A000000 08 -> 10 0005 0001
            01 0A000000 08 0005 -> 10 0005 0001
            02 0A000000 08 -> 10 0005 0001
            01 0A000000 08 0005 -> 10 0005 0001
            02 0A000000 08 -> 10 0005 0001
            01 0A000000 08 0005 -> 10 0005 0001
            02 0A000000 08 -> 10 0005 0001
            01 0A000000 08 0005 -> 10 0005 0000
            02 0A000000 08 -> 10 0005 0000
            01 0A000000 08 0005 -> 10 0005 0000
            02 0A000000 08 -> 10 0005 0000
            09 -> 10 0000 0000
            09 -> 10 0000 0000
            09 -> 10 0000 0000
            01 0A000000 08 0006 -> 10 0006 0000
            03 0A000001 -> 12 00
            09 -> 10 0000 0000
            03 0A000001 -> 11 0006 08 08
            00 ->",
        ticks: &[1, 1, 1, 0],
        ran: [107, 92, 13, 0],
        counts: Counts { routes: 1, arrays: 1 },
        written: "040A0000000800060100 00",
    }
    .holds();
}

const TEN: u32 = 0x0A00_0000;

/// Withdrawals of 10.0.0.0/8 from feed 1, each after an announcement.
fn flapped(times: usize) -> Damped {
    let mut both = cleared(3);
    for _ in 0..times {
        both.announce(TEN, 8, 5, 1, 0).unwrap();
        both.withdraw(TEN, 8, 1).unwrap();
    }
    both
}

fn place(both: &Damped) -> Place {
    both.places.as_ref().unwrap()[&(Prefix { address: TEN, length: 8 }, 1)]
}

#[test]
fn exactly_3_000_is_not_held_back() {
    assert_eq!(place(&flapped(3)), Place { penalty: 3_000, held_back: false, kept: None });
    assert_eq!(place(&flapped(4)), Place { penalty: 4_000, held_back: true, kept: None });
}

#[test]
fn a_penalty_ends_at_12_000_and_is_let_go_within_five_ticks() {
    let mut both = flapped(20);
    assert_eq!(place(&both), Place { penalty: 12_000, held_back: true, kept: None });
    both.announce(TEN, 8, 6, 1, 7).unwrap();
    assert_eq!(place(&both).kept, Some(Kept { hop: 6, preference: 7 }));
    let back: Vec<u32> = (0..5).map(|_| both.tick().unwrap().held_back).collect();
    assert_eq!(back, [1, 1, 1, 1, 0]);
    assert_eq!(place(&both), Place { penalty: 375, held_back: false, kept: None });
    assert_eq!(both.memory.check(), Ok(Counts { routes: 1, arrays: 1 }));
    assert_eq!(both.tick(), Ok(Held { places: 1, held_back: 0 }));
}

#[test]
fn a_place_is_freed_at_0() {
    let mut both = flapped(1);
    let ticks = (0..20).take_while(|_| both.tick().unwrap().places == 1).count();
    // 1,000 is 0 after ten halvings
    assert_eq!((ticks, both), (9, cleared(3)));
}

#[test]
fn others_pass_undamped_where_all_places_are_taken() {
    let mut both = cleared(3);
    let flap = |both: &mut Damped, n: u32| {
        both.announce(n << 24, 8, 5, 1 + n % 4, 0).unwrap();
        both.announce(n << 24, 8, 5, 1 + (n + 1) % 4, 0).unwrap();
        both.withdraw(n << 24, 8, 1 + n % 4).unwrap();
        both.withdraw(n << 24, 8, 1 + (n + 1) % 4).unwrap();
    };
    (0..128).for_each(|n| flap(&mut both, n));
    assert_eq!(held(both.places.as_ref().unwrap()), Held { places: MOST_PLACES as u32, held_back: 0 });
    let before = both.places.clone();
    (0..5).for_each(|_| flap(&mut both, 200));
    assert_eq!(both.places, before);
    (0..3).for_each(|_| flap(&mut both, 0));
    assert_eq!(held(both.places.as_ref().unwrap()), Held { places: MOST_PLACES as u32, held_back: 2 });
}

#[test]
fn refusals_come_in_their_order_and_change_nothing() {
    let no_front = Damped { places: None, ..flapped(4) };
    let no_table = Damped { memory: Memory::new(12_288, None), ..flapped(4) };
    let misfit = Damped { memory: Memory::new(12_287, None), places: None };
    for (both, last) in [(no_front, Refusal::NotATable), (no_table, Refusal::NotATable), (flapped(4), Refusal::NotHeld)]
    {
        let mut after = both.clone();
        assert_eq!(after.announce(TEN, 33, 0, 9, 0), Err(Refusal::TooLong));
        assert_eq!(after.announce(TEN, 6, 0, 9, 0), Err(Refusal::StrayBit));
        assert_eq!(after.announce(TEN, 8, 0, 9, 0), Err(Refusal::HopOutOfRange));
        assert_eq!(after.announce(TEN, 8, 5, 9, 0), Err(Refusal::FeedOutOfRange));
        assert_eq!(after.withdraw(TEN, 33, 9), Err(Refusal::TooLong));
        assert_eq!(after.withdraw(TEN, 6, 9), Err(Refusal::StrayBit));
        assert_eq!(after.withdraw(TEN, 8, 9), Err(Refusal::FeedOutOfRange));
        assert_eq!(after.withdraw(TEN, 8, 1), Err(last));
        assert_eq!(after, both);
    }
    let mut after = misfit.clone();
    assert_eq!(after.announce(TEN, 33, 0, 9, 0), Err(Refusal::WordCount));
    assert_eq!(after.withdraw(TEN, 33, 9), Err(Refusal::WordCount));
    assert_eq!(after.tick(), Err(Refusal::WordCount));
    assert_eq!(after.run_and_tell(&[9], &mut [0; 5], |_| ()), Err(Refusal::WordCount));
    assert_eq!(after, misfit);
}

#[test]
fn a_tick_asks_for_five_reply_bytes_and_has_no_body() {
    let run = |feed: &[u8], room: usize| cleared(1).run_and_tell(feed, &mut vec![0; room], |_| ()).unwrap();
    let ran = |stop, consumed, written| Ran { stop, consumed, written, accepted: 0, refused: 0 };
    assert_eq!(run(&[9], 5), ran(Stop::NoByteLeft, 1, 5));
    assert_eq!(run(&[9, 9, 0], 9), ran(Stop::ReplyFull, 1, 5));
    assert_eq!(run(&[9, 6], 10), ran(Stop::UnknownKind, 1, 5));
    assert_eq!(run(&[9, 3, 10], 9), ran(Stop::BodyShort, 1, 5));
    assert_eq!(run(&[9, 0, 9], 5), ran(Stop::End, 2, 5));
}

#[test]
fn what_is_kept_replaces_what_was_announced_behind_the_front() {
    let mut both = flapped(4);
    both.announce(TEN, 8, 6, 1, 9).unwrap();
    both.memory.announce(TEN, 8, 8, 1, 0).unwrap();
    assert_eq!(both.withdraw(TEN, 8, 1), Ok(Update { hop: 6, cells: 0 }));
    assert_eq!(both.withdraw(TEN, 8, 1), Err(Refusal::NotHeld));
    both.announce(TEN, 8, 7, 1, 9).unwrap();
    (0..3).for_each(|_| assert!(both.tick().is_ok()));
    assert_eq!(both.memory.lookup(TEN).unwrap().route.unwrap().hop, 7);
}

/// One row, and what it stands for.
fn row(row: [u32; 4]) -> Option<Places> {
    read(&[&row[..], &[0; FRONT_WORDS - 4]].concat())
}

#[test]
fn words_are_a_front_by_their_rows() {
    let feed_1 = 8 * 8 + 1;
    for third in [2, 2 * 3_000, 2 * 750 + 1, 2 * 12_000 + 1] {
        assert!(row([TEN, feed_1, third, 0]).is_some(), "{third}");
    }
    for third in [2 * 3_001, 1, 2 * 749 + 1, 2 * 12_001 + 1, 2 * 12_001] {
        assert!(row([TEN, feed_1, third, 0]).is_none(), "{third}");
    }
    for kept in [1, 65_535, 255 * 65_536 + 1] {
        assert!(row([TEN, feed_1, 1, kept]).is_some(), "{kept}");
        assert!(row([TEN, feed_1, 2 * 100, kept]).is_none(), "{kept}");
    }
    for kept in [65_536, 255 * 65_536, 256 * 65_536 + 1] {
        assert!(row([TEN, feed_1, 1, kept]).is_none(), "{kept}");
    }
    for second in [8 * 8, 8 * 8 + 5, 6 * 8 + 1, 33 * 8 + 1] {
        assert!(row([TEN, second, 2, 0]).is_none(), "{second}");
    }
    for unused in [[TEN, 0, 0, 0], [0, 1, 0, 0], [0, 0, 0, 1]] {
        assert!(row(unused).is_none(), "{unused:?}");
    }
}

#[test]
fn words_are_a_front_by_order_and_number() {
    let two = |first: u32, second: u32| {
        let rows = [[TEN, first, 2, 0], [TEN, second, 2, 0]].concat();
        read(&[rows, vec![0; FRONT_WORDS - 8]].concat())
    };
    assert!(two(65, 66).is_some() && two(65, 73).is_some());
    assert!(two(65, 65).is_none() && two(66, 65).is_none());
    assert_eq!(read(&[0; FRONT_WORDS]), Some(Places::new()));
    assert!(read(&[0; FRONT_WORDS - 1]).is_none() && read(&[0; FRONT_WORDS + 4]).is_none() && read(&[]).is_none());
    let gap = [[0; 4], [TEN, 65, 2, 0]].concat();
    assert!(read(&[gap, vec![0; FRONT_WORDS - 8]].concat()).is_none());
}
