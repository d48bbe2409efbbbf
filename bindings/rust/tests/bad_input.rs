//! Input that no table and no copy takes: each refused by its number, with nothing written.

use std::net::Ipv4Addr;

use toggleash::{announce, check, clear, copy, lookup, run, withdraw, words_for, write_out};
use toggleash::{Candidate, Counts, Match, Refusal, Stop, Update};

const ZERO: Ipv4Addr = Ipv4Addr::UNSPECIFIED;
const TEN: Ipv4Addr = Ipv4Addr::new(10, 0, 0, 0);

fn table(arrays: usize) -> Vec<u32> {
    let mut words = vec![0; words_for(arrays).unwrap()];
    clear(&mut words).unwrap();
    words
}

/// A candidate that no table takes for any reason.
const NONE: Candidate = Candidate { hop: 0, feed: 0, preference: 255 };

/// The call's refusal, having seen that the words are as before.
fn refused<T: std::fmt::Debug>(words: &mut [u32], call: impl FnOnce(&mut [u32]) -> Result<T, Refusal>) -> Refusal {
    let before = words.to_vec();
    let refusal = call(words).unwrap_err();
    assert!(words == before, "words changed by {refusal}");
    refusal
}

#[test]
fn empty_slices() {
    assert_eq!(clear(&mut []), Err(Refusal::WordCount));
    assert_eq!(check(&[]), Err(Refusal::WordCount));
    assert_eq!(lookup(&[], ZERO), Err(Refusal::WordCount));
    assert_eq!(announce(&mut [], ZERO, 33, NONE), Err(Refusal::WordCount));
    assert_eq!(withdraw(&mut [], ZERO, 33, 0), Err(Refusal::WordCount));
    assert_eq!(write_out(&[], &mut []), Err(Refusal::WordCount));
    assert_eq!(run(&mut [], &[], &mut []), Err(Refusal::WordCount));
    let mut words = table(1);
    assert_eq!(write_out(&words, &mut []), Err(Refusal::BufferShort));
    let ran = run(&mut words, &[], &mut []).unwrap();
    assert_eq!((ran.stop, ran.consumed, ran.written), (Stop::NoByteLeft, 0, 0));
    assert_eq!(run(&mut words, &[0], &mut []).unwrap().stop, Stop::End);
    assert_eq!(run(&mut words, &[3, 0, 0, 0, 0], &mut []).unwrap().stop, Stop::ReplyFull);
}

#[test]
fn word_counts() {
    for count in [1, 2_048, 3_072, 6_143, 6_145, 7_168, 4_195_328, 12_585_983, 12_585_985, 12_589_056] {
        let mut words = vec![1; count];
        assert_eq!(refused(&mut words, clear), Refusal::WordCount, "{count}");
        assert_eq!(check(&words), Err(Refusal::WordCount), "{count}");
        assert_eq!(refused(&mut words, |w| announce(w, ZERO, 33, NONE)), Refusal::WordCount, "{count}");
    }
    let mut largest = vec![1; words_for(4_096).unwrap()];
    assert_eq!(check(&largest), Err(Refusal::NotATable));
    assert_eq!(clear(&mut largest), Ok(()));
    assert_eq!(check(&largest), Ok(Counts { routes: 0, arrays: 1 }));
    assert_eq!((words_for(0), words_for(4_097), words_for(usize::MAX)), (None, None, None));
}

#[test]
fn lengths_and_hops() {
    let mut words = table(7);
    for length in [33, 64, 255, 256, 288, 1 << 16, u32::MAX] {
        assert_eq!(refused(&mut words, |w| announce(w, TEN, length, NONE)), Refusal::LengthOver32, "{length}");
        assert_eq!(refused(&mut words, |w| withdraw(w, TEN, length, 0)), Refusal::LengthOver32, "{length}");
    }
    for length in 0..7 {
        assert_eq!(refused(&mut words, |w| announce(w, TEN, length, NONE)), Refusal::StrayBit, "{length}");
        assert_eq!(refused(&mut words, |w| withdraw(w, TEN, length, 0)), Refusal::StrayBit, "{length}");
    }
    for hop in [0, 65_536, 65_537, 1 << 24, u32::MAX] {
        let candidate = Candidate { hop, ..NONE };
        assert_eq!(refused(&mut words, |w| announce(w, TEN, 8, candidate)), Refusal::HopOutOfRange, "{hop}");
    }
    assert_eq!(announce(&mut words, TEN, 8, Candidate::via(65_535)).unwrap().hop, 65_535);
    assert_eq!(announce(&mut words, TEN, 8, Candidate::via(1)), Ok(Update { hop: 1, cells: 1 }));
    let held = words.clone();
    assert_eq!(announce(&mut words, TEN, 8, Candidate::via(1)), Ok(Update { hop: 1, cells: 0 }));
    assert_eq!(words, held);
    assert_eq!(refused(&mut words, |w| withdraw(w, TEN, 9, 1)), Refusal::NotHeld);
}

#[test]
fn feeds() {
    let mut words = table(1);
    let mut foreign = vec![u32::MAX; words_for(1).unwrap()];
    for feed in [0, 5, 255, 256 + 1, 1 << 16, u32::MAX] {
        let candidate = Candidate { hop: 1, feed, preference: 0 };
        for words in [&mut words, &mut foreign] {
            assert_eq!(refused(words, |w| announce(w, TEN, 9, candidate)), Refusal::FeedOutOfRange, "{feed}");
            assert_eq!(refused(words, |w| withdraw(w, TEN, 9, feed)), Refusal::FeedOutOfRange, "{feed}");
        }
    }
    announce(&mut words, TEN, 8, Candidate { hop: 1, feed: 3, preference: 255 }).unwrap();
    for feed in [1, 2, 4] {
        assert_eq!(refused(&mut words, |w| withdraw(w, TEN, 8, feed)), Refusal::NotHeld, "{feed}");
    }
    assert_eq!(withdraw(&mut words, TEN, 8, 3), Ok(Update { hop: 1, cells: 1 }));
}

#[test]
fn words_that_are_no_table() {
    let mut words = vec![u32::MAX; words_for(3).unwrap()];
    assert_eq!(check(&words), Err(Refusal::NotATable));
    assert_eq!(lookup(&words, ZERO), Err(Refusal::NotATable));
    assert_eq!(refused(&mut words, |w| announce(w, ZERO, 0, Candidate::via(1))), Refusal::NotATable);
    assert_eq!(refused(&mut words, |w| withdraw(w, ZERO, 0, 1)), Refusal::NotATable);
    let (mut buffer, mut reply) = ([0xEE; 64], [0xEE; 64]);
    assert_eq!(write_out(&words, &mut buffer), Err(Refusal::NotATable));
    assert_eq!(refused(&mut words, |w| run(w, &[0], &mut reply)), Refusal::NotATable);
    assert_eq!((buffer, reply), ([0xEE; 64], [0xEE; 64]));
}

/// 10.0.0.0/8 and 10.1.2.0/24. The /24's marker, 10.1.0.0/16, is no route: the copy needs 1,048 words.
const LIST: [u8; 21] = [4, 10, 0, 0, 0, 8, 0, 1, 1, 0, 4, 10, 1, 2, 0, 24, 255, 255, 4, 255, 0];
/// The same in records of kind 1.
const PLAIN: [u8; 17] = [1, 10, 0, 0, 0, 8, 0, 1, 1, 10, 1, 2, 0, 24, 255, 255, 0];

/// Need and build refuse bytes that are no list, whatever words are lent.
fn refuse(bytes: &[u8]) {
    let mut words = vec![u32::MAX; 1_048];
    assert_eq!(copy::need(bytes), Err(Refusal::NotATable), "{bytes:?}");
    assert_eq!(refused(&mut words, |w| copy::build(bytes, w)), Refusal::NotATable, "{bytes:?}");
    assert_eq!(refused(&mut words[..3], |w| copy::build(bytes, w)), Refusal::NotATable, "{bytes:?}");
}

#[test]
fn bytes_that_are_no_list() {
    refuse(&[]);
    for (list, size) in [(&LIST[..], 10), (&PLAIN, 8)] {
        (1..list.len()).for_each(|cut| refuse(&list[..cut]));
        refuse(&[list, &[0]].concat());
        let (first, second) = (&list[..size], &list[size..2 * size]);
        refuse(&[second, first, &[0]].concat());
        refuse(&[first, first, &[0]].concat());
        // kind, address, length, hop and end, each with a byte that no list has there
        for (at, byte) in [(0, 0), (0, 2), (4, 1), (5, 33), (5, 6), (7, 0), (size + 1, 9), (2 * size, 1)] {
            let mut bytes = list.to_vec();
            bytes[at] = byte;
            refuse(&bytes);
        }
    }
}

#[test]
fn candidates_that_are_no_list() {
    for feed in [0, 5, 255] {
        let mut bytes = LIST;
        bytes[8] = feed;
        refuse(&bytes);
    }
    // Two feeds, the higher one first; and both kinds.
    refuse(&[4, 10, 0, 0, 0, 8, 0, 1, 2, 0, 4, 10, 0, 0, 0, 8, 0, 1, 1, 0, 0]);
    refuse(&[&PLAIN[..8], &LIST[10..]].concat());
    refuse(&[&LIST[..10], &PLAIN[8..]].concat());
}

#[test]
fn words_too_few_for_a_copy() {
    let mut words = vec![u32::MAX; 1_050];
    for count in [0, 1, 1_023, 1_024, 1_047] {
        assert_eq!(refused(&mut words[..count], |w| copy::build(&LIST, w)), Refusal::BufferShort, "{count}");
        assert_eq!(copy::lookup(&words[..count], TEN), Err(Refusal::NotATable), "{count}");
    }
    assert_eq!(copy::build(&PLAIN, &mut words), Ok(copy::Built { routes: 2, markers: 1 }));
    let of_routes = words.clone();
    assert_eq!(copy::build(&LIST, &mut words), Ok(copy::Built { routes: 2, markers: 1 }));
    assert_eq!(words, of_routes);
    assert_eq!(words[1_048..], [u32::MAX; 2]);
    assert_eq!(copy::lookup(&words, Ipv4Addr::new(10, 1, 2, 255)), Ok(Some(Match { hop: 65_535, length: 24 })));
    assert_eq!(copy::lookup(&words, Ipv4Addr::new(10, 1, 3, 0)), Ok(Some(Match { hop: 1, length: 8 })));
    assert_eq!(copy::lookup(&words, ZERO), Ok(None));
    assert_eq!(copy::lookup(&words[..1_023], TEN), Err(Refusal::NotATable));
}

#[test]
fn words_that_are_no_copy() {
    assert_eq!(copy::lookup(&[], ZERO), Err(Refusal::NotATable));
    assert_eq!(copy::lookup(&[u32::MAX; 1_024], ZERO), Err(Refusal::NotATable));
    let mut words = [0; 1_024];
    assert_eq!(copy::lookup(&words, ZERO), Ok(None));
    // no table of length 16, then one that begins after an entry's words, and one where eight times the entries are 2^32
    words[0] = 65_535 * 256;
    assert_eq!(copy::lookup(&words, ZERO), Ok(Some(Match { hop: 65_535, length: 0 })));
    for before in [1, 1 << 29, u32::MAX] {
        words[2 * 16] = before;
        assert_eq!(copy::lookup(&words, ZERO), Err(Refusal::NotATable), "{before}");
    }
    words[2 * 16] = 0;
    assert_eq!(copy::lookup(&words, ZERO), Ok(Some(Match { hop: 65_535, length: 0 })));
    for default in [1, 255, 256 + 33, 1 << 24, u32::MAX] {
        words[0] = default;
        assert_eq!(copy::lookup(&words, ZERO), Err(Refusal::NotATable), "{default}");
    }
}

#[test]
fn refusals_speak() {
    for number in [1, 2, 3, 4, 5, 7, 8, 9, 10] {
        let refusal = Refusal::from_number(number).unwrap();
        assert_eq!(u32::from(refusal.number()), number);
        assert!(refusal.to_string().starts_with(&format!("refused {number}: ")));
    }
    for number in [0, 6, 11, 256 + 1] {
        assert_eq!(Refusal::from_number(number), None);
    }
}
