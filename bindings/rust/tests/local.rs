//! The local calls beside those that test the whole table: on a table every answer and every word is the same; on other words they
//! are refused or change what they touch, and nothing else.

use std::net::{Ipv4Addr, Ipv6Addr};

use toggleash::{words_for, Candidate, Counts, Family, PrefixOf, Ran, Refusal, Reply, Stop, TableOf};

const ARRAY_WORDS: usize = 3_072;

fn cleared<A: Family>(arrays: usize) -> Vec<u32> {
    let mut words = vec![0; words_for(arrays).unwrap()];
    A::clear(&mut words).unwrap();
    words
}

/// Numbers that look random, from a seed that is not 0.
fn numbers(seed: u64) -> impl FnMut(u32) -> u32 {
    let mut state = seed;
    move |bound| {
        state ^= state << 13;
        state ^= state >> 7;
        state ^= state << 17;
        (state >> 20) as u32 % bound
    }
}

/// Updates by the call that tests all, by the local one and by a [`TableOf`], on words each. `address` has a few values, so that
/// updates meet; a length, hop or feed may be wrong.
fn beside<A: Family>(arrays: usize, address: impl Fn(u32, u32) -> A) {
    let (mut whole, mut touched) = (cleared::<A>(arrays), cleared::<A>(arrays));
    let mut table = TableOf::<A, _>::new(cleared::<A>(arrays)).unwrap();
    let mut any = numbers(arrays as u64);
    for _ in 0..2_000 {
        let length = any(u32::from(A::MOST_LENGTH) + 2);
        let (at, feed) = (address(any(8), length), any(6));
        let prefix = PrefixOf::new(at, length);
        if any(2) == 0 {
            let candidate = Candidate { hop: any(4), feed, preference: any(3) as u8 };
            let done = A::announce(&mut whole, at, length, candidate);
            assert_eq!(A::announce_local(&mut touched, at, length, candidate), done, "{at}/{length} {candidate:?}");
            assert_eq!(prefix.and_then(|prefix| table.announce(prefix, candidate)), done);
        } else {
            let done = A::withdraw(&mut whole, at, length, feed);
            assert_eq!(A::withdraw_local(&mut touched, at, length, feed), done, "{at}/{length} {feed}");
            assert_eq!(prefix.and_then(|prefix| table.withdraw(prefix, feed)), done);
        }
        assert!(touched == whole && table.words() == whole, "words of {at}/{length}");
    }
}

#[test]
fn updates_of_a_table() {
    // The first `length` bits of a few paths, and for an odd choice a bit after them at times.
    let bits = |choice: u32, length: u32| {
        let path = 0x2001_0db8_85a3_8d3f_7fe1_5a2e_0370_7345_u128.rotate_left(choice / 2 * 4);
        let kept = u128::MAX.checked_shr(length).map_or(path, |after| path & !after);
        kept | u128::from(choice == 7)
    };
    for arrays in [1, 3, 9, 40] {
        beside::<Ipv6Addr>(arrays, |choice, length| bits(choice, length).into());
        beside::<Ipv4Addr>(arrays, |choice, length| ((bits(choice, length) >> 96) as u32).into());
    }
}

/// One feed by the three runs, on words each, with reply room that ends somewhere in it.
fn runs<A: Family>(feed: &[u8]) {
    for room in 0..24 {
        let (mut whole, mut touched) = (cleared::<A>(3), cleared::<A>(3));
        let mut table = TableOf::<A, _>::new(cleared::<A>(3)).unwrap();
        let mut replies = [[0xEE; 24]; 3];
        let ran = A::run(&mut whole, feed, &mut replies[0][..room]);
        assert_eq!(A::run_local(&mut touched, feed, &mut replies[1][..room]), ran, "{room}");
        assert_eq!(table.run(feed, &mut replies[2][..room]), ran, "{room}");
        assert!(replies[1] == replies[0] && replies[2] == replies[0], "{room}");
        assert!(touched == whole && table.words() == whole, "{room}");
    }
}

#[test]
fn runs_of_a_table() {
    runs::<Ipv4Addr>(&[1, 10, 1, 0, 0, 17, 0, 1, 1, 11, 0, 0, 0, 9, 0, 1, 3, 10, 1, 2, 3, 2, 10, 1, 0, 0, 17, 0]);
    let (mut six, zeros) = (vec![6, 10, 1], [0; 14]);
    six.extend([&zeros[..], &[17, 0, 1, 1, 0, 8, 10, 1], &zeros, &[7, 10, 1], &zeros, &[17, 1, 0]].concat());
    runs::<Ipv6Addr>(&six);
}

/// Every refusal in its order, on words that are no table at all: no word is changed.
fn refused<A: Family>(one: A, feed: &[u8]) {
    let most = u32::from(A::MOST_LENGTH);
    let mut foreign = vec![u32::MAX; words_for(1).unwrap()];
    let none = Candidate { hop: 0, feed: 0, preference: 255 };
    assert_eq!(A::announce_local(&mut foreign[1..], one, most + 1, none), Err(Refusal::WordCount));
    assert_eq!(A::withdraw_local(&mut [], one, most + 1, 0), Err(Refusal::WordCount));
    assert_eq!(A::run_local(&mut [], &[], &mut []), Err(Refusal::WordCount));
    for (length, candidate, refusal) in [
        (most + 1, none, Refusal::LengthOver),
        (most - 1, none, Refusal::StrayBit),
        (most, none, Refusal::HopOutOfRange),
        (most, Candidate { hop: 65_536, ..none }, Refusal::HopOutOfRange),
        (most, Candidate { hop: 1, feed: 5, ..none }, Refusal::FeedOutOfRange),
        (most, Candidate::via(1), Refusal::NotATable),
    ] {
        assert_eq!(A::announce_local(&mut foreign, one, length, candidate), Err(refusal));
    }
    assert_eq!(A::withdraw_local(&mut foreign, one, u32::MAX, 0), Err(Refusal::LengthOver));
    assert_eq!(A::withdraw_local(&mut foreign, one, 0, 0), Err(Refusal::StrayBit));
    assert_eq!(A::withdraw_local(&mut foreign, one, most, 0), Err(Refusal::FeedOutOfRange));
    assert_eq!(A::withdraw_local(&mut foreign, one, most, 1), Err(Refusal::NotATable));

    // A run of one lookup: it is replied to with the refusal, and the run goes on.
    let mut reply = [0; Reply::MOST];
    let ran = Ran { stop: Stop::NoByteLeft, consumed: feed.len(), written: 2, accepted: 0, refused: 1 };
    assert_eq!(A::run_local(&mut foreign, feed, &mut reply), Ok(ran));
    assert_eq!(reply[..2], [19, 2]);
    assert!(foreign.iter().all(|&word| word == u32::MAX));
}

#[test]
fn refusals_in_their_order() {
    refused(Ipv4Addr::new(0, 0, 0, 1), &[3, 0, 0, 0, 1]);
    let mut lookup = [0; 17];
    lookup[0] = 8;
    refused(Ipv6Addr::LOCALHOST, &lookup);
}

/// One bit of a table turned, each in its turn, and an update below 10.0.0.0/8: it is refused and nothing is changed, or the arrays
/// off its path keep their words. Arrays 1 and 2 are on the path, array 3 is not, array 4 is free.
#[test]
fn damaged_words() {
    let mut words = cleared::<Ipv4Addr>(4);
    let (ten, eleven) = (Ipv4Addr::new(10, 0, 0, 0), Ipv4Addr::new(11, 0, 0, 0));
    Ipv4Addr::announce_local(&mut words, ten, 9, Candidate::via(1)).unwrap();
    Ipv4Addr::announce_local(&mut words, eleven, 9, Candidate::via(2)).unwrap();
    assert_eq!(Ipv4Addr::check(&words), Ok(Counts { routes: 2, arrays: 3 }));
    let mut any = numbers(37);
    let mut seen = [0; 2];
    for at in (0..words.len()).step_by(5).chain([0, 1, ARRAY_WORDS, 2 * ARRAY_WORDS, ARRAY_WORDS + 2_048 + 10]) {
        let mut damaged = words.clone();
        damaged[at] ^= 1 << any(32);
        let before = damaged.clone();
        let done = match any(2) {
            0 => Ipv4Addr::announce_local(&mut damaged, ten, 10, Candidate::via(3)),
            _ => Ipv4Addr::withdraw_local(&mut damaged, ten, 9, 1),
        };
        seen[usize::from(done.is_ok())] += 1;
        let spared = if done.is_ok() { 3 * ARRAY_WORDS } else { 0 };
        assert!(damaged[spared..] == before[spared..], "word {at}");
    }
    assert!(seen[0] > 0 && seen[1] > 0, "{seen:?}");
}
