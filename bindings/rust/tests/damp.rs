//! Fronts: what words are one, the order of refusals, and that a refused call leaves both memories.

use toggleash::damp::{self, Front, Held, FRONT_WORDS, MOST_PLACES, TICK};
use toggleash::{Candidate, Counts, Prefix, Record, Refusal, Reply, Stop, Table, Update};

fn both() -> (Front<Vec<u32>>, Table<Vec<u32>>) {
    (Front::new(vec![7; FRONT_WORDS]).unwrap(), Table::new(vec![7; 12_288]).unwrap())
}

fn prefix(text: &str) -> Prefix {
    text.parse().unwrap()
}

#[test]
fn a_front_is_cleared_or_tested() {
    assert_eq!(Front::new(vec![0; FRONT_WORDS - 1]).unwrap_err(), Refusal::NotATable);
    assert_eq!(Front::from_words([7; FRONT_WORDS]).unwrap_err(), Refusal::NotATable);
    let mut words = [0; FRONT_WORDS];
    words[..4].copy_from_slice(&[0x0A00_0000, 8 * 8 + 1, 2 * 4_000 + 1, 9 * 65_536 + 6]);
    let front = Front::from_words(words).unwrap();
    assert_eq!(front.check(), Ok(Held { places: 1, held_back: 1 }));
    assert_eq!((front.words().len(), front.into_words()), (FRONT_WORDS, words));
    words[2] -= 1;
    assert_eq!(damp::check(&words), Err(Refusal::NotATable));
    assert_eq!(damp::check(&[]), Err(Refusal::NotATable));
}

#[test]
fn what_is_kept_waits_for_room() {
    let (mut front, mut table) = both();
    let (ten, other) = (prefix("10.0.0.0/32"), prefix("11.0.0.0/17"));
    let mut small = Table::new(vec![0; 6_144]).unwrap();
    assert_eq!(front.announce(&mut small, ten, Candidate::via(1)), Err(Refusal::NoRoom));
    for _ in 0..4 {
        front.announce(&mut table, other, Candidate::via(1)).unwrap();
        front.withdraw(&mut table, other, 1).unwrap();
    }
    assert_eq!(front.announce(&mut small, other, Candidate::via(1)), Ok(Update { hop: 1, cells: 0 }));
    for _ in 0..20 {
        assert_eq!(front.tick(&mut small), Ok(Held { places: 1, held_back: 1 }));
    }
    assert_eq!(front.tick(&mut table), Ok(Held { places: 0, held_back: 0 }));
    assert_eq!(table.check(), Ok(Counts { routes: 1, arrays: 3 }));
}

#[test]
fn refusals_leave_both() {
    let (mut front, mut table) = (vec![0; FRONT_WORDS], both().1.into_words());
    let (ten, bad) = ([10, 0, 0, 0].into(), Candidate { hop: 0, feed: 0, preference: 0 });
    let mut alien = vec![7; FRONT_WORDS];
    let kept = (alien.clone(), table.clone());
    assert_eq!(damp::announce(&mut alien, &mut table[1..], ten, 33, bad), Err(Refusal::WordCount));
    assert_eq!(damp::announce(&mut alien, &mut table, ten, 33, bad), Err(Refusal::LengthOver));
    assert_eq!(damp::announce(&mut alien, &mut table, ten, 4, bad), Err(Refusal::StrayBit));
    assert_eq!(damp::announce(&mut alien, &mut table, ten, 8, bad), Err(Refusal::HopOutOfRange));
    assert_eq!(damp::withdraw(&mut alien, &mut table, ten, 8, 5), Err(Refusal::FeedOutOfRange));
    assert_eq!(damp::withdraw(&mut alien, &mut table, ten, 8, 4), Err(Refusal::NotATable));
    assert_eq!(damp::withdraw(&mut front, &mut table, ten, 8, 4), Err(Refusal::NotHeld));
    assert_eq!(damp::tick(&mut alien, &mut table), Err(Refusal::NotATable));
    assert_eq!(damp::tick(&mut front, &mut table[1..]), Err(Refusal::WordCount));
    let mut reply = [9; 5];
    assert_eq!(damp::run(&mut alien, &mut table, &[TICK], &mut reply), Err(Refusal::NotATable));
    assert_eq!((alien, table, front, reply), (kept.0, kept.1, vec![0; FRONT_WORDS], [9; 5]));
}

#[test]
fn a_feed_has_ticks_through_a_front_alone() {
    let (mut front, mut table) = both();
    let mut reply = [0; 64];
    let ran = front.run(&mut table, &[TICK, TICK, 6], &mut reply).unwrap();
    assert_eq!((ran.stop, ran.consumed, ran.written, ran.accepted, ran.refused), (Stop::UnknownKind, 2, 10, 0, 0));
    assert_eq!(table.run(&[TICK], &mut reply).unwrap().stop, Stop::UnknownKind);
    assert_eq!(Record::decode(&[TICK]), Err(Stop::UnknownKind));
    assert_eq!(front.run(&mut table, &[TICK], &mut reply[..4]).unwrap().stop, Stop::ReplyFull);
}

#[test]
fn more_candidates_than_places_pass_undamped() {
    let (mut front, mut table) = both();
    let one = |n: usize| Record::announce_for(prefix(&format!("{}.0.0.0/8", n % 256)), 5, 1 + (n / 256) as u8, 0);
    let gone = |n: usize| Record::withdraw_for(prefix(&format!("{}.0.0.0/8", n % 256)), 1 + (n / 256) as u8);
    let feed: Vec<u8> = (0..300).flat_map(|n| one(n).bytes().chain(gone(n).bytes()).collect::<Vec<u8>>()).collect();
    let ran = front.run(&mut table, &feed, &mut vec![0; 600 * Reply::MOST]).unwrap();
    assert_eq!((ran.accepted, ran.refused), (600, 0));
    assert_eq!(front.check(), Ok(Held { places: MOST_PLACES as u32, held_back: 0 }));
}

#[test]
fn local_calls_are_the_calls_before_a_table() {
    let (mut front, mut table) = (vec![0; FRONT_WORDS], both().1.into_words());
    let (mut other, mut words) = (front.clone(), table.clone());
    let (ten, via) = ([10, 0, 0, 0].into(), Candidate::via);
    for hop in 1..9 {
        let local = damp::announce_local(&mut other, &mut words, ten, 24, via(hop));
        assert_eq!(local, damp::announce(&mut front, &mut table, ten, 24, via(hop)));
        let local = damp::withdraw_local(&mut other, &mut words, ten, 24, 1);
        assert_eq!(local, damp::withdraw(&mut front, &mut table, ten, 24, 1));
        assert_eq!((&other, &words), (&front, &table));
    }
    damp::announce(&mut front, &mut table, ten, 24, via(9)).unwrap();
    damp::announce_local(&mut other, &mut words, ten, 24, via(9)).unwrap();
    let (mut reply, mut replies) = ([0; 5], [0; 5]);
    let ran = damp::run_local(&mut other, &mut words, &[TICK, 0], &mut replies);
    assert_eq!(ran, damp::run(&mut front, &mut table, &[TICK, 0], &mut reply));
    for _ in 0..9 {
        assert_eq!(damp::tick_local(&mut other, &mut words), damp::tick(&mut front, &mut table));
        assert_eq!((&other, &words, replies), (&front, &table, reply));
    }
}

#[test]
fn local_calls_on_words_that_are_no_table() {
    let (mut front, mut words) = (vec![0; FRONT_WORDS], vec![u32::MAX; 6_144]);
    front[..4].copy_from_slice(&[0x0A00_0000, 8 * 8 + 1, 2 * 1_000 + 1, 6]);
    let ten = [10, 0, 0, 0].into();
    let kept = (front.clone(), words.clone());
    assert_eq!(damp::withdraw_local(&mut front, &mut words, ten, 8, 2), Err(Refusal::NotATable));
    assert_eq!(damp::tick(&mut front, &mut words), Err(Refusal::NotATable));
    assert_eq!((&front, &words), (&kept.0, &kept.1));
    assert_eq!(
        damp::announce_local(&mut front, &mut words, ten, 8, Candidate::via(7)),
        Ok(Update { hop: 7, cells: 0 })
    );
    assert_eq!(damp::tick_local(&mut front, &mut words), Ok(Held { places: 1, held_back: 1 }));
    assert_eq!((&front[..4], &words), (&[0x0A00_0000, 8 * 8 + 1, 2 * 500 + 1, 7][..], &kept.1));
}
