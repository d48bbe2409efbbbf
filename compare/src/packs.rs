//! Compressed tables: need and build from random tables, from words that are none and into words too few, against the reference's
//! words; lookups in what was built against the reference's walk and against the list.

use std::net::Ipv4Addr;

use reference::packed::{self, Odd, HEADER};
use reference::{layout, Candidate, CandidateList, Memory, Refusal, RouteList};
use toggleash::ffi::{self, Match, Needed, Packed};

use crate::damage::{damage, SIZES};
use crate::feeds::Terrain;
use crate::guard::{begin_call, Lent, Side};
use crate::lists::{any_list, filling, scattered};
use crate::packs_damaged;
use crate::pair::{left, library, same, Same};
use crate::random::Random;
use crate::rooms::neighbours;
use crate::tally::Tally;

/// Tables that a plain run builds from, and built or other words that it damages.
const TABLES: u64 = 1_200;
const DAMAGED: u64 = 3_000;
/// Prefixes of a table that are looked up around, and addresses anywhere.
const AROUND: usize = 150;
const ANYWHERE: usize = 60;

/// What was compared, and how often each answer was the right one.
#[derive(Default)]
pub struct Packs {
    tables: u64,
    pub damaged: u64,
    lookups: u64,
    /// Arrays of a table by the number of their mask's set bits, the first left out.
    masks: [u64; 9],
    /// A need or a build that is answered; refusals 1, 2 and 9.
    answers: [u64; 4],
    /// A lookup that finds none, and one that finds, by the level of what is found.
    none: u64,
    found: [u64; 4],
    /// A lookup's walk that meets a mask, a place, a slot, a length or an array below the last that no compressed table has, by level.
    odd: [[u64; 4]; 5],
}

impl Packs {
    /// Prints what was met. An answer that never was the right one has shown nothing: gives how many differences that makes.
    fn told(&self) -> u64 {
        let Packs { tables, damaged, lookups, masks, answers, none, found, odd } = self;
        println!("{tables} tables compressed, {damaged} damaged and other memories, {lookups} lookups in them; arrays by the set");
        println!("bits of their masks {masks:?}; need and build answered, refused with 1, 2, 9 {answers:?} times");
        println!("compressed lookups that find none {none} times, and on each level {found:?} times; refused with 2 for a mask, a");
        println!("place, a slot, a length and an array below the last, on each level {odd:?} times");
        // The first mask is no word, and only the last level has none below it.
        let always = [&odd[0][1..], &odd[1], &odd[2], &odd[3], &odd[4][3..], masks, answers, found, &[*none]].concat();
        let missing = always.contains(&0);
        if missing {
            println!("difference: one of them was never met");
        }
        u64::from(missing)
    }

    fn saw_answer<T>(&mut self, answer: &Result<T, u8>) {
        let which = match answer {
            Ok(_) => 0,
            Err(number) => 1 + [1, 2, 9].iter().position(|n| n == number).expect("no other is told"),
        };
        self.answers[which] += 1;
    }

    fn saw_walk(&mut self, walked: &Result<layout::Found, (Odd, u32)>) {
        self.lookups += 1;
        match walked {
            Ok(None) => self.none += 1,
            Ok(Some((_, length))) => self.found[length.saturating_sub(1) as usize / 8] += 1,
            Err((odd, level)) => self.odd[*odd as usize][*level as usize] += 1,
        }
    }
}

/// All of it, so many times.
pub fn compare(random: impl Fn(&'static str, u64) -> Random, times: u64, tally: &mut Tally) {
    let mut seen = Packs::default();
    tally.case("packs", 0, fields());
    for case in 0..TABLES * times {
        if !tally.enough() {
            tally.case("packs", case, table(&mut random("packs", case), case % TABLES, &mut seen));
        }
    }
    for case in 0..DAMAGED * times {
        if !tally.enough() {
            tally.case("damaged packs", case, packs_damaged::words(&mut random("damaged packs", case), &mut seen));
        }
    }
    tally.differences += if tally.enough() { 0 } else { seen.told() };
}

/// A random table, or words that are hardly one, built from into words of several numbers.
fn table(random: &mut Random, case: u64, seen: &mut Packs) -> Same {
    let (list, arrays) = any_table(random, case);
    let mut words = scattered(random, &list, arrays);
    match case % 6 {
        1 => (0..random.within(1..=3)).for_each(|_| damage(random, &mut words)),
        2 if case % 24 == 2 => words = vec![random.word(); random.pick(&SIZES[..13])],
        _ => (),
    }
    let side = random.pick(&[Side::Front, Side::Back]);
    let words = Lent::copy_of(&words, side);
    let need = needed(&words, seen)?;
    let more = need.unwrap_or(HEADER) + random.below(40);
    let fewer = random.below(need.unwrap_or(3_000));
    for room in [fewer, need.unwrap_or(2_048).saturating_sub(1), more] {
        let litter: Vec<u32> = (0..room).map(|_| random.word()).collect();
        let packed = built(&words, &litter, side, seen)?;
        let Some(packed) = packed else { continue };
        let memory: Memory = layout::read(&words);
        let list = memory.list().expect("what is built from is a table").winners().clone();
        count_masks(&packed, seen);
        look_up(&packed, &some_addresses(random, &list), Some(&list), seen)?;
    }
    Ok(())
}

/// Mostly few arrays, of few prefixes or of many; now and then all that there can be.
fn any_table(random: &mut Random, case: u64) -> (CandidateList, usize) {
    let arrays = match case {
        0 => 4_096,
        _ => random.within(1..=12),
    };
    if case == 0 || case % 3 > 0 {
        let terrain = Terrain::new(random, arrays);
        return (filling(random, &terrain, arrays), arrays);
    }
    let prefixes = random.pick(&[5, 30, 100, 400, if case % 60 == 0 { 4_000 } else { 60 }]);
    let list = any_list(random, prefixes);
    let arrays = list.winners().need() + random.below(3);
    (list, arrays.min(4_096))
}

fn needed(words: &Lent<u32>, seen: &mut Packs) -> Result<Option<usize>, String> {
    begin_call("packed::need");
    let told = library(words.sealed(toggleash::packed::need));
    let expected = packed::need(words).map_err(Refusal::number);
    seen.saw_answer(&expected);
    same(|| "packed::need".into(), told, expected)?;
    Ok(expected.ok())
}

/// Builds into words that hold something; all of them are compared. Gives what was built.
fn built(words: &Lent<u32>, litter: &[u32], side: Side, seen: &mut Packs) -> Result<Option<Lent<u32>>, String> {
    let what = || format!("packed::build into {} words", litter.len());
    let mut expected = litter.to_vec();
    let mut packed = Lent::copy_of(litter, side);
    begin_call("packed::build");
    let told = library(words.sealed(|words| toggleash::packed::build(words, &mut packed)));
    let answer = packed::build(words, &mut expected).map_err(Refusal::number);
    seen.saw_answer(&answer);
    same(
        what,
        told.map(|built| (built.arrays as usize, built.words)),
        answer.map(|built| (built.arrays, built.words)),
    )?;
    left(what, &expected, &packed)?;
    seen.tables += u64::from(answer.is_ok());
    Ok(answer.is_ok().then_some(packed))
}

/// The masks that the entries name.
fn count_masks(packed: &[u32], seen: &mut Packs) {
    for entry in packed[HEADER..].chunks_exact(packed::ENTRY).filter(|entry| entry[2] != 0 && entry[3] <= 255) {
        seen.masks[entry[3].count_ones() as usize] += 1;
    }
}

/// Around some of the list's prefixes, all of them if they are few, and anywhere.
pub fn some_addresses(random: &mut Random, list: &RouteList) -> Vec<u32> {
    let mut prefixes: Vec<_> = list.routes().iter().map(|route| route.prefix).collect();
    if prefixes.len() > AROUND {
        random.shuffle(&mut prefixes);
        prefixes.truncate(AROUND);
    }
    let mut addresses: Vec<u32> = prefixes.into_iter().flat_map(neighbours).collect();
    // Beside a prefix: some of its bits are another's.
    let near: Vec<u32> =
        addresses.iter().map(|address| address ^ random.word() & random.word() & random.word()).collect();
    addresses.extend(near);
    addresses.extend((0..ANYWHERE).map(|_| random.word()));
    addresses
}

/// Lookups by the walk on any words, and by longest match where they are a compressed table of a list.
pub fn look_up(packed: &Lent<u32>, addresses: &[u32], list: Option<&RouteList>, seen: &mut Packs) -> Same {
    begin_call("packed::lookup");
    packed.sealed(|words| {
        addresses.iter().try_for_each(|&address| {
            let what = || format!("packed::lookup {}", Ipv4Addr::from(address));
            let told = library(toggleash::packed::lookup(words, address.into()));
            let told = told.map(|found| found.map(|found| (found.hop, found.length)));
            let walked = packed::trace(words, address);
            seen.saw_walk(&walked);
            same(what, told, walked.map_err(|_| Refusal::NotATable.number()))?;
            let Some(list) = list else { return Ok(()) };
            same(what, told, Ok(list.longest_match(address).map(|route| (route.hop, route.prefix.length))))
        })
    })
}

/// A compressed table of a few routes, for damage, with its list.
pub fn small(random: &mut Random) -> (RouteList, Vec<u32>) {
    let arrays = random.within(2..=10);
    let terrain = Terrain::new(random, arrays);
    let list: CandidateList = filling(random, &terrain, arrays);
    // The default route and all first bytes as often as not, so that walks that are turned aside find something.
    let mut candidates = list.candidates().to_vec();
    if random.chance(50) {
        candidates.push(Candidate {
            prefix: reference::Prefix { address: 0, length: 0 },
            feed: 1,
            preference: 0,
            hop: 7,
        });
    }
    let list = CandidateList::from(candidates);
    let words = scattered(random, &list, arrays);
    let mut packed = vec![0; toggleash::packed::need(&words).expect("a table")];
    toggleash::packed::build(&words, &mut packed).expect("words enough");
    (list.winners().clone(), packed)
}

/// What only a caller in C can do: null with length 0, lengths that no memory has; and every field that is not meant is 0.
fn fields() -> Same {
    let mut words = Lent::copy_of(&[0; 6_144], Side::Back);
    let mut packed = Lent::copy_of(&[7; 2_048], Side::Back);
    let (first, n, none) = (words.as_mut_ptr(), words.len(), std::ptr::null_mut());
    let needed = |refusal, words| Needed { refusal, words };
    let refused = |refusal| Packed { refusal, ..Packed::default() };
    let nothing = Match { refusal: 2, ..Match::default() };
    begin_call("a call of C on compressed tables");
    unsafe {
        for far in [0, 1, 3 << 23, 1 << 32, (3 << 32) + 6_144, usize::MAX] {
            same(|| format!("packed need of {far}"), ffi::toggleash_packed_need(none, far), needed(1, 0))?;
            same(|| format!("packed build from {far}"), ffi::toggleash_packed_build(none, far, none, 0), refused(1))?;
        }
        same(|| "packed lookup in null".into(), ffi::toggleash_packed_lookup(none, 0, 7), nothing)?;
        same(|| "packed need of none".into(), ffi::toggleash_packed_need(first, n), needed(2, 0))?;
        same(|| "packed build from none".into(), ffi::toggleash_packed_build(first, n, none, 0), refused(2))?;
        same(|| "clear".into(), ffi::toggleash_clear(first, n), 0)?;
        same(|| "packed need".into(), ffi::toggleash_packed_need(first, n), needed(0, 2_048))?;
        same(|| "packed build to null".into(), ffi::toggleash_packed_build(first, n, none, 0), refused(9))?;
        let (to, m) = (packed.as_mut_ptr(), packed.len());
        same(|| "packed build to few".into(), ffi::toggleash_packed_build(first, n, to, m - 1), refused(9))?;
        let built = Packed { arrays: 1, words: 2_048, ..Packed::default() };
        same(|| "packed build".into(), ffi::toggleash_packed_build(first, n, to, m), built)?;
        same(|| "packed lookup".into(), ffi::toggleash_packed_lookup(to, m, u32::MAX), Match::default())?;
        same(|| "packed lookup in too few".into(), ffi::toggleash_packed_lookup(to, m - 1, u32::MAX), nothing)
    }
}
