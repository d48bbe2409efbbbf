//! The shortest list: from random tables of few hops, and from words that are hardly one, into buffers and with a scratch of any size,
//! against the reference's list, bytes and scratch. What is written is then taken as a list, as a feed and as a copy, which must all
//! forward as the table does.

use std::net::Ipv4Addr;

use reference::shortest::{shortest, Sets, DEFAULT};
use reference::{copy, layout, Candidate, CandidateList, Memory, Refusal, RouteList};
use toggleash::ffi::{self, Written};
use toggleash::Stop;

use crate::damage::{damage, SIZES};
use crate::feeds::{preference, Terrain};
use crate::guard::{begin_call, Lent, Side};
use crate::lists::{any_list, filling, scattered};
use crate::pair::{left, library, same, Same, Told};
use crate::random::Random;
use crate::rooms::neighbours;
use crate::tally::Tally;

/// Tables that a plain run takes, and addresses anywhere that are looked up in each.
const TABLES: u64 = 1_500;
const ANYWHERE: usize = 60;
/// Refusals that the call tells.
const REFUSALS: [u8; 5] = [1, 2, 23, 24, 9];

/// What was compared, and how often each answer was the right one.
#[derive(Default)]
struct Shorts {
    calls: u64,
    tables: u64,
    lookups: u64,
    /// Routes of the tables, and of the lists written.
    routes: u64,
    short: u64,
    /// Prefixes of the lists that the tables do not hold, and lists that need fewer arrays.
    new: u64,
    fewer: u64,
    written: u64,
    refused: [u64; 5],
}

impl Shorts {
    /// Prints what was met. An answer that never was the right one has shown nothing: gives how many differences that makes.
    fn told(&self) -> u64 {
        let Shorts { calls, tables, lookups, routes, short, new, fewer, written, refused } = self;
        println!("{calls} calls for the shortest list, of {tables} tables: {short} routes for {routes}, {new} of them not held,");
        println!("fewer arrays needed {fewer} times; {lookups} addresses forwarded; written, refused with 1, 2, 23, 24, 9 {written},");
        println!("{refused:?} times");
        let missing = [&[*written, *new, *fewer], &refused[..]].concat().contains(&0);
        if missing {
            println!("difference: one of them was never met");
        }
        u64::from(missing)
    }

    fn saw(&mut self, answer: &Result<Vec<u8>, u8>) {
        self.calls += 1;
        match answer {
            Ok(_) => self.written += 1,
            Err(number) => {
                self.refused[REFUSALS.iter().position(|n| n == number).expect("no other is told")] += 1;
            }
        }
    }
}

/// All of it, so many times.
pub fn compare(random: impl Fn(&'static str, u64) -> Random, times: u64, tally: &mut Tally) {
    let mut seen = Shorts::default();
    tally.case("shortest", 0, fields());
    for case in 0..TABLES * times {
        if !tally.enough() {
            tally.case("shortest", case, memory(&mut random("shortest", case), case % TABLES, &mut seen));
        }
    }
    tally.differences += if tally.enough() { 0 } else { seen.told() };
}

/// A random table, or words that are hardly one, with scratches and buffers of several sizes.
fn memory(random: &mut Random, case: u64, seen: &mut Shorts) -> Same {
    let (list, arrays) = any_table(random, case);
    let mut words = scattered(random, &list, arrays);
    match case % 20 {
        1 => (0..random.within(1..=3)).for_each(|_| damage(random, &mut words)),
        2 if case % 100 == 2 => words = vec![random.word(); random.pick(&SIZES[..13])],
        _ => (),
    }
    let table = Table::new(&words, random.pick(&[Side::Front, Side::Back]));
    let n = words.len();
    let full = table.short.as_ref().map_or(60, |list| list.encoding().len());
    let (more, fewer) = (full + random.below(40), random.below(full));
    let less = if random.chance(50) { n.saturating_sub(1) } else { random.below(n.max(1)) };
    if case % 5 == 0 {
        table.call(random, less, more, seen)?;
    }
    for (scratch, room) in [(n, fewer), (n + random.below(40), full - 1), (n, more)] {
        let Some(bytes) = table.call(random, scratch, room, seen)? else { continue };
        table.taken(random, &bytes, seen)?;
    }
    Ok(())
}

/// Mostly few arrays, of few prefixes or of many; now and then all that there can be. Mostly with the default route, and with hops
/// from 1 to 32.
fn any_table(random: &mut Random, case: u64) -> (CandidateList, usize) {
    let arrays = match case {
        0 => 4_096,
        _ => random.within(1..=8),
    };
    let list = match case == 0 || random.chance(40) {
        true => {
            let terrain = Terrain::new(random, arrays);
            filling(random, &terrain, arrays)
        }
        false => {
            let prefixes = random.pick(&[3, 10, 30, 100, 300, if case % 60 == 0 { 4_000 } else { 60 }]);
            any_list(random, prefixes)
        }
    };
    let list = few_hops(random, &list);
    let arrays = arrays.max(list.winners().need() + random.below(3)).min(4_096);
    (list, arrays)
}

/// The list with few hops, and with the default route or without; some with a hop over 32, of a winner or of another.
fn few_hops(random: &mut Random, list: &CandidateList) -> CandidateList {
    let most = random.pick(&[1, 2, 2, 3, 4, 8, 31, 32, 32]);
    let (with_default, high) = (random.chance(92), random.chance(10));
    let mut candidates: Vec<Candidate> = list.candidates().to_vec();
    candidates.iter_mut().for_each(|candidate| candidate.hop = 1 + candidate.hop % most);
    candidates.retain(|candidate| with_default || candidate.prefix != DEFAULT);
    if with_default && !candidates.iter().any(|candidate| candidate.prefix == DEFAULT) {
        let hop = random.within(1..=most as usize) as u32;
        candidates.push(Candidate { prefix: DEFAULT, feed: 1, preference: preference(random), hop });
    }
    if high && !candidates.is_empty() {
        let at = random.below(candidates.len());
        candidates[at].hop = random.pick(&[33, 34, 64, 256, 65_535]);
    }
    candidates.into()
}

/// Lent words and what the reference makes of them.
struct Table {
    words: Lent<u32>,
    memory: Memory,
    side: Side,
    /// The shortest list, where there is one.
    short: Option<RouteList>,
    /// What a call that knows the list leaves in the scratch: words by their places.
    kept: Vec<(usize, u32)>,
}

impl Table {
    fn new(words: &[u32], side: Side) -> Table {
        let memory: Memory = layout::read(words);
        let short = shortest(&memory, true, usize::MAX).ok();
        let kept = match &short {
            Some(_) => kept(words, &Sets::of(memory.list().expect("a table").winners())),
            None => Vec::new(),
        };
        Table { words: Lent::copy_of(words, side), memory, side, short, kept }
    }

    /// One call with a scratch and a buffer of these sizes, which hold something. The answer, and every byte and word afterwards, are
    /// compared; a write to the table is a fault. Gives the bytes written.
    fn call(&self, random: &mut Random, s: usize, room: usize, seen: &mut Shorts) -> Result<Option<Vec<u8>>, String> {
        let what = || format!("shortest with {s} words of scratch into {room} bytes");
        let litter: Vec<u32> = (0..s).map(|_| random.word()).collect();
        let dust: Vec<u8> = (0..room).map(|_| random.byte()).collect();
        let (mut scratch, mut buffer) = (Lent::copy_of(&litter, self.side), Lent::copy_of(&dust, self.side));
        begin_call("shortest");
        let told = self.words.sealed(|words| {
            library(toggleash::shortest::shortest(words, &mut scratch, &mut buffer)).map(|front| front.to_vec())
        });
        let expected = shortest(&self.memory, s >= self.words.len(), room);
        let expected = expected.map(|list| list.encoding()).map_err(Refusal::number);
        seen.saw(&expected);
        same(what, &told, &expected)?;
        let (mut words, mut bytes) = (litter, dust);
        if matches!(expected, Ok(_) | Err(9)) {
            self.kept.iter().for_each(|&(at, set)| words[at] = set);
        }
        if let Ok(front) = &expected {
            bytes[..front.len()].copy_from_slice(front);
        }
        left(|| format!("the scratch after {}", what()), &words, &scratch)?;
        left(|| format!("the buffer after {}", what()), &bytes, &buffer)?;
        Ok(told.ok())
    }

    /// What was written is a list of kind 1, is taken whole by a cleared table of the same room, and a copy is built from it; all of
    /// these forward every address that matters as the table does.
    fn taken(&self, random: &mut Random, bytes: &[u8], seen: &mut Shorts) -> Same {
        let list = self.memory.list().expect("a shortest list is a table's").winners();
        let short = copy::listed(bytes).map_err(|_| "what is written is no list")?;
        let (again, card) = (self.ran(bytes, short.routes().len())?, card(bytes)?);
        seen.tables += 1;
        seen.routes += list.routes().len() as u64;
        seen.short += short.routes().len() as u64;
        seen.new += short.routes().iter().filter(|route| list.hop(route.prefix).is_none()).count() as u64;
        seen.fewer += u64::from(short.need() < list.need());
        for address in addresses(random, list, &short) {
            let what = |by: &str| format!("{} by {by}", Ipv4Addr::from(address));
            seen.lookups += 1;
            let expected = list.longest_match(address).map(|route| route.hop);
            same(|| what("the list"), short.longest_match(address).map(|route| route.hop), expected)?;
            same(|| what("the table"), in_table(&self.words, address), Ok(expected))?;
            same(|| what("the table of the list"), in_table(&again, address), Ok(expected))?;
            same(|| what("the copy of the list"), in_copy(&card, address), Ok(expected))?;
        }
        Ok(())
    }

    /// A cleared table of as many words that the bytes were run into: every record is accepted.
    fn ran(&self, bytes: &[u8], routes: usize) -> Result<Vec<u32>, String> {
        let (mut words, mut reply) = (vec![0; self.words.len()], vec![0; 5 * routes]);
        library(toggleash::clear(&mut words)).map_err(|n| format!("clear: refused {n}"))?;
        let ran = library(toggleash::run(&mut words, bytes, &mut reply)).map_err(|n| format!("run: refused {n}"))?;
        let ended = (ran.stop == Stop::End, ran.consumed, ran.accepted, ran.refused);
        same(|| "a run of the shortest list".into(), ended, (true, bytes.len(), routes, 0))?;
        Ok(words)
    }
}

/// A copy of the list.
fn card(bytes: &[u8]) -> Result<Vec<u32>, String> {
    let refused = |number| format!("a copy of the shortest list: refused {number}");
    let mut words = vec![0; library(toggleash::copy::need(bytes)).map_err(refused)?];
    library(toggleash::copy::build(bytes, &mut words)).map_err(refused)?;
    Ok(words)
}

/// The hop that an address gets.
fn in_table(words: &[u32], address: u32) -> Told<Option<u32>> {
    library(toggleash::lookup(words, address.into())).map(|answer| answer.found.map(|found| found.hop))
}

fn in_copy(words: &[u32], address: u32) -> Told<Option<u32>> {
    library(toggleash::copy::lookup(words, address.into())).map(|found| found.map(|found| found.hop))
}

/// The set of each prefix that stands in a slot, at the slot's first word: bit h - 1 for hop h.
fn kept(words: &[u32], sets: &Sets) -> Vec<(usize, u32)> {
    let word = |prefix| sets.set(prefix).iter().map(|hop| 1 << (hop - 1)).sum();
    layout::places(words).into_iter().map(|(at, prefix)| (at, word(prefix))).collect()
}

/// The first and last address of every prefix of both lists, those beside, and some anywhere. From one address to the next the hop
/// can change only where a route of either list begins or has ended, so these are all that matter.
fn addresses(random: &mut Random, list: &RouteList, short: &RouteList) -> Vec<u32> {
    let ends = list.routes().iter().chain(short.routes()).flat_map(|route| neighbours(route.prefix));
    ends.chain((0..ANYWHERE).map(|_| random.word())).collect()
}

/// What only a caller in C can do: null with length 0, lengths that no memory has; and the bytes are 0 where it is refused.
fn fields() -> Same {
    let mut words = Lent::copy_of(&[0; 6_144], Side::Back);
    let mut scratch = Lent::copy_of(&[7; 6_144], Side::Back);
    let mut buffer = Lent::copy_of(&[7; 9], Side::Back);
    let (first, n, kept, bytes) = (words.as_mut_ptr(), words.len(), scratch.as_mut_ptr(), buffer.as_mut_ptr());
    let (none, nothing) = (std::ptr::null_mut(), std::ptr::null_mut());
    let refused = |refusal| Written { refusal, bytes: 0 };
    begin_call("a call of C for the shortest list");
    unsafe {
        for far in [0, 1, 3 << 23, 1 << 32, (3 << 32) + 6_144, usize::MAX] {
            for s in [0, far, usize::MAX] {
                let what = || format!("shortest of {far} words with {s} of scratch");
                same(what, ffi::toggleash_shortest(none, far, none, s, nothing, 0), refused(1))?;
            }
        }
        let call = |s, room| ffi::toggleash_shortest(first, n, kept, s, bytes, room);
        same(|| "shortest of no table".into(), call(n, 9), refused(2))?;
        same(|| "shortest of no table, no scratch".into(), call(n - 1, 9), refused(1))?;
        same(|| "clear".into(), ffi::toggleash_clear(first, n), 0)?;
        same(|| "shortest of no route".into(), call(n, 9), refused(23))?;
        same(|| "announce".into(), ffi::toggleash_announce(first, n, 0, 0, 33, 1, 0).refusal, 0)?;
        same(|| "shortest of hop 33".into(), call(n, 9), refused(24))?;
        same(|| "announce".into(), ffi::toggleash_announce(first, n, 0, 0, 32, 1, 0).refusal, 0)?;
        same(|| "no scratch".into(), ffi::toggleash_shortest(first, n, none, 0, bytes, 9), refused(1))?;
        same(|| "no buffer".into(), ffi::toggleash_shortest(first, n, kept, n, nothing, 0), refused(9))?;
        same(|| "shortest into 8 bytes".into(), call(n, 8), refused(9))?;
        same(|| "shortest into 9 bytes".into(), call(n, 9), Written { refusal: 0, bytes: 9 })
    }
}
