//! From hop to interface: tables, and words that are hardly one, with runs of entries of any number, whose gateways lead to
//! each other and to nowhere. Each address is resolved by the library and by the reference, under guard.

use std::net::Ipv4Addr;

use reference::layout;
use reference::resolve::{resolve, Entry, MOST_ENTRIES};
use reference::{Candidate, CandidateList, Refusal};
use toggleash::Hop;

use crate::damage::{damage, SIZES};
use crate::feeds::Terrain;
use crate::guard::{begin_call, Lent, Side};
use crate::lists::{filling, scattered};
use crate::pair::{library, same, Same};
use crate::random::Random;
use crate::rooms::neighbours;

/// Addresses resolved in one memory.
const ADDRESSES: usize = 60;

/// What was resolved, and how often each answer was the right one.
#[derive(Default)]
pub struct Resolves {
    pub addresses: u64,
    pub tables: u64,
    pub foreign: u64,
    /// An interface without a gateway, and with one; refusals 1, 2, 20, 21 and 22.
    answers: [u64; 7],
}

impl Resolves {
    /// Prints what was met. An answer that never was the right one has shown nothing: gives how many differences that makes.
    pub fn told(&self) -> u64 {
        let Resolves { addresses, tables, foreign, answers } = self;
        println!(
            "{addresses} addresses resolved in {tables} tables and {foreign} other memories: an interface without and"
        );
        println!("with a gateway, refusals 1, 2, 20, 21, 22 {answers:?} times");
        let missing = answers.contains(&0);
        if missing {
            println!("difference: one of them was never met");
        }
        u64::from(missing)
    }

    fn saw(&mut self, answer: &Result<(u32, Option<u32>), u8>) {
        self.addresses += 1;
        let which = match answer {
            Ok((_, None)) => 0,
            Ok((_, Some(_))) => 1,
            Err(number) => 2 + [1, 2, 20, 21, 22].iter().position(|n| n == number).expect("no other is told"),
        };
        self.answers[which] += 1;
    }
}

/// A table with few hops, some of them damaged, or words of any number.
pub fn memory(random: &mut Random, case: u64, seen: &mut Resolves) -> Same {
    let arrays = random.within(1..=12);
    let terrain = Terrain::new(random, arrays);
    let list = filling(random, &terrain, arrays);
    let list = few_hops(random, &list);
    let mut words = scattered(random, &list, arrays);
    match case % 4 {
        0 if case % 40 == 0 => words = vec![1; random.pick(&SIZES[..13])],
        0 => (0..random.within(1..=3)).for_each(|_| damage(random, &mut words)),
        _ => (),
    }
    let around: Vec<u32> = list.winners().routes().iter().flat_map(|route| neighbours(route.prefix)).collect();
    let entries = entries(random, &around);
    let addresses: Vec<u32> = (0..ADDRESSES).map(|_| address(random, &around)).collect();
    let side = random.pick(&[Side::Front, Side::Back]);
    resolved(&Lent::copy_of(&words, side), &Lent::copy_of(&entries, side), &addresses, seen)
}

/// The list with hops from 1 on, few enough for gateways to meet.
fn few_hops(random: &mut Random, list: &CandidateList) -> CandidateList {
    let most = random.pick(&[2, 4, 6, 12, 255, 256, 257, 65_535]);
    let low = |candidate: &Candidate| Candidate { hop: 1 + candidate.hop % most, ..*candidate };
    list.candidates().iter().map(low).collect::<Vec<_>>().into()
}

fn address(random: &mut Random, around: &[u32]) -> u32 {
    match around.is_empty() || random.chance(10) {
        true => random.word(),
        false => random.pick(around),
    }
}

/// Of any number, mostly as many as there are hops. The gateway beside an interface is there to be ignored.
fn entries(random: &mut Random, around: &[u32]) -> Vec<Hop> {
    let count = random.pick(&[0, 1, 2, 4, 6, 12, 12, 13, 255, 256, 256, 257, 300]);
    let interfaces = random.pick(&[20, 50, 90]);
    let entry = |random: &mut Random| {
        let interface = match random.below(100) {
            0 => random.word(),
            1..=4 => 65,
            5..=9 => random.pick(&[1, 64]),
            chance if chance < interfaces => random.within(1..=64) as u32,
            _ => 0,
        };
        Hop { interface, gateway: address(random, around) }
    };
    (0..count).map(|_| entry(random)).collect()
}

/// Resolves each address by the library; by the reference over the walk, and over the list where the words are a table.
fn resolved(words: &Lent<u32>, entries: &Lent<Hop>, addresses: &[u32], seen: &mut Resolves) -> Same {
    let run: Vec<Entry> = entries.iter().map(|e| Entry { interface: e.interface, gateway: e.gateway }).collect();
    let memory = layout::read(words);
    let (fits, table) = (memory.room().is_ok(), memory.list().is_ok());
    seen.tables += u64::from(table);
    seen.foreign += u64::from(!table);
    let walked = |asked| Ok(layout::walk(words, asked)?.found.map(|(hop, _)| hop));
    let held = |asked| Ok(memory.lookup(asked)?.route.map(|route| route.hop));
    addresses.iter().try_for_each(|&address| {
        let what = || format!("resolve {} with {} entries", Ipv4Addr::from(address), run.len());
        begin_call("resolve");
        let told = words.sealed(|words| {
            entries.sealed(|entries| library(toggleash::resolve::resolve(words, entries, address.into())))
        });
        let told = told.map(|route| (route.interface, route.gateway.map(u32::from)));
        let expected = resolve(fits, walked, &run, address).map_err(Refusal::number);
        let expected = expected.map(|reached| (reached.interface, reached.gateway));
        seen.saw(&expected);
        same(what, told, expected)?;
        if !table {
            return Ok(());
        }
        let listed = resolve(fits, held, &run, address).map_err(Refusal::number);
        same(what, told, listed.map(|reached| (reached.interface, reached.gateway)))
    })
}

/// As many entries as there may be, and one more, whatever the words: what only a caller in C can do is to lend none at null, and
/// a number of entries that no memory has, which are not read.
pub fn far_entries() -> Same {
    use toggleash::ffi::{self, Route};
    let words = Lent::copy_of(&[0; 6_144], Side::Back);
    let none = std::ptr::null();
    begin_call("a resolve of C with null and far lengths");
    for count in [0, MOST_ENTRIES + 1, 1 << 32, usize::MAX] {
        let refusal = if count == 0 { 20 } else { 21 };
        let route = unsafe { ffi::toggleash_resolve(words.as_ptr(), words.len(), none, count, 7) };
        same(|| format!("resolve with {count} entries"), route, Route { refusal, ..Route::default() })?;
        let route = unsafe { ffi::toggleash_resolve(words.as_ptr(), 6_145, none, count, 7) };
        same(
            || format!("resolve in 6,145 words with {count} entries"),
            route,
            Route { refusal: 1, ..Route::default() },
        )?;
    }
    Ok(())
}
