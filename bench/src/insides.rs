//! Counts of the prefixes inside one, beside lookups of addresses inside it: of prefixes of any length anywhere, of held ones,
//! and of single addresses in the deepest arrays, to which the walk is longest.

use std::hint::black_box;

use compare::random::Random;
use reference::Prefix;
use toggleash::ffi;

use crate::clock::{measure, Way};
use crate::lists::{self, Load};
use crate::sums::sum_of_table;
use crate::{table, title, Scale, ARRAYS};

pub fn counts(random: &mut Random, scale: &Scale, load: &Load) {
    let words = &table(&load.candidates, ARRAYS);
    let anywhere = |random: &mut Random| Prefix::around(random.word(), random.below(33) as u32);
    let held = |random: &mut Random| random.pick(load.list.routes()).prefix;
    let deep = lists::deep_addresses(random, load, scale.addresses);
    let sets = [
        ("prefixes anywhere", (0..scale.addresses).map(|_| anywhere(random)).collect::<Vec<_>>()),
        ("held prefixes", (0..scale.addresses).map(|_| held(random)).collect()),
        ("addresses in the deepest arrays", deep.into_iter().map(|address| Prefix { address, length: 32 }).collect()),
    ];
    for (name, prefixes) in &sets {
        let addresses: Vec<u32> = prefixes.iter().map(|prefix| prefix.address).collect();
        let ways = vec![
            Way::new("toggleash_within", || unlike(sum(words, prefixes))),
            Way::new("toggleash_lookup of their first address", || {
                unlike(sum_of_table(ffi::toggleash_lookup, words, &addresses))
            }),
        ];
        measure(&title("count inside", load, name), scale.rounds, prefixes.len(), ways);
    }
}

/// The sum of the totals told.
fn sum(words: &[u32], prefixes: &[Prefix]) -> u64 {
    // SAFETY: the pointer and length are the slice's.
    let total = |p: &Prefix| unsafe { ffi::toggleash_within(words.as_ptr(), words.len(), p.address, p.length) };
    prefixes.iter().map(|prefix| u64::from(total(prefix).prefixes)).sum()
}

/// The two ways answer different things, so that their sums are not to be compared.
fn unlike(sum: u64) -> u64 {
    black_box(sum);
    0
}
