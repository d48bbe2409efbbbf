//! When words are a copy of a list, which header a build makes, and which words it leaves.

use std::collections::BTreeMap;

use super::walk::{look, table};
use super::{markers, Built, HEADER};
use crate::list::{Prefix, RouteList};

/// Bits of one length as numbers, each with its best match as a number.
type Entries = BTreeMap<u32, u32>;

const DEFAULT: Prefix = Prefix { address: 0, length: 0 };

/// Whether the words are a copy of the list.
pub fn stands(list: &RouteList, words: &[u32]) -> bool {
    let need = Built::of(list).need();
    let entries = entries(list);
    words.len() >= need
        && words[0] == best(list, DEFAULT)
        && (1..=32).all(|m| lies(words, m, need) && tells(words, m, &entries[m as usize]))
}

/// The entries of each length: the routes and the markers.
fn entries(list: &RouteList) -> Vec<Entries> {
    let mut entries = vec![Entries::new(); 33];
    let routes = list.routes().iter().map(|route| route.prefix);
    for prefix in routes.chain(markers(list)).filter(|&prefix| prefix != DEFAULT) {
        let bits = prefix.address >> (32 - prefix.length);
        entries[prefix.length as usize].insert(bits, best(list, prefix));
    }
    entries
}

/// The longest route of at most the prefix's bits that matches them, as a number.
fn best(list: &RouteList, prefix: Prefix) -> u32 {
    let route = |length| Some(list.hop(Prefix::around(prefix.address, length))? * 256 + length);
    (0..=prefix.length).rev().find_map(route).unwrap_or(0)
}

/// The table of length m ends by the words needed.
fn lies(words: &[u32], m: u32, need: usize) -> bool {
    table(&words[..need], m).is_some()
}

/// The probe for any bits finds the best match if they are an entry, and nothing otherwise. Bits that are no entry and
/// stand at no place are not found by any probe, so they need not be tried. A key that no bits of this length have
/// tells a number that is no entry either.
fn tells(words: &[u32], m: u32, entries: &Entries) -> bool {
    let right = |bits: u32| look(words, m, bits) == Ok(entries.get(&bits).copied());
    let table = table(words, m).expect("it lies inside");
    table.entries().all(|entry| right(entry.bits)) && entries.keys().all(|&bits| right(bits))
}

/// The words of the header that a build writes for the lengths, each with its number: the entries of all shorter lengths,
/// and the length's own, or 2^32 - 1 if these are 2^32.
pub fn header(list: &RouteList) -> Vec<(usize, u32)> {
    let told = |number: usize| u32::try_from(number).unwrap_or(u32::MAX);
    let (mut words, mut before) = (Vec::new(), 0);
    for (m, entries) in entries(list).iter().enumerate().skip(1) {
        words.extend([(2 * m, told(before)), (2 * m + 1, told(entries.len()))]);
        before += entries.len();
    }
    words
}

/// Of so many words, those that a build leaves as they are: the header's without a use, the last eight needed if the
/// default route is held, and all past the need. (All addresses as routes of length 32 would leave eight more.)
pub fn kept(list: &RouteList, words: usize) -> Vec<usize> {
    let header = (1..HEADER).filter(|at| !(2..2 * 33).contains(at));
    let tables_end = Built::of(list).need() - if list.hop(DEFAULT).is_some() { 8 } else { 0 };
    header.chain(tables_end..words).collect()
}
