//! Words laid out for a list, with array numbers that the caller chooses: tables that updates alone might never reach.

use std::collections::BTreeMap;

use super::{cells, fill_totals, tag_below, winners, word, Cell, End, CELLS, ROOT_TAG, SLOT, TOTALS};
use crate::address::Address;
use crate::candidates::{Candidate, CandidateList};
use crate::list::{Prefix, RouteList};
use crate::memory::ARRAY_WORDS;

/// Lays the list out in a table of `arrays` arrays. The arrays but the root, in the order of level and head, get the
/// numbers in turn, which must be distinct, from 2 to `arrays`, and enough.
pub fn lay<A: Address>(list: &CandidateList<A>, arrays: usize, numbers: &[usize]) -> Vec<u32> {
    let mut words = vec![0; ARRAY_WORDS * (arrays + 1)];
    words[ARRAY_WORDS] = ROOT_TAG;
    let numbered = number(list.winners(), numbers);
    for (&(level, head), &a) in &numbered {
        hang(&mut words, numbered.get(&parent(level, head)).copied().unwrap_or(1), a, level, head);
    }
    for &Candidate { prefix, feed, preference, hop } in list.candidates() {
        let page = ARRAY_WORDS * numbered.get(&(prefix.level(), prefix.head())).copied().unwrap_or(1);
        words[page + SLOT * slot(prefix) + feed as usize - 1] = word(preference, hop);
    }
    // A total needs those of the arrays below.
    let deepest_first = numbered.values().rev().copied().chain([1]);
    for a in deepest_first {
        words[0] += 1;
        words[1 + (a - 1) / 8] += 1;
        fill_cells(&mut words[ARRAY_WORDS * a..ARRAY_WORDS * (a + 1)]);
        fill_totals(&mut words, a);
    }
    words
}

/// The number of each array below the root, by its level and head.
fn number<A: Address>(list: &RouteList<A>, numbers: &[usize]) -> BTreeMap<(u32, A), usize> {
    let mut heads = BTreeMap::new();
    for route in list.routes() {
        for level in 1..=route.prefix.level() {
            heads.insert((level, route.prefix.address & A::mask(8 * level)), 0);
        }
    }
    assert!(heads.len() <= numbers.len(), "fewer numbers than arrays");
    for (number, &given) in heads.values_mut().zip(numbers) {
        *number = given;
    }
    heads
}

fn parent<A: Address>(level: u32, head: A) -> (u32, A) {
    (level - 1, head & A::mask(8 * (level - 1)))
}

/// Links array `a` from its parent and tags it. Parents come first in the order of levels, so theirs is set already.
fn hang<A: Address>(words: &mut [u32], parent: usize, a: usize, level: u32, head: A) {
    let cell = head.byte(level - 1);
    words[ARRAY_WORDS * parent + CELLS + cell] = Cell { hop: 0, length: 0, end: End::Link(a as u32) }.word();
    words[ARRAY_WORDS * a] = tag_below(parent, cell, words[ARRAY_WORDS * parent]);
}

/// The number of a prefix's slot in its array.
pub fn slot<A: Address>(prefix: Prefix<A>) -> usize {
    let bits = prefix.length - 8 * prefix.level();
    (1 << bits) + (prefix.address.byte(prefix.level()) >> (8 - bits))
}

/// Bests and blocks, where the links stand already.
fn fill_cells(page: &mut [u32]) {
    let links: Vec<_> = page[CELLS..TOTALS].iter().map(|&word| Cell::of(word).link()).collect();
    for (cell, word) in cells(&winners(page), &links).into_iter().zip(&mut page[CELLS..TOTALS]) {
        *word = cell.word();
    }
}
