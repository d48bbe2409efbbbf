//! The totals of an array: for each slot, how many prefixes are held at it and below it, in arrays further down too.

use super::{winners, Arrays, TOTALS, UNUSED};
use crate::memory::ARRAY_WORDS;

/// Whether each total of array `a` is what its slots make it, and those of the arrays that its cells link to.
pub fn totals_right(arrays: &Arrays, a: usize) -> bool {
    totals(arrays, a).into_iter().enumerate().skip(1).all(|(slot, total)| u64::from(arrays.total(a, slot)) == total)
}

/// Writes the totals of array `a`, where its slots, its links and the totals of the arrays below stand already.
pub fn fill_totals(words: &mut [u32], a: usize) {
    let Some(arrays) = Arrays::new(words) else { return };
    let totals = totals(&arrays, a);
    let page = &mut words[ARRAY_WORDS * a..ARRAY_WORDS * (a + 1)];
    for (word, total) in page[TOTALS..UNUSED].iter_mut().zip(totals).skip(1) {
        *word = total as u32;
    }
}

/// What the totals must be, by the slot's number. The words below may say any number, so that a sum can be over a word's.
fn totals(arrays: &Arrays, a: usize) -> Vec<u64> {
    let taken = winners(arrays.page(a));
    let mut totals = vec![0; UNUSED - TOTALS];
    for slot in (1..totals.len()).rev() {
        let below = match slot {
            256.. => hanging(arrays, a, slot - 256),
            _ => totals[2 * slot] + totals[2 * slot + 1],
        };
        totals[slot] = u64::from(taken[slot].is_some()) + below;
    }
    totals
}

/// What the array below a cell holds in all; 0 if none is there.
fn hanging(arrays: &Arrays, a: usize, cell: usize) -> u64 {
    let below = arrays.below(a, cell).and_then(|number| arrays.held(number));
    below.map_or(0, |below| arrays.total(below, 1).into())
}
