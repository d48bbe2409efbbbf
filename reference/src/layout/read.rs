//! Which words are a table, and the list that they stand for.

use super::slot::{candidate, is_right};
use super::totals::totals_right;
use super::{cells, tag_below, winners, Arrays, CELLS, ROOT_TAG, SLOT};
use crate::address::Address;
use crate::candidates::{Candidate, CandidateList};
use crate::list::Prefix;
use crate::memory::{Counts, Memory, ARRAY_WORDS};
use crate::refusal::Refusal;

/// The words as a size and, where they are a table of the family, its list.
pub fn read<A: Address>(words: &[u32]) -> Memory<A> {
    let list = Arrays::new(words).filter(|arrays| is_table(arrays, A::LEVELS)).map(|arrays| {
        let mut found = Vec::new();
        collect(&arrays, 1, 0, A::default(), &mut found);
        CandidateList::from(found)
    });
    Memory::new(words.len(), list)
}

/// The answer of the check.
pub fn check<A: Address>(words: &[u32]) -> Result<Counts, Refusal> {
    read::<A>(words).check()
}

fn is_table(arrays: &Arrays, levels: u32) -> bool {
    let all = 1..=arrays.count();
    header_right(arrays)
        && arrays.tag(1) == ROOT_TAG
        && all.clone().all(|a| free_is_zero(arrays, a) && tag_right(arrays, a) && links_right(arrays, a, levels))
        && all.clone().all(|a| arrays.tag(a) == 0 || used_right(arrays, a))
}

/// The counts of used arrays, in all and by groups of eight, and zeros after them.
fn header_right(arrays: &Arrays) -> bool {
    let mut expected = [0; ARRAY_WORDS];
    for a in (1..=arrays.count()).filter(|&a| arrays.tag(a) != 0) {
        expected[0] += 1;
        expected[1 + (a - 1) / 8] += 1;
    }
    arrays.header() == expected
}

fn free_is_zero(arrays: &Arrays, a: usize) -> bool {
    arrays.tag(a) != 0 || arrays.is_blank(a)
}

fn used_right(arrays: &Arrays, a: usize) -> bool {
    slots_right(arrays, a) && cells_right(arrays, a) && totals_right(arrays, a)
}

/// A used array but the root hangs where its tag says, and holds something.
fn tag_right(arrays: &Arrays, a: usize) -> bool {
    let tag = arrays.tag(a);
    if a == 1 || tag == 0 {
        return true;
    }
    let hangs = match arrays.held(tag / 8192) {
        Some(parent) => arrays.below(parent, (tag / 32 % 256) as usize) == Some(a as u32),
        None => false,
    };
    let holds = arrays.page(a)[2 * SLOT..CELLS].iter().any(|&word| word != 0);
    hangs && (holds || (0..256).any(|cell| arrays.below(a, cell).is_some()))
}

/// Each link leads to an array whose tag names that cell, one level down, and none leaves the last level.
fn links_right(arrays: &Arrays, a: usize, levels: u32) -> bool {
    let tag = arrays.tag(a);
    (0..256).all(|cell| match arrays.below(a, cell) {
        None => true,
        Some(number) => match arrays.held(number) {
            Some(below) => tag % 32 < levels && arrays.tag(below) == tag_below(a, cell, tag),
            None => false,
        },
    })
}

fn slots_right(arrays: &Arrays, a: usize) -> bool {
    let in_range = arrays.page(a)[SLOT..CELLS].iter().all(|&word| is_right(word));
    in_range && (a == 1 || arrays.slot(a, 1) == [0; SLOT])
}

/// Each best and each block is what slots and links make it.
fn cells_right(arrays: &Arrays, a: usize) -> bool {
    let links: Vec<_> = (0..256).map(|cell| arrays.below(a, cell)).collect();
    cells(&winners(arrays.page(a)), &links).into_iter().enumerate().all(|(at, cell)| arrays.cell(a, at) == cell)
}

/// Adds the candidates of array `a`, whose head is `head`, and of all that hangs below it.
fn collect<A: Address>(arrays: &Arrays, a: usize, level: u32, head: A, found: &mut Vec<Candidate<A>>) {
    for slot in 1..512_usize {
        let prefix = prefix_of(slot, level, head);
        for (feed, &word) in (1..).zip(arrays.slot(a, slot)) {
            let candidate = candidate(word).map(|(preference, hop)| Candidate { prefix, feed, preference, hop });
            found.extend(candidate);
        }
    }
    for cell in 0..=255 {
        if let Some(below) = arrays.below(a, cell.into()).and_then(|number| arrays.held(number)) {
            collect(arrays, below, level + 1, head | A::with_byte(cell, level), found);
        }
    }
}

/// The prefix that a slot of the array at this level, with this head, stands for.
pub fn prefix_of<A: Address>(slot: usize, level: u32, head: A) -> Prefix<A> {
    let bits = slot.ilog2();
    let value = slot - (1 << bits);
    Prefix { address: head | A::with_byte((value << (8 - bits)) as u8, level), length: 8 * level + bits }
}
