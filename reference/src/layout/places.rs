//! Where prefixes stand in a table's words, held or not.

use super::read::prefix_of;
use super::{Arrays, SLOT};
use crate::address::Address;
use crate::list::Prefix;
use crate::memory::ARRAY_WORDS;

/// The place of the first word of each slot of a table's used arrays that a prefix stands in, with the prefix.
pub fn places<A: Address>(words: &[u32]) -> Vec<(usize, Prefix<A>)> {
    let arrays = Arrays::new(words).expect("the words are a table");
    let default = Prefix { address: A::default(), length: 0 };
    let mut found = vec![(ARRAY_WORDS + SLOT, default)];
    below(&arrays, 1, 0, A::default(), &mut found);
    found
}

/// Those of an array, and of all that hangs below it. Slot 1 is nobody's but in the root: a prefix of eight bits more stands in the
/// array above, where its cell is.
fn below<A: Address>(arrays: &Arrays, a: usize, level: u32, head: A, found: &mut Vec<(usize, Prefix<A>)>) {
    found.extend((2..512).map(|slot| (ARRAY_WORDS * a + SLOT * slot, prefix_of(slot, level, head))));
    for cell in 0..=255 {
        if let Some(next) = arrays.below(a, cell.into()).and_then(|number| arrays.held(number)) {
            below(arrays, next, level + 1, head | A::with_byte(cell, level), found);
        }
    }
}
