//! The walk to a total over any words of a right size: how many prefixes lie inside a given one.

use super::lay::slot;
use super::Arrays;
use crate::address::Address;
use crate::list::Prefix;
use crate::memory::well_formed;
use crate::refusal::Refusal;

/// The slots of an array: no total of a table is over so many for each array.
const SLOTS: usize = 511;

/// What no table has where the walk meets it.
#[derive(Clone, Copy, Debug, PartialEq, Eq)]
pub enum OddTotal {
    /// A link to an array that the words do not hold.
    Array,
    /// A total over what all arrays could hold.
    Total,
}

/// The total that the walk leads to, for words, an address and a length of any kind.
pub fn within<A: Address>(words: &[u32], address: A, length: u32) -> Result<u32, Refusal> {
    let arrays = Arrays::new(words).ok_or(Refusal::WordCount)?;
    let prefix = well_formed(address, length)?;
    trace_total(&arrays, prefix).map_err(|_| Refusal::NotATable)
}

/// Follows the links to the prefix's own array, and reads its slot's total there; where a link is missing nothing lies inside.
/// Or what the walk meets that no table has, and the level of that.
pub fn trace_total<A: Address>(arrays: &Arrays, prefix: Prefix<A>) -> Result<u32, (OddTotal, u32)> {
    let mut a = 1;
    for level in 0..prefix.level() {
        let Some(number) = arrays.below(a, prefix.address.byte(level)) else { return Ok(0) };
        a = arrays.held(number).ok_or((OddTotal::Array, level))?;
    }
    let total = arrays.total(a, slot(prefix));
    match total as usize <= SLOTS * arrays.count() {
        true => Ok(total),
        false => Err((OddTotal::Total, prefix.level())),
    }
}
