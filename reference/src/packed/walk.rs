//! The lookup's walk over any words.

use super::{index, Bits, ENTRY, FULL, HEADER, LENGTHS, LEVELS};
use crate::address::Address;
use crate::layout::{Found, MOST};
use crate::refusal::Refusal;

/// What no compressed table has where the walk meets it.
#[derive(Clone, Copy, Debug, PartialEq, Eq)]
pub enum Odd {
    /// A mask over 255.
    Mask,
    /// An entry that does not lie wholly in the words.
    Place,
    /// A slot over 511.
    Slot,
    /// An in-array length over 8.
    Length,
    /// An array below the last level.
    Below,
}

/// The walk's answer.
pub fn walk(words: &[u32], address: u32) -> Result<Found, Refusal> {
    trace(words, address).map_err(|_| Refusal::NotATable)
}

/// The walk, or what it meets that no compressed table has, and the level of that.
pub fn trace(words: &[u32], address: u32) -> Result<Found, (Odd, u32)> {
    let (mut found, mut place, mut mask) = (None, HEADER, u32::from(FULL));
    for level in 0..LEVELS {
        let odd = |odd| (odd, level);
        let byte = address.byte(level) as u8;
        let mask_here = u8::try_from(mask).map_err(|_| odd(Odd::Mask))?;
        let from = place + ENTRY * index(mask_here, byte);
        let &[slot, cover, below, next] = words.get(from..from + ENTRY).ok_or(odd(Odd::Place))? else {
            unreachable!("an entry has four words")
        };
        if slot > 511 {
            return Err(odd(Odd::Slot));
        }
        if slot == 0 || !Bits::of_slot(slot as usize).matches(byte) {
            return Ok(found);
        }
        let (length, hop) = (cover / LENGTHS, cover % LENGTHS);
        if length > MOST {
            return Err(odd(Odd::Length));
        }
        if hop != 0 {
            found = Some((hop, 8 * level + length));
        }
        if below == 0 {
            return Ok(found);
        }
        (place, mask) = (below as usize, next);
    }
    Err((Odd::Below, LEVELS - 1))
}
