//! The lookup's walk over any words of a right size.

use super::{Arrays, End, MOST};
use crate::address::Address;
use crate::refusal::Refusal;

/// Hop and length that a walk ends with, if any.
pub type Found = Option<(u32, u32)>;

/// What the walk ends with.
#[derive(Clone, Copy, Debug, PartialEq, Eq)]
pub struct Walked {
    pub found: Found,
    pub block: u32,
}

/// What no table has in a cell that the walk meets.
#[derive(Clone, Copy, Debug, PartialEq, Eq)]
pub enum Odd {
    /// A length over 8, with a hop or without.
    Length,
    /// A block over 8.
    Block,
    /// A link to an array that the words do not hold, as at the last level no link leads to one.
    Array,
}

/// Follows the links by the bytes of the address, keeping the last best that it meets.
pub fn walk<A: Address>(words: &[u32], address: A) -> Result<Walked, Refusal> {
    let arrays = Arrays::new(words).ok_or(Refusal::WordCount)?;
    trace(&arrays, address).map_err(|_| Refusal::NotATable)
}

/// The walk, or what it meets that no table has, and the level of that.
pub fn trace<A: Address>(arrays: &Arrays, address: A) -> Result<Walked, (Odd, u32)> {
    let mut found = None;
    let mut a = 1;
    for level in 0..A::LEVELS {
        let odd = |odd| (odd, level);
        let cell = arrays.cell(a, address.byte(level));
        if cell.length > MOST {
            return Err(odd(Odd::Length));
        }
        if cell.hop != 0 {
            found = Some((cell.hop, 8 * level + cell.length));
        }
        match cell.end {
            End::Block(block @ 0..=MOST) => return Ok(Walked { found, block: 8 * level + block }),
            End::Block(_) => return Err(odd(Odd::Block)),
            End::Link(_) if level + 1 == A::LEVELS => return Err(odd(Odd::Array)),
            End::Link(number) => a = arrays.held(number).ok_or(odd(Odd::Array))?,
        }
    }
    unreachable!("the last level leads nowhere")
}
