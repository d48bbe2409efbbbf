//! A reading of docs/PACKED.md: the prefixes and the mask of an array, the words that a table needs compressed, the words
//! themselves, and what the lookup's walk gives on any words.

mod lay;
mod mask;
mod walk;

pub use lay::{build, need, Built};
pub use mask::{entry, index, mask, Bits};
pub use walk::{trace, walk, Odd};

/// The words before the first array.
pub const HEADER: usize = 1024;
/// The words of an entry.
pub const ENTRY: usize = 4;
/// Above the hop's bits of a cover stands its in-array length.
pub const LENGTHS: u32 = 65_536;
/// The levels, one for each byte of an address: compressed tables are of IPv4.
pub const LEVELS: u32 = 4;
/// The mask of all bits, which the first array has.
pub const FULL: u8 = 255;
