//! The one word of a cell: its best, and either its link or its block.

use super::HOPS;

/// The links' bits of a word: a link, or length and block of a cell without one. Above them stands the hop of the best.
pub const LINKS: u32 = 4096;
/// Lengths and blocks within an array that a table can have.
pub const MOST: u32 = 8;

/// What the word of a cell says. Each word says one thing, and no two the same.
#[derive(Clone, Copy, Debug, PartialEq, Eq)]
pub struct Cell {
    /// The best's hop, 0 for none.
    pub hop: u32,
    /// The best's length within the array: up to 14 beside a link, up to 255 beside a block.
    pub length: u32,
    pub end: End,
}

/// Whether the walk goes on below the cell.
#[derive(Clone, Copy, Debug, PartialEq, Eq)]
pub enum End {
    /// It ends, and these bits of the array are the block; up to 15.
    Block(u32),
    /// It goes on in the array of this number, from 1 to 4,096, which the words need not hold.
    Link(u32),
}

impl Cell {
    pub fn of(word: u32) -> Cell {
        let (high, hop, low) = (word / LINKS / HOPS, word / LINKS % HOPS, word % LINKS);
        match high {
            0 => Cell { hop, length: low / 16, end: End::Block(low % 16) },
            _ => Cell { hop, length: high - 1, end: End::Link(low + 1) },
        }
    }

    pub fn word(self) -> u32 {
        match self.end {
            End::Block(block) => self.hop * LINKS + self.length * 16 + block,
            End::Link(number) => (self.length + 1) * HOPS * LINKS + self.hop * LINKS + (number - 1),
        }
    }

    /// The number of the array that its link leads to.
    pub fn link(self) -> Option<u32> {
        match self.end {
            End::Block(_) => None,
            End::Link(number) => Some(number),
        }
    }
}
