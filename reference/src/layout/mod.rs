//! A reading of docs/LAYOUT.md: which words are a table and of which list, what the walks to an address and to a total give on
//! any words, what refuses a local update there, and words laid out for a list with freely chosen array numbers.

mod cell;
mod lay;
mod local;
mod places;
mod read;
mod slot;
mod totals;
mod walk;
mod within;

pub use cell::{Cell, End, LINKS, MOST};
pub use lay::lay;
pub use local::{announce_local, withdraw_local, Stray, Unfit};
pub use places::places;
pub use read::{check, read};
pub use slot::{winner, winners, word, HOPS, SLOT};
pub use totals::fill_totals;
pub use walk::{trace, walk, Found, Odd, Walked};
pub use within::{trace_total, within, OddTotal};

use crate::memory::{arrays_in, ARRAY_WORDS};

/// The first word of the cells within an array; before it stand the tag, three words without a use, and the slots.
pub const CELLS: usize = 2048;
/// The first word after the cells. The total of slot s is word TOTALS + s; there is no slot 0, and this word has no use.
pub const TOTALS: usize = 2304;
/// The first word after the totals: from there to the array's end no word has a use, whatever it holds.
pub const UNUSED: usize = 2816;
/// The tag of the root, which is array 1.
pub const ROOT_TAG: u32 = 1;

/// Words of a right size, seen as arrays.
#[derive(Clone, Copy)]
pub struct Arrays<'a> {
    words: &'a [u32],
    count: usize,
}

impl<'a> Arrays<'a> {
    /// None if no table has that many words.
    pub fn new(words: &'a [u32]) -> Option<Arrays<'a>> {
        Some(Arrays { words, count: arrays_in(words.len())? })
    }

    /// The number of arrays.
    pub fn count(&self) -> usize {
        self.count
    }

    pub fn header(&self) -> &'a [u32] {
        &self.words[..ARRAY_WORDS]
    }

    /// All words of array `a`, from 1.
    pub fn page(&self, a: usize) -> &'a [u32] {
        &self.words[ARRAY_WORDS * a..ARRAY_WORDS * (a + 1)]
    }

    pub fn tag(&self, a: usize) -> u32 {
        self.page(a)[0]
    }

    /// Whether the words of its slots, cells and totals are 0.
    pub fn is_blank(&self, a: usize) -> bool {
        let page = self.page(a);
        page[SLOT..TOTALS].iter().chain(&page[TOTALS + 1..UNUSED]).all(|&word| word == 0)
    }

    /// The words of a slot, by feed.
    pub fn slot(&self, a: usize, slot: usize) -> &'a [u32] {
        &self.page(a)[SLOT * slot..SLOT * (slot + 1)]
    }

    pub fn cell(&self, a: usize, cell: usize) -> Cell {
        Cell::of(self.page(a)[CELLS + cell])
    }

    pub fn total(&self, a: usize, slot: usize) -> u32 {
        self.page(a)[TOTALS + slot]
    }

    /// The number of the array that the link of a cell leads to, which the words need not hold.
    pub fn below(&self, a: usize, cell: usize) -> Option<u32> {
        self.cell(a, cell).link()
    }

    /// The array of that number, if the words hold it; 0 is none.
    pub fn held(&self, number: u32) -> Option<usize> {
        usize::try_from(number).ok().filter(|a| (1..=self.count).contains(a))
    }
}

/// The words of an array without a use.
pub fn unused() -> impl Iterator<Item = usize> {
    (1..SLOT).chain([TOTALS]).chain(UNUSED..ARRAY_WORDS)
}

/// The tag of an array below cell `cell` of array `parent`, whose own tag is `parent_tag`.
pub fn tag_below(parent: usize, cell: usize, parent_tag: u32) -> u32 {
    parent as u32 * 8192 + cell as u32 * 32 + (parent_tag % 32 + 1)
}

/// What the cells must be, with slots of these winning hops and with these links: a cell's best is the longest slot that covers
/// it, and its block the length of the largest box around it inside which no other slot is taken and no cell has a link.
pub fn cells(hops: &[Option<u32>], links: &[Option<u32>]) -> Vec<Cell> {
    let busy = busy(hops, links);
    // The slots of the boxes around a cell, the largest first: length 0 has slot 1.
    let boxes = |cell: usize| (0..=MOST).map(move |length| (length, (256 + cell) >> (MOST - length)));
    let cell = |(cell, link): (usize, &Option<u32>)| {
        let best = boxes(cell).rev().find_map(|(length, slot)| Some((length, hops[slot]?)));
        let (length, hop) = best.unwrap_or((0, 0));
        let block = || boxes(cell).find(|&(_, slot)| !busy[slot]).map_or(MOST, |(length, _)| length);
        Cell { hop, length, end: link.map_or_else(|| End::Block(block()), End::Link) }
    };
    links.iter().enumerate().map(cell).collect()
}

/// For each slot, whether another is taken inside its box or a cell has a link there.
fn busy(hops: &[Option<u32>], links: &[Option<u32>]) -> Vec<bool> {
    let mut busy = vec![false; 512];
    for slot in (1..512).rev() {
        busy[slot] = match slot {
            256.. => links[slot - 256].is_some(),
            _ => [2 * slot, 2 * slot + 1].into_iter().any(|half| hops[half].is_some() || busy[half]),
        };
    }
    busy
}
