//! The words of a compressed table: how many a list needs, and all of them, from the arrays of a table.

use std::collections::{BTreeMap, BTreeSet};

use super::{entry, index, mask, ENTRY, FULL, HEADER, LENGTHS};
use crate::address::Address;
use crate::layout::{read, winners, Arrays};
use crate::list::{Prefix, RouteList};
use crate::memory::Memory;
use crate::refusal::Refusal;

/// What a build counts.
#[derive(Clone, Copy, Debug, PartialEq, Eq)]
pub struct Built {
    pub arrays: usize,
    pub words: usize,
}

impl Built {
    /// Of a table's winners, or its refusal.
    fn of(table: &Memory) -> Result<Built, Refusal> {
        let arrays = arrays(table.list()?.winners());
        let later = arrays.iter().filter(|(&(level, _), _)| level > 0);
        let slots = later.map(|(_, slots)| slots.iter().copied().collect::<Vec<_>>());
        let entries: usize = slots.map(|slots| 1 << mask(&slots).count_ones()).sum();
        Ok(Built { arrays: arrays.len(), words: HEADER + ENTRY * (256 + entries) })
    }
}

/// The prefixes of each array that the list needs, by level and head: the slots of its routes, and of its links.
fn arrays(list: &RouteList) -> BTreeMap<(u32, u32), BTreeSet<usize>> {
    let mut arrays = BTreeMap::from([((0, 0), BTreeSet::new())]);
    for route in list.routes() {
        let Prefix { address, length } = route.prefix;
        let level = route.prefix.level();
        let mut hold = |level, slot| arrays.entry((level, address & u32::mask(8 * level))).or_default().insert(slot);
        for above in 0..level {
            hold(above, 256 + address.byte(above));
        }
        let bits = length - 8 * level;
        hold(level, (256 + address.byte(level)) >> (8 - bits));
    }
    arrays
}

/// The words that a table needs compressed.
pub fn need(words: &[u32]) -> Result<usize, Refusal> {
    Ok(Built::of(&read(words))?.words)
}

/// Makes the words a compressed table of a table. Those of the header and those past the need stay, and all where it is refused.
pub fn build(words: &[u32], packed: &mut [u32]) -> Result<Built, Refusal> {
    let built = Built::of(&read(words))?;
    let packed = packed.get_mut(HEADER..built.words).ok_or(Refusal::BufferShort)?;
    let arrays = Arrays::new(words).expect("a table has a right size");
    let laid = laid(&arrays);
    for (&a, array) in &laid {
        for byte in 0..=255 {
            let at = array.begins - HEADER + ENTRY * index(array.mask, byte);
            packed[at..at + ENTRY].copy_from_slice(&words_of(&arrays, a, array, byte, &laid));
        }
    }
    Ok(built)
}

/// An array in use: its winners by slot, the slots of its prefixes, its mask, and the word where it begins.
struct Array {
    hops: Vec<Option<u32>>,
    slots: Vec<usize>,
    mask: u8,
    begins: usize,
}

/// The arrays in use, one after the other in the order of their numbers.
fn laid(arrays: &Arrays) -> BTreeMap<usize, Array> {
    let mut begins = HEADER;
    let used = (1..=arrays.count()).filter(|&a| arrays.tag(a) != 0);
    used.map(|a| {
        let hops = winners(arrays.page(a));
        let linked = |slot: usize| slot.checked_sub(256).is_some_and(|cell| arrays.below(a, cell).is_some());
        let slots: Vec<usize> = (1..512).filter(|&slot| hops[slot].is_some() || linked(slot)).collect();
        let mask = if a == 1 { FULL } else { mask(&slots) };
        let array = Array { hops, slots, mask, begins };
        begins += ENTRY << mask.count_ones();
        (a, array)
    })
    .collect()
}

/// The four words of a byte's entry.
fn words_of(arrays: &Arrays, a: usize, array: &Array, byte: u8, laid: &BTreeMap<usize, Array>) -> [u32; ENTRY] {
    let Some(slot) = entry(&array.slots, array.mask, byte) else { return [0; ENTRY] };
    let below = slot.checked_sub(256).and_then(|cell| arrays.below(a, cell)).map(|number| &laid[&(number as usize)]);
    let (begins, mask) = below.map_or((0, 0), |below| (below.begins as u32, below.mask.into()));
    [slot as u32, cover(&array.hops, slot), begins, mask]
}

/// The longest cover of a slot, itself included.
fn cover(hops: &[Option<u32>], slot: usize) -> u32 {
    let over = (0..=slot.ilog2()).map(|up| slot >> up);
    let mut covers = over.filter_map(|slot| Some(slot.ilog2() * LENGTHS + hops[slot]?));
    covers.next().unwrap_or(0)
}
