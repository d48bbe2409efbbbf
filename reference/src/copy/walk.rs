//! The lookup's walk over any words, and the look at one length.

use super::way::Look;
use super::HEADER;
use crate::layout::Found;
use crate::refusal::Refusal;

/// The words of an entry: four places, of a key and a best match each.
const ENTRY: usize = 8;

/// The length of whole addresses, whose bits may have any key.
const WHOLE: u32 = 32;

/// Follows the way, keeping the best match of the last hit, at first the default route's. What is kept is any word:
/// only the one that the search ends with must be a best match.
pub fn walk(words: &[u32], address: u32) -> Result<Found, Refusal> {
    if words.len() < HEADER {
        return Err(Refusal::NotATable);
    }
    let mut best = words[0];
    let mut way = Some(Look::FIRST);
    while let Some(here) = way {
        let found = look(words, here.length, address >> (32 - here.length))?;
        best = found.unwrap_or(best);
        way = here.next(found.is_some());
    }
    cover(best)
}

/// The word that the table of length m has as the best match of the bits, if they are an entry of it.
pub fn look(words: &[u32], m: u32, bits: u32) -> Result<Option<u32>, Refusal> {
    let table = table(words, m).ok_or(Refusal::NotATable)?;
    let (places, from) = (table.keys.len(), start(bits, table.keys.len()));
    let mut met = (from..places).chain(0..from).map_while(|place| table.entry(place));
    Ok(met.find(|entry| entry.bits == bits).map(|entry| entry.best))
}

/// A best match as hop and length, refused where the hop is out of its range or the length over the longest.
fn cover(best: u32) -> Result<Found, Refusal> {
    match (best / 256, best % 256) {
        (0, 0) => Ok(None),
        (1..=65_535, 0..=32) => Ok(Some((best / 256, best % 256))),
        _ => Err(Refusal::NotATable),
    }
}

/// The table of a length: the keys of its places, and the best matches of the same.
pub struct Table<'a> {
    length: u32,
    keys: &'a [u32],
    bests: &'a [u32],
}

/// What a place tells that is not free.
pub struct Entry {
    pub bits: u32,
    pub best: u32,
}

impl Table<'_> {
    /// The entry at a place, none if it is free. No entry of fewer bits than an address has the key 0; at the length of
    /// whole addresses it is one's if a best match stands beside it.
    fn entry(&self, place: usize) -> Option<Entry> {
        let (key, best) = (self.keys[place], self.bests[place]);
        let free = key == 0 && (self.length < WHOLE || best == 0);
        (!free).then_some(Entry { bits: u32::MAX - key, best })
    }

    /// The entries at all places.
    pub fn entries(&self) -> impl Iterator<Item = Entry> + '_ {
        (0..self.keys.len()).filter_map(|place| self.entry(place))
    }
}

/// The table of length m, if it lies inside the words.
pub fn table(words: &[u32], m: u32) -> Option<Table<'_>> {
    let number = |at: u32| usize::try_from(words[at as usize]).ok();
    let (before, size) = (number(2 * m)?.checked_mul(ENTRY)?, number(2 * m + 1)?.checked_mul(ENTRY)?);
    let begin = before.checked_add(HEADER)?;
    let (keys, bests) = words.get(begin..begin.checked_add(size)?)?.split_at(size / 2);
    Some(Table { length: m, keys, bests })
}

/// The place where the probe for the bits begins, among so many. The product may have more than 64 bits where the words
/// are 2^33 or more.
fn start(bits: u32, places: usize) -> usize {
    let mixed = bits.wrapping_mul(2_654_435_769);
    (u128::from(mixed) * places as u128 / (1 << 32)) as usize
}
