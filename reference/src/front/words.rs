//! The words of a front, as docs/LAYOUT.md says.

use std::collections::BTreeMap;

use super::{Kept, Name, Place, Places, HOLD_OVER, MOST_PENALTY, MOST_PLACES, RELEASE_BELOW};
use crate::candidates::FEEDS;
use crate::memory::well_formed;

/// The words of a place.
pub const ROW_WORDS: usize = 4;
/// The words of a front.
pub const FRONT_WORDS: usize = ROW_WORDS * MOST_PLACES;
/// What stands above a hop in what is kept, and above a feed in a candidate's second word.
const HOPS: u32 = 65_536;
const FEED_UNIT: u32 = 8;

/// The places that the words stand for; none where they are no front.
pub fn read(words: &[u32]) -> Option<Places> {
    if words.len() != FRONT_WORDS {
        return None;
    }
    let rows: Vec<[u32; 4]> = words.chunks(ROW_WORDS).map(|row| [row[0], row[1], row[2], row[3]]).collect();
    let used = rows.iter().take_while(|row| row[2] != 0).count();
    let (used, rest) = rows.split_at(used);
    let places = used.iter().map(place).collect::<Option<Vec<_>>>()?;
    let sorted = places.windows(2).all(|two| two[0].0 < two[1].0);
    let empty = rest.iter().flatten().all(|&word| word == 0);
    (sorted && empty).then(|| places.into_iter().collect())
}

/// A used row.
fn place(&[address, second, third, fourth]: &[u32; 4]) -> Option<(Name, Place)> {
    let (length, feed) = (second / FEED_UNIT, second % FEED_UNIT);
    let prefix = well_formed(address, length).ok()?;
    let place = Place { penalty: third / 2, held_back: third % 2 == 1, kept: kept(fourth)? };
    let fits = (1..=FEEDS).contains(&feed) && place.penalty <= MOST_PENALTY;
    let state = match (place.held_back, place.kept) {
        (true, None) => place.penalty >= RELEASE_BELOW,
        (true, Some(_)) => true,
        (false, kept) => kept.is_none() && place.penalty <= HOLD_OVER,
    };
    (fits && state).then_some(((prefix, feed), place))
}

/// What is kept, by its word: something, nothing, or no such word.
fn kept(word: u32) -> Option<Option<Kept>> {
    let hop = word % HOPS;
    match u8::try_from(word / HOPS) {
        Ok(0) if hop == 0 => Some(None),
        Ok(preference) if hop > 0 => Some(Some(Kept { hop, preference })),
        _ => None,
    }
}

/// The words of a front with these places.
pub fn lay(places: &BTreeMap<Name, Place>) -> Vec<u32> {
    let row = |(&(prefix, feed), place): (&Name, &Place)| {
        let kept = place.kept.map_or(0, |kept| u32::from(kept.preference) * HOPS + kept.hop);
        [prefix.address, prefix.length * FEED_UNIT + feed, place.penalty * 2 + u32::from(place.held_back), kept]
    };
    let mut words: Vec<u32> = places.iter().flat_map(row).collect();
    words.resize(FRONT_WORDS, 0);
    words
}
