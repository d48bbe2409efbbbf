//! The front before an IPv4 table, which calms candidates that come and go: penalties by candidate, what is held back, and what
//! is kept of it meanwhile. Nothing here knows the words of a front but [`read`] and [`lay`], which read docs/LAYOUT.md.

mod local;
mod program;
mod run;
mod words;

use std::collections::BTreeMap;

use crate::list::Prefix;
use crate::memory::{known, right_hop, well_formed, Memory, Update};
use crate::refusal::Refusal;

pub use local::Aside;
pub use program::output;
pub use run::Told;
pub use words::{lay, read, FRONT_WORDS, ROW_WORDS};

/// The places of a front.
pub const MOST_PLACES: usize = 256;
/// What an accepted withdrawal adds to a penalty, and the most that this makes it.
const CHARGE: u32 = 1_000;
pub const MOST_PENALTY: u32 = 12_000;
/// Over the first a candidate is held back, below the second it is let go.
pub const HOLD_OVER: u32 = 3_000;
pub const RELEASE_BELOW: u32 = 750;

/// A candidate, as a front knows it: prefix and feed. The order is that of writing out.
pub type Name = (Prefix<u32>, u32);

/// What a front knows of a candidate.
#[derive(Clone, Copy, Debug, Default, PartialEq, Eq)]
pub struct Place {
    pub penalty: u32,
    pub held_back: bool,
    pub kept: Option<Kept>,
}

/// An announcement that waits.
#[derive(Clone, Copy, Debug, PartialEq, Eq)]
pub struct Kept {
    pub hop: u32,
    pub preference: u8,
}

pub type Places = BTreeMap<Name, Place>;

/// What the check and a tick answer.
#[derive(Clone, Copy, Debug, PartialEq, Eq)]
pub struct Held {
    pub places: u32,
    pub held_back: u32,
}

/// The lent words of a front and of a table: the places, unless the words are no front, and the memory.
#[derive(Clone, Debug, PartialEq, Eq)]
pub struct Damped {
    pub places: Option<Places>,
    pub memory: Memory<u32>,
}

impl Damped {
    /// The places where both are what they should be; the refusal by 2 is for either.
    fn places(&mut self) -> Result<&mut Places, Refusal> {
        self.memory.list()?;
        self.places.as_mut().ok_or(Refusal::NotATable)
    }

    pub fn announce(
        &mut self,
        address: u32,
        length: u32,
        hop: u32,
        feed: u32,
        preference: u8,
    ) -> Result<Update, Refusal> {
        self.memory.room()?;
        let prefix = well_formed(address, length)?;
        right_hop(hop)?;
        known(feed)?;
        match self.places()?.get_mut(&(prefix, feed)) {
            Some(place) if place.held_back => {
                place.kept = Some(Kept { hop, preference });
                Ok(Update { hop, cells: 0 })
            }
            _ => self.memory.announce(address, length, hop, feed, preference),
        }
    }

    pub fn withdraw(&mut self, address: u32, length: u32, feed: u32) -> Result<Update, Refusal> {
        self.memory.room()?;
        let name = (well_formed(address, length)?, feed);
        known(feed)?;
        let update = match self.places()?.get(&name) {
            Some(place) if place.held_back => {
                let kept = place.kept.ok_or(Refusal::NotHeld)?;
                Update { hop: kept.hop, cells: 0 }
            }
            _ => self.memory.withdraw(address, length, feed)?,
        };
        charge(self.places()?, name);
        Ok(update)
    }

    /// Halves all penalties; tries what is kept below 750, each against the table as it then is; lets go; frees places.
    pub fn tick(&mut self) -> Result<Held, Refusal> {
        self.memory.room()?;
        self.places()?;
        let Damped { places: Some(places), memory } = self else { unreachable!("it was just there") };
        places.values_mut().for_each(|place| place.penalty /= 2);
        for (&(prefix, feed), place) in places.iter_mut() {
            let Some(kept) = place.kept.filter(|_| place.penalty < RELEASE_BELOW) else { continue };
            if memory.announce(prefix.address, prefix.length, kept.hop, feed, kept.preference).is_ok() {
                place.kept = None;
            }
        }
        settle(places);
        Ok(held(places))
    }
}

/// Lets go who is below 750 with nothing kept, and frees places.
fn settle(places: &mut Places) {
    for place in places.values_mut() {
        place.held_back &= place.penalty >= RELEASE_BELOW || place.kept.is_some();
    }
    places.retain(|_, place| place.penalty > 0 || place.kept.is_some());
}

/// What an accepted withdrawal does to the candidate's place, or to a free one. Nothing is kept of it then.
fn charge(places: &mut Places, name: Name) {
    if !places.contains_key(&name) && places.len() == MOST_PLACES {
        return;
    }
    let place = places.entry(name).or_default();
    place.penalty = (place.penalty + CHARGE).min(MOST_PENALTY);
    place.held_back |= place.penalty > HOLD_OVER;
    place.kept = None;
}

/// Counts the places, and the candidates held back.
pub fn held(places: &Places) -> Held {
    let back = places.values().filter(|place| place.held_back).count();
    Held { places: places.len() as u32, held_back: back as u32 }
}
