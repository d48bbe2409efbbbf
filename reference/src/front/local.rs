//! Calls through a front that test the front, and of the table's words only what they touch: what is certain of them on any words.
//! What the table's own call answered, where the front passes an update on, comes from outside, with a refusal's number.

use super::{charge, held, settle, Damped, Held, Kept, Name, Places, RELEASE_BELOW};
use crate::memory::{known, right_hop, well_formed, Update};
use crate::refusal::Refusal;

/// What an update is answered, and whether it was passed on to the table.
pub struct Aside {
    pub answer: Result<Update, u8>,
    pub passed: bool,
}

impl Damped {
    /// The places, or refusal 1 or 2; nothing is asked of the table but its size.
    fn front(&mut self) -> Result<&mut Places, Refusal> {
        self.memory.room()?;
        self.places.as_mut().ok_or(Refusal::NotATable)
    }

    /// Refused before the table is asked, kept where it is held back, or answered as the table did.
    pub fn announce_local(
        &mut self,
        (address, length): (u32, u32),
        (hop, feed, preference): (u32, u32, u8),
        behind: Result<Update, u8>,
    ) -> Aside {
        let mut aside = || {
            self.memory.room()?;
            let name = (well_formed(address, length)?, feed);
            right_hop(hop)?;
            known(feed)?;
            Ok(self.front()?.get_mut(&name).filter(|place| place.held_back).map(|place| {
                place.kept = Some(Kept { hop, preference });
                Update { hop, cells: 0 }
            }))
        };
        passed_on(aside(), behind)
    }

    /// The same of a withdrawal: what is dropped, and what the table gave up, is charged.
    pub fn withdraw_local(&mut self, (address, length): (u32, u32), feed: u32, behind: Result<Update, u8>) -> Aside {
        let mut aside = || {
            self.memory.room()?;
            let name = (well_formed(address, length)?, feed);
            known(feed)?;
            let places = self.front()?;
            let dropped = match places.get(&name).filter(|place| place.held_back) {
                Some(place) => Some(Update { hop: place.kept.ok_or(Refusal::NotHeld)?.hop, cells: 0 }),
                None => None,
            };
            if dropped.is_some() || behind.is_ok() {
                charge(places, name);
            }
            Ok(dropped)
        };
        passed_on(aside(), behind)
    }

    /// A tick, where `installed` tells of each that is tried whether the table took it.
    pub fn tick_local(&mut self, installed: impl Fn(&Name) -> bool) -> Result<Held, Refusal> {
        let places = self.front()?;
        for (name, place) in places.iter_mut() {
            place.penalty /= 2;
            if place.kept.is_some() && place.penalty < RELEASE_BELOW && installed(name) {
                place.kept = None;
            }
        }
        settle(places);
        Ok(held(places))
    }
}

/// What the front alone answered, or what the table did.
fn passed_on(aside: Result<Option<Update>, Refusal>, behind: Result<Update, u8>) -> Aside {
    match aside.map_err(Refusal::number) {
        Ok(Some(update)) => Aside { answer: Ok(update), passed: false },
        Ok(None) => Aside { answer: behind, passed: true },
        Err(number) => Aside { answer: Err(number), passed: false },
    }
}
