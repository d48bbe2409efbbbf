//! The lent words as a caller sees them, a size and perhaps a list of candidates, with the calls on them.

use crate::address::Address;
use crate::candidates::{Candidate, CandidateList, FEEDS};
use crate::list::{Prefix, Route};
use crate::refusal::Refusal;

/// The words of one array, and of the part before the first.
pub const ARRAY_WORDS: usize = 3072;
/// The most arrays that a table can have.
pub const MOST_ARRAYS: usize = 4096;

/// The number of arrays in a run of so many words, if a table can have that size.
pub fn arrays_in(words: usize) -> Option<usize> {
    let fits = words % ARRAY_WORDS == 0 && (6_144..=12_585_984).contains(&words);
    fits.then(|| words / ARRAY_WORDS - 1)
}

/// What an accepted update reports.
#[derive(Clone, Copy, Debug, PartialEq, Eq)]
pub struct Update {
    /// The candidate's own, whichever wins.
    pub hop: u32,
    pub cells: u32,
}

/// What a lookup answers.
#[derive(Clone, Copy, Debug, PartialEq, Eq)]
pub struct Lookup<A = u32> {
    /// The longest match among the winners.
    pub route: Option<Route<A>>,
    /// How many of the address's first bits the answer may be remembered for.
    pub block: u32,
}

/// What the check answers.
#[derive(Clone, Copy, Debug, PartialEq, Eq)]
pub struct Counts {
    /// Candidates.
    pub routes: u32,
    /// Needed by the prefixes that have one.
    pub arrays: u32,
}

/// Lent words: how many, and the list that they stand for unless they are no table.
#[derive(Clone, Debug, PartialEq, Eq)]
pub struct Memory<A = u32> {
    words: usize,
    list: Option<CandidateList<A>>,
}

impl<A: Address> Memory<A> {
    /// Words that stand for the list, or for none.
    pub fn new(words: usize, list: Option<CandidateList<A>>) -> Self {
        Memory { words, list }
    }

    /// The number of arrays, or refusal 1.
    pub fn room(&self) -> Result<usize, Refusal> {
        arrays_in(self.words).ok_or(Refusal::WordCount)
    }

    /// The list, or refusal 1 or 2.
    pub fn list(&self) -> Result<&CandidateList<A>, Refusal> {
        self.room()?;
        self.list.as_ref().ok_or(Refusal::NotATable)
    }

    fn list_mut(&mut self) -> Result<&mut CandidateList<A>, Refusal> {
        self.room()?;
        self.list.as_mut().ok_or(Refusal::NotATable)
    }

    pub fn clear(&mut self) -> Result<(), Refusal> {
        self.room()?;
        self.list = Some(CandidateList::default());
        Ok(())
    }

    pub fn check(&self) -> Result<Counts, Refusal> {
        let list = self.list()?;
        Ok(Counts { routes: list.candidates().len() as u32, arrays: list.winners().need() as u32 })
    }

    /// Longest match and block. Refused by 2 on words that are no table; what the calls answer there is for the layout's
    /// walk to say.
    pub fn lookup(&self, address: A) -> Result<Lookup<A>, Refusal> {
        let list = self.list()?.winners();
        Ok(Lookup { route: list.longest_match(address), block: list.block(address) })
    }

    /// How many prefixes with a candidate lie inside this one. Refused by 2 as a lookup is.
    pub fn within(&self, address: A, length: u32) -> Result<u32, Refusal> {
        self.room()?;
        let prefix = well_formed(address, length)?;
        Ok(self.list()?.winners().within(prefix) as u32)
    }

    pub fn announce(
        &mut self,
        address: A,
        length: u32,
        hop: u32,
        feed: u32,
        preference: u8,
    ) -> Result<Update, Refusal> {
        let room = self.room()?;
        let prefix = well_formed(address, length)?;
        right_hop(hop)?;
        known(feed)?;
        let list = self.list_mut()?;
        let before = list.winners().hop(prefix);
        if before.is_none() && list.winners().need_with(prefix) > room {
            return Err(Refusal::NoRoom);
        }
        list.set(Candidate { prefix, feed, preference, hop });
        Ok(Update { hop, cells: reloaded(list, prefix, before) })
    }

    pub fn withdraw(&mut self, address: A, length: u32, feed: u32) -> Result<Update, Refusal> {
        self.room()?;
        let prefix = well_formed(address, length)?;
        known(feed)?;
        let list = self.list_mut()?;
        let before = list.winners().hop(prefix);
        let removed = list.remove(prefix, feed).ok_or(Refusal::NotHeld)?;
        Ok(Update { hop: removed.hop, cells: reloaded(list, prefix, before) })
    }

    /// Writes the list to the front of the buffer and gives the number of bytes; the rest of the buffer stays.
    pub fn write_out(&self, buffer: &mut [u8]) -> Result<usize, Refusal> {
        let bytes = self.list()?.encoding();
        let front = buffer.get_mut(..bytes.len()).ok_or(Refusal::BufferShort)?;
        front.copy_from_slice(&bytes);
        Ok(bytes.len())
    }
}

/// The prefix, or refusal 3 or 4.
pub fn well_formed<A: Address>(address: A, length: u32) -> Result<Prefix<A>, Refusal> {
    if length > A::BITS {
        return Err(Refusal::TooLong);
    }
    let prefix = Prefix::around(address, length);
    if prefix.address != address {
        return Err(Refusal::StrayBit);
    }
    Ok(prefix)
}

pub(crate) fn right_hop(hop: u32) -> Result<(), Refusal> {
    match hop {
        1..=65_535 => Ok(()),
        _ => Err(Refusal::HopOutOfRange),
    }
}

pub(crate) fn known(feed: u32) -> Result<(), Refusal> {
    match feed {
        1..=FEEDS => Ok(()),
        _ => Err(Refusal::FeedOutOfRange),
    }
}

/// The cells that an update of the prefix reports: none where the hop that wins there is what it was before.
fn reloaded<A: Address>(list: &CandidateList<A>, prefix: Prefix<A>, before: Option<u32>) -> u32 {
    match list.winners().hop(prefix) == before {
        true => 0,
        false => list.winners().open_cells(prefix) as u32,
    }
}
