//! The updates that test only what they touch, on any words: what refuses one, and which arrays it may change.

use super::lay::slot;
use super::{word, Arrays, Cell, End, MOST, ROOT_TAG};
use crate::address::Address;
use crate::candidates::Candidate;
use crate::list::Prefix;
use crate::memory::{known, right_hop, well_formed};
use crate::refusal::Refusal;

/// What no table has where a local update meets it.
#[derive(Clone, Copy, Debug, PartialEq, Eq)]
pub enum Stray {
    /// The first array has not the root's tag.
    Root,
    /// A link to an array that the words do not hold.
    Array,
    /// A link to an array whose tag does not name the link's cell, or not the next level.
    Tag,
    /// A best over 8 bits beside a link that is followed.
    Best,
    /// A best over 8 bits in the cell that is to get a link.
    LastBest,
    /// A block over 8 in that cell.
    LastBlock,
    /// Fewer free arrays than the header promises.
    Few,
    /// A free array, of those to be gained, with a word in its slots, cells or totals.
    Filled,
}

/// Why a local update is refused.
#[derive(Clone, Copy, Debug, PartialEq, Eq)]
pub enum Unfit {
    /// For itself, or for what the words hold or have no room for.
    Update(Refusal),
    /// For what it meets, and the level of that.
    Words(Stray, u32),
}

impl Unfit {
    pub fn refusal(self) -> Refusal {
        match self {
            Unfit::Update(refusal) => refusal,
            Unfit::Words(..) => Refusal::NotATable,
        }
    }
}

impl From<Refusal> for Unfit {
    fn from(refusal: Refusal) -> Unfit {
        Unfit::Update(refusal)
    }
}

/// The arrays that an accepted announcement may change: none where the candidate is held already.
pub fn announce_local<A: Address>(words: &[u32], candidate: Candidate<A>) -> Result<Vec<usize>, Unfit> {
    let arrays = Arrays::new(words).ok_or(Refusal::WordCount)?;
    let Candidate { prefix, feed, preference, hop } = candidate;
    well_formed(prefix.address, prefix.length)?;
    right_hop(hop)?;
    known(feed)?;
    let path = path(&arrays, prefix)?;
    match held(&arrays, prefix, feed, &path) {
        Some(held) if held == word(preference, hop) => Ok(Vec::new()),
        Some(_) => Ok(path),
        None => Ok([&path[..], &gained(&arrays, prefix, &path)?].concat()),
    }
}

/// The same of a withdrawal: what it frees is on its path.
pub fn withdraw_local<A: Address>(words: &[u32], prefix: Prefix<A>, feed: u32) -> Result<Vec<usize>, Unfit> {
    let arrays = Arrays::new(words).ok_or(Refusal::WordCount)?;
    well_formed(prefix.address, prefix.length)?;
    known(feed)?;
    let path = path(&arrays, prefix)?;
    match held(&arrays, prefix, feed, &path) {
        None | Some(0) => Err(Refusal::NotHeld.into()),
        Some(_) => Ok(path),
    }
}

/// The arrays from the first on towards the prefix's own, one a level, as far as links lead. Each names the one before it.
fn path<A: Address>(arrays: &Arrays, prefix: Prefix<A>) -> Result<Vec<usize>, Unfit> {
    if arrays.tag(1) != ROOT_TAG {
        return Err(Unfit::Words(Stray::Root, 0));
    }
    let mut path = vec![1];
    for level in 0..prefix.level() {
        let stray = |stray| Unfit::Words(stray, level);
        let (above, cell) = (path[level as usize], prefix.address.byte(level));
        let Cell { length, end: End::Link(number), .. } = arrays.cell(above, cell) else { break };
        let below = arrays.held(number).ok_or(stray(Stray::Array))?;
        // A tag has one more than the level of its array, which is one below this.
        if arrays.tag(below) != above as u32 * 8192 + cell as u32 * 32 + level + 2 {
            return Err(stray(Stray::Tag));
        }
        if length > MOST {
            return Err(stray(Stray::Best));
        }
        path.push(below);
    }
    Ok(path)
}

/// The feed's word in the prefix's slot, 0 for no candidate; none where the path stops above.
fn held<A: Address>(arrays: &Arrays, prefix: Prefix<A>, feed: u32, path: &[usize]) -> Option<u32> {
    let &own = path.get(prefix.level() as usize)?;
    Some(arrays.slot(own, slot(prefix))[feed as usize - 1])
}

/// The arrays that are to hang below a path that stops too early.
fn gained<A: Address>(arrays: &Arrays, prefix: Prefix<A>, path: &[usize]) -> Result<Vec<usize>, Unfit> {
    let missing = prefix.level() as usize + 1 - path.len();
    let level = path.len() as u32 - 1;
    let stray = |stray| Err(Unfit::Words(stray, level));
    match arrays.cell(path[path.len() - 1], prefix.address.byte(level)) {
        Cell { length, .. } if length > MOST => return stray(Stray::LastBest),
        Cell { end: End::Block(block), .. } if block > MOST => return stray(Stray::LastBlock),
        _ => {}
    }
    if arrays.header()[0] as usize + missing > arrays.count() {
        return Err(Refusal::NoRoom.into());
    }
    let free: Vec<usize> = free(arrays).take(missing).collect();
    if !free.iter().all(|&a| arrays.is_blank(a)) {
        return stray(Stray::Filled);
    }
    match free.len() == missing {
        true => Ok(free),
        false => stray(Stray::Few),
    }
}

/// The arrays with the tag 0, but for those in a group of eight of which the header says that all are used. A last group of fewer
/// is looked into whatever the header says.
fn free<'a>(arrays: &'a Arrays) -> impl Iterator<Item = usize> + 'a {
    let whole = arrays.count() / 8;
    let passed = move |a: usize| (a - 1) / 8 < whole && arrays.header()[1 + (a - 1) / 8] == 8;
    (1..=arrays.count()).filter(move |&a| !passed(a) && arrays.tag(a) == 0)
}
