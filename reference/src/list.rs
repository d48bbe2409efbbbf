//! Prefixes, routes and the route list, in the order of writing out.

use std::collections::BTreeMap;
use std::ops::Range;

use crate::address::Address;

/// An address with a length from 0 to its bits, all bits after the length being 0.
///
/// The derived order is that of writing out: lower address first, at equal address shorter length first.
#[derive(Clone, Copy, Debug, PartialEq, Eq, PartialOrd, Ord, Hash)]
pub struct Prefix<A = u32> {
    pub address: A,
    pub length: u32,
}

impl<A: Address> Prefix<A> {
    /// The prefix of that length which holds the address.
    pub fn around(address: A, length: u32) -> Self {
        Prefix { address: address & A::mask(length), length }
    }

    pub fn matches(self, address: A) -> bool {
        address & A::mask(self.length) == self.address
    }

    /// Whether the other one is this one or shorter, and the addresses of this one are among its.
    pub fn lies_inside(self, other: Self) -> bool {
        other.length <= self.length && other.matches(self.address)
    }

    /// The last address inside.
    pub fn last(self) -> A {
        self.address | !A::mask(self.length)
    }

    /// Level 0 holds lengths 0 to 8, and each further level eight lengths more.
    pub fn level(self) -> u32 {
        match self.length {
            0..=8 => 0,
            longer => (longer - 1) / 8,
        }
    }

    /// The first 8 * level bits, which name the array that the prefix belongs to.
    pub fn head(self) -> A {
        self.address & A::mask(8 * self.level())
    }

    fn same_array(self, other: Self) -> bool {
        self.level() == other.level() && self.head() == other.head()
    }

    /// The cells of its own array that the prefix covers.
    pub fn cells(self) -> Range<usize> {
        let level = self.level();
        self.address.byte(level)..self.last().byte(level) + 1
    }
}

/// A prefix with its hop.
#[derive(Clone, Copy, Debug, PartialEq, Eq)]
pub struct Route<A = u32> {
    pub prefix: Prefix<A>,
    pub hop: u32,
}

/// Routes in the order of writing out, each prefix at most once.
#[derive(Clone, Debug, Default, PartialEq, Eq)]
pub struct RouteList<A = u32> {
    routes: Vec<Route<A>>,
    /// The lengths held, each with the number of routes that have it: a lookup need not try others.
    lengths: BTreeMap<u32, usize>,
}

impl<A: Address> RouteList<A> {
    pub fn routes(&self) -> &[Route<A>] {
        &self.routes
    }

    fn find(&self, prefix: Prefix<A>) -> Result<usize, usize> {
        self.routes.binary_search_by_key(&prefix, |route| route.prefix)
    }

    /// The hop that the prefix is held with.
    pub fn hop(&self, prefix: Prefix<A>) -> Option<u32> {
        let at = self.find(prefix).ok()?;
        Some(self.routes[at].hop)
    }

    /// Holds the prefix with this hop; gives the hop that it was held with before.
    pub fn set(&mut self, prefix: Prefix<A>, hop: u32) -> Option<u32> {
        match self.find(prefix) {
            Ok(at) => Some(std::mem::replace(&mut self.routes[at].hop, hop)),
            Err(at) => {
                self.routes.insert(at, Route { prefix, hop });
                *self.lengths.entry(prefix.length).or_default() += 1;
                None
            }
        }
    }

    /// Removes the route of this prefix and gives its hop.
    pub fn remove(&mut self, prefix: Prefix<A>) -> Option<u32> {
        let at = self.find(prefix).ok()?;
        match self.lengths.get_mut(&prefix.length) {
            Some(count) if *count > 1 => *count -= 1,
            _ => drop(self.lengths.remove(&prefix.length)),
        }
        Some(self.routes.remove(at).hop)
    }

    /// The matching route of the greatest length.
    pub fn longest_match(&self, address: A) -> Option<Route<A>> {
        self.lengths.keys().rev().find_map(|&length| {
            let at = self.find(Prefix::around(address, length)).ok()?;
            Some(self.routes[at])
        })
    }

    /// The fewest first bits of the address such that all addresses with these bits get the same route, or all get none.
    pub fn block(&self, address: A) -> u32 {
        let asked = self.longest_match(address);
        // All in a box get the same where all in a box around it do, so the fewest bits are found by halving.
        let lengths: Vec<u32> = (0..=A::BITS).collect();
        lengths.partition_point(|&length| !self.all_get(Prefix::around(address, length), asked)) as u32
    }

    /// Whether every address inside the box gets this route, or none. From one address to the next that can change only where
    /// a route begins or has ended.
    fn all_get(&self, inside: Prefix<A>, route: Option<Route<A>>) -> bool {
        let first = self.routes.partition_point(|route| route.prefix.address < inside.address);
        let inner = self.routes[first..].iter().map(|route| route.prefix);
        let inner = inner.take_while(|prefix| prefix.address <= inside.last());
        let turns = inner.flat_map(|prefix| [Some(prefix.address), prefix.last().next()]).flatten();
        let turns = turns.filter(|&address| inside.matches(address));
        [inside.address].into_iter().chain(turns).all(|address| self.longest_match(address) == route)
    }

    /// How many routes' prefixes lie inside this one, itself included.
    pub fn within(&self, prefix: Prefix<A>) -> usize {
        self.routes.iter().filter(|route| route.prefix.lies_inside(prefix)).count()
    }

    /// The number of arrays that the list needs.
    pub fn need(&self) -> usize {
        arrays_needed(self.routes.iter().map(|route| route.prefix))
    }

    /// The number of arrays that the list would need with this prefix in it.
    pub fn need_with(&self, prefix: Prefix<A>) -> usize {
        let at = self.find(prefix).unwrap_or_else(|at| at);
        let (before, after) = self.routes.split_at(at);
        let prefixes = before.iter().map(|route| route.prefix);
        arrays_needed(prefixes.chain([prefix]).chain(after.iter().map(|route| route.prefix)))
    }

    /// How many cells of its array the prefix covers that no longer route of the same array covers.
    pub fn open_cells(&self, prefix: Prefix<A>) -> usize {
        let first = self.routes.partition_point(|route| route.prefix.address < prefix.address);
        let inside = self.routes[first..].iter().map(|route| route.prefix);
        let mut covered = [false; 256];
        for other in inside.take_while(|other| other.address <= prefix.last()) {
            if other.length > prefix.length && other.same_array(prefix) {
                covered[other.cells()].fill(true);
            }
        }
        prefix.cells().filter(|&cell| !covered[cell]).count()
    }
}

impl RouteList {
    /// The list as a feed of announcements that name no feed, and an end.
    pub fn encoding(&self) -> Vec<u8> {
        let mut bytes = Vec::with_capacity(8 * self.routes.len() + 1);
        for route in &self.routes {
            bytes.push(1);
            bytes.extend(route.prefix.address.to_be_bytes());
            bytes.push(route.prefix.length as u8);
            bytes.extend((route.hop as u16).to_be_bytes());
        }
        bytes.push(0);
        bytes
    }
}

/// One array, and one for each distinct head of 8, 16, .. bits among the longer prefixes.
/// In ascending order equal heads follow one another, so comparing with the last one counts the distinct.
fn arrays_needed<A: Address>(ascending: impl Iterator<Item = Prefix<A>>) -> usize {
    let mut needed = 1;
    let mut last = vec![None; A::BITS as usize / 8];
    for prefix in ascending {
        for (bits, last) in (8..prefix.length).step_by(8).zip(&mut last) {
            let head = Some(prefix.address & A::mask(bits));
            if *last != head {
                *last = head;
                needed += 1;
            }
        }
    }
    needed
}
