//! Random lists that need a given number of arrays, with several candidates for some prefixes, and tables of them with
//! scattered array numbers.

use std::collections::{BTreeMap, BTreeSet};

use reference::layout::{self, unused};
use reference::memory::{ARRAY_WORDS, MOST_ARRAYS};
use reference::{Candidate, CandidateList, Prefix, RouteList};

use crate::family::Family;
use crate::feeds::{hop, preference, Terrain};
use crate::random::Random;

/// A list that grows, with the heads of the arrays that it needs, so that each step costs little.
#[derive(Default)]
pub struct Growing<A = u32> {
    routes: BTreeMap<Prefix<A>, u32>,
    heads: BTreeSet<(u32, A)>,
}

impl<A: Family> Growing<A> {
    /// The number of routes.
    pub fn count(&self) -> usize {
        self.routes.len()
    }

    /// The number of arrays needed.
    pub fn need(&self) -> usize {
        1 + self.heads.len()
    }

    /// Level and head of each array needed below the root, the deepest last.
    pub fn heads(&self) -> impl DoubleEndedIterator<Item = (u32, A)> + '_ {
        self.heads.iter().copied()
    }

    /// Adds the route if its prefix is new and no more than so many arrays are needed then.
    pub fn grow(&mut self, prefix: Prefix<A>, hop: u32, most: usize) {
        let heads = (1..=prefix.level()).map(|level| (level, prefix.address & A::mask(8 * level)));
        let missing = heads.clone().filter(|head| !self.heads.contains(head)).count();
        if self.need() + missing <= most && !self.routes.contains_key(&prefix) {
            self.routes.insert(prefix, hop);
            self.heads.extend(heads);
        }
    }

    pub fn list(&self) -> RouteList<A> {
        let mut list = RouteList::default();
        for (&prefix, &hop) in &self.routes {
            list.set(prefix, hop);
        }
        list
    }
}

/// The prefixes of the list, each with one candidate or several, of any feeds. Some have the route's hop.
pub fn rivalled<A: Family>(random: &mut Random, list: &RouteList<A>) -> CandidateList<A> {
    let mut candidates = Vec::new();
    for route in list.routes() {
        let mut feeds = [1, 2, 3, 4];
        random.shuffle(&mut feeds);
        for &feed in &feeds[..random.pick(&[1, 1, 1, 2, 2, 3, 4])] {
            let hop = if random.chance(40) { route.hop } else { hop(random) };
            candidates.push(Candidate { prefix: route.prefix, feed, preference: preference(random), hop });
        }
    }
    candidates.into()
}

/// A list that needs at most so many arrays, and just as many unless its terrain is too small.
pub fn filling<A: Family>(random: &mut Random, terrain: &Terrain<A>, most: usize) -> CandidateList<A> {
    let mut growing = Growing::default();
    for _ in 0..20 + 30 * most {
        growing.grow(terrain.prefix(random), hop(random), most);
        if growing.need() == most && random.chance(3) {
            break;
        }
    }
    rivalled(random, &growing.list())
}

/// A list of so many prefixes, or hardly fewer: of all lengths, or a short one of few.
pub fn any_list(random: &mut Random, prefixes: usize) -> CandidateList {
    let routes = match prefixes < 1_000 && random.chance(25) {
        true => of_few_lengths(random, prefixes),
        false => crowded(random, prefixes),
    };
    rivalled(random, &routes)
}

/// A list of all lengths that needs just so many arrays, however many a table has.
pub fn wide(random: &mut Random, arrays: usize) -> CandidateList {
    let mut growing = Growing::default();
    while growing.need() < arrays {
        let length = random.below(33) as u32;
        growing.grow(Prefix::around(random.word(), length), hop(random), arrays);
    }
    rivalled(random, &growing.list())
}

/// Bytes that a copy of the list's winners can be made from: as it is written out, or as plain routes.
pub fn any_encoding(random: &mut Random, list: &CandidateList) -> Vec<u8> {
    match random.chance(70) {
        true => list.encoding(),
        false => list.winners().encoding(),
    }
}

fn of_few_lengths(random: &mut Random, routes: usize) -> RouteList {
    let terrain = Terrain::new(random, routes);
    let lengths: Vec<u32> = (0..random.within(1..=4)).map(|_| random.below(33) as u32).collect();
    let mut growing = Growing::default();
    for _ in 0..routes {
        let prefix = Prefix::around(terrain.address(random), random.pick(&lengths));
        growing.grow(prefix, hop(random), MOST_ARRAYS);
    }
    growing.list()
}

/// The more routes, the more of them stand in one array, so that no more arrays are needed than a table has. The
/// default route is held as often as not, and now and then the last address's.
fn crowded(random: &mut Random, routes: usize) -> RouteList {
    let most = 1 + random.within(routes / 40..=routes / 15 + 40).min(MOST_ARRAYS - 1);
    let terrain = Terrain::new(random, most);
    let mut growing = Growing::default();
    if routes > 0 && random.chance(50) {
        growing.grow(Prefix { address: 0, length: 0 }, hop(random), most);
    }
    if growing.count() < routes && random.chance(10) {
        growing.grow(Prefix { address: u32::MAX, length: 32 }, hop(random), most);
    }
    for _ in growing.count()..routes {
        let anywhere = Prefix::around(random.word(), random.within(1..=32) as u32);
        let prefix = if random.chance(20) { anywhere } else { terrain.prefix(random) };
        if prefix.length > 0 {
            growing.grow(prefix, hop(random), most);
        }
    }
    crowd(random, &mut growing, routes);
    growing.list()
}

/// Adds routes to the arrays that are needed already until there are so many, unless they are too few for them.
fn crowd(random: &mut Random, growing: &mut Growing, routes: usize) {
    let heads: Vec<(u32, u32)> = growing.heads().chain([(0, 0)]).collect();
    for _ in 0..4 * routes {
        if growing.count() >= routes {
            return;
        }
        let (level, head) = random.pick(&heads);
        let length = 8 * level + random.within(1..=8) as u32;
        growing.grow(Prefix::around(head | random.word() >> (8 * level), length), hop(random), heads.len());
    }
}

/// The list as a table whose arrays stand anywhere, as often as not with litter in the words without a use.
pub fn scattered<A: Family>(random: &mut Random, list: &CandidateList<A>, arrays: usize) -> Vec<u32> {
    let mut numbers: Vec<usize> = (2..=arrays).collect();
    random.shuffle(&mut numbers);
    let mut words = layout::lay(list, arrays, &numbers);
    if random.chance(50) {
        (1..=arrays).for_each(|a| litter(random, &mut words, a));
    }
    words
}

/// Puts anything into an array's words without a use.
pub fn litter(random: &mut Random, words: &mut [u32], a: usize) {
    let page = &mut words[ARRAY_WORDS * a..ARRAY_WORDS * (a + 1)];
    unused().for_each(|at| page[at] = random.word());
}
