//! The lists and addresses that are measured on.

use compare::family::Family;
use compare::feeds::hop;
use compare::lists::Growing;
use compare::random::Random;
use reference::{Address, Candidate, CandidateList, Prefix, RouteList};

pub struct Load<A = u32> {
    pub name: &'static str,
    /// The routes, each of feed 1 with preference 0.
    pub list: RouteList<A>,
    /// These, and what else the table holds.
    pub candidates: CandidateList<A>,
    /// Heads of the deepest level that has arrays.
    pub deepest: Vec<A>,
}

/// Random routes, address and length even, until all arrays are needed. Length 0 is left out, as rte_lpm has none.
pub fn sparse(random: &mut Random, arrays: usize) -> Load {
    load("random list", &filled(random, arrays))
}

/// The same and then random routes, spread evenly over the arrays and in each over its lengths, until there are so many.
pub fn dense(random: &mut Random, arrays: usize, routes: usize) -> Load {
    let mut growing = filled(random, arrays);
    spread(random, &mut growing, arrays, routes);
    load("denser list", &growing)
}

/// Random routes in the arrays that there are, until there are so many.
fn spread(random: &mut Random, growing: &mut Growing, arrays: usize, routes: usize) {
    let heads: Vec<(u32, u32)> = growing.heads().chain([(0, 0)]).collect();
    while growing.count() < routes {
        let (level, head) = random.pick(&heads);
        let length = 8 * level + random.within(1..=8) as u32;
        growing.grow(Prefix::around(head | random.word() >> (8 * level), length), hop(random), arrays);
    }
}

/// As the denser list, but of unicast addresses: no array is for a first byte from 224 on, so that the root has cells without a link.
pub fn unicast(random: &mut Random, arrays: usize, routes: usize) -> Load {
    let mut growing = Growing::default();
    while growing.need() < arrays {
        let length = random.within(1..=32) as u32;
        growing.grow(Prefix::around(random.word() % (224 << 24), length), hop(random), arrays);
    }
    spread(random, &mut growing, arrays, routes);
    load("unicast list", &growing)
}

/// Lengths that networks of IPv6 have, to 64.
const NETWORKS: [u32; 12] = [16, 20, 24, 29, 32, 36, 40, 44, 48, 52, 56, 64];

/// Networks of IPv6 inside one another, of lengths to 64, until all arrays are needed; then more in these arrays but the root, which
/// has them where it is alone, until there are so many.
pub fn networks(random: &mut Random, arrays: usize, routes: usize) -> Load<u128> {
    let mut growing = Growing::default();
    let mut held = vec![Prefix { address: 1 << 125, length: 3 }];
    while growing.need() < arrays {
        let outer = random.pick(&held);
        let longer: Vec<u32> = NETWORKS.into_iter().filter(|&length| length > outer.length).take(3).collect();
        if longer.is_empty() {
            continue;
        }
        let any = u128::any(random) & !u128::mask(outer.length);
        let prefix = Prefix::around(outer.address | any, random.pick(&longer));
        growing.grow(prefix, hop(random), arrays);
        held.push(prefix);
    }
    let root = (growing.need() == 1).then_some((0, 0));
    let heads: Vec<(u32, u128)> = growing.heads().chain(root).collect();
    while growing.count() < routes {
        let (level, head) = random.pick(&heads);
        let length = 8 * level + random.within(1..=8) as u32;
        let any = u128::any(random) & !u128::mask(8 * level);
        growing.grow(Prefix::around(head | any, length), hop(random), arrays);
    }
    load(if routes == 0 { "IPv6 networks" } else { "denser IPv6 networks" }, &growing)
}

/// Addresses inside the longest prefixes held.
pub fn inside_longest<A: Family>(random: &mut Random, load: &Load<A>, count: usize) -> Vec<A> {
    let prefixes = || load.list.routes().iter().map(|route| route.prefix);
    let longest = prefixes().map(|prefix| prefix.length).max();
    let longest: Vec<Prefix<A>> = prefixes().filter(|prefix| Some(prefix.length) == longest).collect();
    inside(random, &longest, count)
}

/// Addresses inside the prefixes, each prefix as likely as another.
pub fn inside<A: Family>(random: &mut Random, prefixes: &[Prefix<A>], count: usize) -> Vec<A> {
    let address = |random: &mut Random| {
        let prefix = random.pick(prefixes);
        prefix.address | A::any(random) & !A::mask(prefix.length)
    };
    (0..count).map(|_| address(random)).collect()
}

/// The same routes, each with a candidate of feed 2 that waits behind it.
pub fn rivalled(load: &Load) -> Load {
    let mut random = Random::for_case(1, "rivals", 0);
    let mut candidates = load.candidates.candidates().to_vec();
    for route in load.list.routes() {
        candidates.push(Candidate { prefix: route.prefix, feed: 2, preference: 1, hop: hop(&mut random) });
    }
    let (list, deepest) = (load.list.clone(), load.deepest.clone());
    Load { name: "rival list", list, candidates: candidates.into(), deepest }
}

fn filled(random: &mut Random, arrays: usize) -> Growing {
    let mut growing = Growing::default();
    while growing.need() < arrays {
        let length = random.within(1..=32) as u32;
        growing.grow(Prefix::around(random.word(), length), hop(random), arrays);
    }
    growing
}

fn load<A: Family>(name: &'static str, growing: &Growing<A>) -> Load<A> {
    let last = growing.heads().map(|(level, _)| level).max();
    let deepest = growing.heads().filter(|&(level, _)| Some(level) == last).map(|(_, head)| head).collect();
    let list = growing.list();
    Load { name, candidates: (&list).into(), list, deepest }
}

pub fn random_addresses<A: Family>(random: &mut Random, count: usize) -> Vec<A> {
    (0..count).map(|_| A::any(random)).collect()
}

pub fn deep_addresses(random: &mut Random, load: &Load, count: usize) -> Vec<u32> {
    (0..count).map(|_| random.pick(&load.deepest) | u32::from(random.byte())).collect()
}
