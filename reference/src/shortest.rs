//! The shortest list that forwards as another does, by ORTC: three passes over a trie of one bit a step. Hops are pushed down to
//! where nothing is below; sets of hops are made from below; routes are chosen from above. Of several shortest lists docs/SHORTEST.md
//! names the one that is chosen.

use std::collections::BTreeSet;

use crate::address::Address;
use crate::list::{Prefix, Route, RouteList};
use crate::memory::Memory;
use crate::refusal::Refusal;

/// The greatest hop that a prefix may have.
pub const MOST_HOP: u32 = 32;
pub const DEFAULT: Prefix = Prefix { address: 0, length: 0 };

/// The shortest list for the winners of a table, into a buffer of `room` bytes. `fits` says that the scratch has as many words as the
/// table, or more.
pub fn shortest(memory: &Memory, fits: bool, room: usize) -> Result<RouteList, Refusal> {
    memory.room()?;
    if !fits {
        return Err(Refusal::WordCount);
    }
    let list = memory.list()?.winners();
    if list.hop(DEFAULT).is_none() {
        return Err(Refusal::NoDefault);
    }
    if list.routes().iter().any(|route| route.hop > MOST_HOP) {
        return Err(Refusal::HighHop);
    }
    let chosen = Sets::of(list).chosen();
    match room < chosen.encoding().len() {
        true => Err(Refusal::BufferShort),
        false => Ok(chosen),
    }
}

/// The sets of all prefixes.
pub struct Sets {
    root: Node,
}

/// A prefix: with nothing held below it, or with both halves.
struct Node {
    hops: BTreeSet<u32>,
    halves: Option<Box<[Node; 2]>>,
}

/// A prefix of the list as it is held: with or without a hop, and any halves.
#[derive(Default)]
struct Held {
    hop: Option<u32>,
    halves: [Option<Box<Held>>; 2],
}

impl Sets {
    /// Of a list that holds the default route.
    pub fn of(list: &RouteList) -> Sets {
        let mut root = Held::default();
        list.routes().iter().for_each(|route| root.hold(route));
        let default = root.hop.expect("the list holds the default route");
        let mut root = normal(root, default);
        gather(&mut root);
        Sets { root }
    }

    /// The set of a prefix.
    pub fn set(&self, prefix: Prefix) -> &BTreeSet<u32> {
        let mut node = &self.root;
        for at in 0..prefix.length {
            // Below a prefix without halves all prefixes have its set.
            let Some(halves) = &node.halves else { break };
            node = &halves[bit(prefix.address, at)];
        }
        &node.hops
    }

    /// The list that the sets leave.
    pub fn chosen(&self) -> RouteList {
        let mut list = RouteList::default();
        choose(&self.root, None, DEFAULT, &mut list);
        list
    }
}

impl Held {
    fn hold(&mut self, route: &Route) {
        let mut held = self;
        for at in 0..route.prefix.length {
            held = held.halves[bit(route.prefix.address, at)].get_or_insert_default();
        }
        held.hop = Some(route.hop);
    }
}

/// Which half of a prefix of that length the address lies in.
fn bit(address: u32, length: u32) -> usize {
    (address << length >> (u32::BITS - 1)) as usize
}

/// The first pass: a hop is left only where nothing is below.
fn normal(held: Held, above: u32) -> Node {
    let hop = held.hop.unwrap_or(above);
    if let [None, None] = held.halves {
        return Node { hops: BTreeSet::from([hop]), halves: None };
    }
    let halves = held.halves.map(|half| normal(half.map(|half| *half).unwrap_or_default(), hop));
    Node { hops: BTreeSet::new(), halves: Some(Box::new(halves)) }
}

/// The second: what the halves have in common, or all of both if that is nothing.
fn gather(node: &mut Node) {
    let Some(halves) = &mut node.halves else { return };
    halves.iter_mut().for_each(gather);
    let [low, high] = &**halves;
    node.hops = &low.hops & &high.hops;
    if node.hops.is_empty() {
        node.hops = &low.hops | &high.hops;
    }
}

/// The third: a route exactly where the hop from above is not in the set, by the lowest hop of the set.
fn choose(node: &Node, above: Option<u32>, prefix: Prefix, list: &mut RouteList) {
    let mut hop = above;
    if above.is_none_or(|above| !node.hops.contains(&above)) {
        hop = node.hops.first().copied();
        list.set(prefix, hop.expect("no set is empty"));
    }
    let Some(halves) = &node.halves else { return };
    let length = prefix.length + 1;
    let upper = u32::mask(length) & !u32::mask(prefix.length);
    for (half, side) in halves.iter().zip([0, upper]) {
        choose(half, hop, Prefix { address: prefix.address | side, length }, list);
    }
}
