//! A trie of one bit a step with its nodes in one vector.

use std::marker::PhantomData;

use reference::{Address, Prefix, Route, RouteList};

/// An address whose bits are read one by one, the first being number 0.
pub trait Bits: Address {
    fn bit(self, at: u32) -> usize;
}

impl Bits for u32 {
    fn bit(self, at: u32) -> usize {
        (self >> (31 - at) & 1) as usize
    }
}

impl Bits for u128 {
    fn bit(self, at: u32) -> usize {
        (self >> (127 - at) & 1) as usize
    }
}

/// Children by the next bit, 0 for none, and the hop of a route that ends here, or 0.
#[derive(Clone, Copy, Default)]
struct Node {
    children: [u32; 2],
    hop: u32,
}

pub struct Trie<A = u32> {
    nodes: Vec<Node>,
    free: Vec<u32>,
    of: PhantomData<A>,
}

impl<A: Bits> Trie<A> {
    pub fn new(list: &RouteList<A>) -> Trie<A> {
        let mut trie = Trie { nodes: vec![Node::default()], free: Vec::new(), of: PhantomData };
        for route in list.routes() {
            trie.announce(route.prefix, route.hop);
        }
        trie
    }

    /// Hop and length of the longest match.
    #[inline(never)]
    pub fn lookup(&self, address: A) -> Option<(u32, u32)> {
        let mut found = None;
        let mut node = &self.nodes[0];
        for length in 0..=A::BITS {
            if node.hop != 0 {
                found = Some((node.hop, length));
            }
            if length == A::BITS {
                break;
            }
            match node.children[address.bit(length)] {
                0 => break,
                child => node = &self.nodes[child as usize],
            }
        }
        found
    }

    /// The hop becomes the prefix's; nodes on the way are made.
    pub fn announce(&mut self, prefix: Prefix<A>, hop: u32) {
        let mut at = 0;
        for length in 0..prefix.length {
            let bit = prefix.address.bit(length);
            if self.nodes[at].children[bit] == 0 {
                self.nodes[at].children[bit] = self.gain();
            }
            at = self.nodes[at].children[bit] as usize;
        }
        self.nodes[at].hop = hop;
    }

    /// The prefix's hop goes, and nodes that then hold nothing.
    pub fn withdraw(&mut self, prefix: Prefix<A>) {
        let mut path = vec![0];
        for length in 0..prefix.length {
            let bit = prefix.address.bit(length);
            path.push(self.nodes[path[length as usize]].children[bit] as usize);
        }
        self.nodes[path[prefix.length as usize]].hop = 0;
        while let (Some(at), Some(&parent)) = (path.pop(), path.last()) {
            if self.nodes[at].hop != 0 || self.nodes[at].children != [0, 0] {
                break;
            }
            let bit = usize::from(self.nodes[parent].children[1] as usize == at);
            self.nodes[parent].children[bit] = 0;
            self.free.push(at as u32);
        }
    }

    /// The sum of the hops found.
    pub fn sum(&self, addresses: &[A]) -> u64 {
        addresses.iter().map(|&address| u64::from(self.lookup(address).map_or(0, |(hop, _)| hop))).sum()
    }

    /// Takes the routes out and puts them back; gives the number of updates.
    pub fn flap(&mut self, routes: &[Route<A>]) -> u64 {
        for route in routes {
            self.withdraw(route.prefix);
            self.announce(route.prefix, route.hop);
        }
        2 * routes.len() as u64
    }

    fn gain(&mut self) -> u32 {
        self.free.pop().unwrap_or_else(|| {
            self.nodes.push(Node::default());
            self.nodes.len() as u32 - 1
        })
    }
}
