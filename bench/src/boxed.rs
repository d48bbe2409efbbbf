//! A trie of one bit a step as an ordinary Rust program has it: a box for each node.

use std::marker::PhantomData;

use reference::{Prefix, RouteList};

use crate::trie::Bits;

#[derive(Default)]
struct Node {
    children: [Option<Box<Node>>; 2],
    hop: Option<u32>,
}

pub struct Boxed<A = u32> {
    root: Node,
    of: PhantomData<A>,
}

impl<A: Bits> Boxed<A> {
    pub fn new(list: &RouteList<A>) -> Boxed<A> {
        let mut trie = Boxed { root: Node::default(), of: PhantomData };
        for route in list.routes() {
            trie.announce(route.prefix, route.hop);
        }
        trie
    }

    fn announce(&mut self, prefix: Prefix<A>, hop: u32) {
        let mut node = &mut self.root;
        for length in 0..prefix.length {
            node = node.children[prefix.address.bit(length)].get_or_insert_with(Box::default);
        }
        node.hop = Some(hop);
    }

    /// Hop and length of the longest match.
    #[inline(never)]
    pub fn lookup(&self, address: A) -> Option<(u32, u32)> {
        let mut found = None;
        let mut node = &self.root;
        for length in 0..=A::BITS {
            if let Some(hop) = node.hop {
                found = Some((hop, length));
            }
            if length == A::BITS {
                break;
            }
            match &node.children[address.bit(length)] {
                None => break,
                Some(child) => node = child,
            }
        }
        found
    }

    /// The sum of the hops found.
    pub fn sum(&self, addresses: &[A]) -> u64 {
        addresses.iter().map(|&address| u64::from(self.lookup(address).map_or(0, |(hop, _)| hop))).sum()
    }
}
