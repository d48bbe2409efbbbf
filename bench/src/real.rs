//! A real list, where bench/real can print one: loading it, and lookups in it.

use std::cell::RefCell;

use compare::random::Random;
use reference::{Candidate, CandidateList, Prefix};

use crate::clock::{measure, Way};
use crate::dpdk::Dpdk;
use crate::lists::{self, Load};
use crate::lookups::{measured, Row, RANDOM};
use crate::{accepted, dump, title, Scale};

pub fn measure_all(random: &mut Random, scale: &Scale, dpdk: Option<&Dpdk>) -> Vec<Row> {
    let Some(announced) = dump::announcements() else { return Vec::new() };
    let candidates: CandidateList = announced.clone().into();
    let list = candidates.winners().clone();
    let (arrays, held) = (list.need(), list.routes().iter().map(|route| route.prefix).collect::<Vec<Prefix>>());
    let load = Load { name: "real list", list, candidates, deepest: Vec::new() };
    loads(scale, &load, &announced, dpdk);
    let sets = [
        (RANDOM, lists::random_addresses(random, scale.addresses)),
        ("addresses inside held prefixes", lists::inside(random, &held, scale.addresses)),
    ];
    measured(scale, &load, arrays, dpdk, &sets)
}

/// All announcements of both peers; then the routes that win alone, beside DPDK's tables, which keep no candidates.
fn loads(scale: &Scale, load: &Load, announced: &[Candidate], dpdk: Option<&Dpdk>) {
    let (arrays, routes) = (load.list.need(), load.list.routes());
    let both = Loading::new(announced, arrays);
    let name = format!("one of {} announcements of both peers", announced.len());
    measure(&title("load", load, &name), scale.rounds, announced.len(), vec![both.way()]);

    let winners = Loading::new(CandidateList::from(&load.list).candidates(), arrays);
    let mut ways = vec![winners.way()];
    if let Some(Dpdk { lpm, fib }) = dpdk {
        ways.extend([
            Way::prepared("DPDK's rte_lpm_add", || lpm.clear(), || lpm.announce_all(routes)),
            Way::prepared("DPDK's rte_fib_add", || fib.clear(), || fib.announce_all(routes)),
        ]);
    }
    measure(&title("load", load, "one of the routes that win"), scale.rounds, routes.len(), ways);
}

/// Announcements as a feed, and the table that one run makes of them.
struct Loading {
    feed: Vec<u8>,
    words: RefCell<Vec<u32>>,
    reply: RefCell<Vec<u8>>,
}

impl Loading {
    fn new(announced: &[Candidate], arrays: usize) -> Loading {
        let words = RefCell::new(vec![0; toggleash::words_for(arrays).expect("a table may have so many")]);
        let reply = RefCell::new(vec![0; 5 * announced.len()]);
        Loading { feed: announced.iter().flat_map(record).collect(), words, reply }
    }

    /// The run from an empty table; emptying it does not count.
    fn way(&self) -> Way<'_> {
        let clear = || toggleash::clear(&mut self.words.borrow_mut()).expect("words of a table");
        let run = || toggleash::run(&mut self.words.borrow_mut(), &self.feed, &mut self.reply.borrow_mut());
        Way::prepared("toggleash_run", clear, move || accepted(run()))
    }
}

/// A record of kind 4.
fn record(candidate: &Candidate) -> Vec<u8> {
    let Candidate { prefix, feed, preference, hop } = *candidate;
    let (address, hop) = (prefix.address.to_be_bytes(), (hop as u16).to_be_bytes());
    [&[4][..], &address, &[prefix.length as u8], &hop, &[feed as u8, preference]].concat()
}
