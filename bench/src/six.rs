//! IPv6: lookups of addresses inside the longest prefixes of lists with lengths to 64, updates inside a run, and the calls
//! that read the whole table.

use compare::random::Random;
use reference::Route;
use toggleash::ffi::{self, Answer, Ipv6};
use toggleash::Family as _;

use crate::boxed::Boxed;
use crate::clock::{measure, Way};
use crate::lists::{self, Load};
use crate::trie::Trie;
use crate::{accepted, flap, table, take_and_put, title, whole, Scale, ARRAYS, ROUTES};

extern "C" {
    fn plain_trusting_v6(words: *const u32, n: usize, address: Ipv6) -> Answer;
    fn plain_checking_v6(words: *const u32, n: usize, address: Ipv6) -> Answer;
}

type Lookup = unsafe extern "C" fn(*const u32, usize, Ipv6) -> Answer;

pub fn measure_all(random: &mut Random, scale: &Scale) {
    for routes in [0, ROUTES] {
        let load = lists::networks(random, ARRAYS, routes);
        lookups(random, scale, &load);
        updates(random, scale, &load);
        whole::calls(scale, &load);
    }
}

/// The sum of the hops found.
fn sum(lookup: Lookup, words: &[u32], addresses: &[u128]) -> u64 {
    let hop = |address: &u128| {
        // SAFETY: the words are a table, and the pointer and length are the slice's.
        let answer = unsafe { lookup(words.as_ptr(), words.len(), Ipv6 { bytes: address.to_be_bytes() }) };
        u64::from(answer.hop)
    };
    addresses.iter().map(hop).sum()
}

fn lookups(random: &mut Random, scale: &Scale, load: &Load<u128>) {
    let words = &table(&load.candidates, ARRAYS);
    let (trie, boxed) = (&Trie::new(&load.list), &Boxed::new(&load.list));
    let sets = [
        ("addresses inside the longest prefixes", lists::inside_longest(random, load, scale.addresses)),
        ("random addresses", lists::random_addresses(random, scale.addresses)),
    ];
    for (name, addresses) in &sets {
        let ways = vec![
            Way::new("toggleash_v6_lookup", || sum(ffi::toggleash_v6_lookup, words, addresses)),
            Way::new("C loop with the same refusals", || sum(plain_checking_v6, words, addresses)),
            Way::new("C loop that trusts the words", || sum(plain_trusting_v6, words, addresses)),
            Way::new("Rust trie of one bit a step, one vector", || trie.sum(addresses)),
            Way::new("Rust trie of one bit a step, boxes", || boxed.sum(addresses)),
        ];
        measure(&title("lookup", load, name), scale.rounds, addresses.len(), ways);
    }
}

/// Routes taken out and put back, by a run and by single calls, which take fewer of them, as they are slow.
fn updates(random: &mut Random, scale: &Scale, load: &Load<u128>) {
    let mut words = table(&load.candidates, ARRAYS);
    let mut trie = Trie::new(&load.list);
    let routes: Vec<Route<u128>> = (0..scale.addresses / 20).map(|_| random.pick(load.list.routes())).collect();
    let feed: Vec<u8> = routes.iter().flat_map(take_and_put).collect();
    let mut reply = vec![0; 10 * routes.len()];
    let ways = vec![
        Way::new("toggleash_v6_run", || accepted(std::net::Ipv6Addr::run(&mut words, &feed, &mut reply))),
        Way::new("Rust trie of one bit a step", || trie.flap(&routes)),
    ];
    measure(&title("update", load, "taken out and put back"), scale.rounds, 2 * routes.len(), ways);
    let few = &routes[..4];
    let mut words = table(&load.candidates, ARRAYS);
    let ways = vec![Way::new("toggleash_v6_withdraw, toggleash_v6_announce", || flap(&mut words, few))];
    measure(&title("update", load, "single calls"), scale.rounds, 2 * few.len(), ways);
}
