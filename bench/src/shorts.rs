//! The shortest list beside writing the same table out, and how much shorter it is.

use compare::random::Random;
use reference::shortest::{DEFAULT, MOST_HOP};
use reference::RouteList;
use toggleash::shortest::{shortest, written_bytes};

use crate::clock::{measure, Way};
use crate::lists::{self, Load};
use crate::{packs, table, title, Scale, ARRAYS, MOST, ROUTES};

/// Lists of up to 32 hops, drawn evenly, and of fewer.
pub fn measure_all(random: &mut Random, scale: &Scale) {
    let (sparse, dense) = (lists::sparse(random, ARRAYS), lists::dense(random, ARRAYS, ROUTES));
    let (networks, most) = (packs::networks(random), lists::dense(random, ARRAYS, MOST));
    for load in [&sparse, &dense, &networks, &most] {
        whole(scale, load, MOST_HOP);
    }
    for hops in [8, 4, 2] {
        whole(scale, &networks, hops);
        whole(scale, &most, hops);
    }
}

/// The same routes with hops from 1 to the most, and a default route.
fn few_hops(load: &Load, most: u32) -> Load {
    let mut list = RouteList::default();
    list.set(DEFAULT, 1);
    for route in load.list.routes() {
        list.set(route.prefix, 1 + route.hop % most);
    }
    Load { name: load.name, candidates: (&list).into(), list, deepest: load.deepest.clone() }
}

/// Of a list with so many hops.
fn whole(scale: &Scale, load: &Load, hops: u32) {
    let load = &few_hops(load, hops);
    let words = &table(&load.candidates, ARRAYS);
    let routes = load.list.routes().len();
    let (mut scratch, mut buffer) = (vec![0; words.len()], vec![0; written_bytes(routes)]);
    let mut all = vec![0; load.candidates.encoded_size()];
    let bytes = shortest(words, &mut scratch, &mut buffer).expect("a default route, low hops and room").len();
    let short = || u64::from(shortest(words, &mut scratch, &mut buffer).is_ok());
    let write_out = || u64::from(toggleash::write_out(words, &mut all).is_ok());
    let check = || u64::from(toggleash::check(words).is_ok());
    let ways = vec![
        Way::new("toggleash_shortest", short),
        Way::new("toggleash_write_out", write_out),
        Way::new("toggleash_check", check),
    ];
    measure(&title("shortest list", load, &format!("{hops} hops, one call")), scale.rounds, 1, ways);
    let left = bytes / 8;
    println!("  {left} routes for {routes}, {:.3} of them", left as f64 / routes as f64);
}
