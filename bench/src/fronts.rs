//! A front before a table: what it adds to an update that finds no place in it, and what a tick costs beside updates.

use compare::random::Random;
use reference::front::{lay, Kept, Place, Places, MOST_PENALTY, MOST_PLACES};
use reference::{Prefix, Route};
use toggleash::damp;

use crate::clock::{measure, Way};
use crate::lists::{self, Load};
use crate::{accepted, table, take_and_put, title, Scale, ARRAYS};

/// Updates of one run, and ticks of one: so many leave each place of a full front taken. Runs of ticks in one round.
const UPDATES: usize = 20_000;
const TICKS: usize = 13;
const RUNS: usize = 500;

pub fn measure_all(random: &mut Random, scale: &Scale) {
    let loads = [1, 64, ARRAYS].map(|arrays| (lists::dense(random, arrays, 16 * arrays), arrays));
    for (load, arrays) in &loads {
        updates(random, scale, load, *arrays);
    }
    ticks(scale, &loads[0].0);
}

/// A front whose places are all taken, by candidates that no list here has: feed 4 of other prefixes.
fn full(kept: Option<Kept>) -> Vec<u32> {
    let place = Place { penalty: if kept.is_some() { 0 } else { MOST_PENALTY }, held_back: true, kept };
    let name = |n: usize| (Prefix { address: (n as u32) << 24 | 0x00AB_CD00, length: 24 }, 4);
    lay(&(0..MOST_PLACES).map(|n| (name(n), place)).collect::<Places>())
}

/// Routes taken out and put back in one run: without a front, and through one that is full of others.
fn updates(random: &mut Random, scale: &Scale, load: &Load, arrays: usize) {
    let routes: Vec<Route> = (0..UPDATES / 2).map(|_| random.pick(load.list.routes())).collect();
    let feed: Vec<u8> = routes.iter().flat_map(take_and_put).collect();
    let (mut words, mut behind) = (table(&load.candidates, arrays), table(&load.candidates, arrays));
    let (mut front, mut reply, mut other) = (full(None), vec![0; 5 * UPDATES], vec![0; 5 * UPDATES]);
    let ways = vec![
        Way::new("toggleash_damp_run", || accepted(damp::run(&mut front, &mut behind, &feed, &mut reply))),
        Way::new("toggleash_run", || accepted(toggleash::run(&mut words, &feed, &mut other))),
    ];
    measure(&title("update that finds no place", load, "a run of them"), scale.rounds, UPDATES, ways);
}

/// Ticks where nothing is installed, of a full front before a table of one array: with nothing kept, and with all that is kept
/// waiting for room. Each is the time of a run of them less that of a run of none, whose start checks both.
fn ticks(scale: &Scale, load: &Load) {
    let waiting = Kept { hop: 1, preference: 0 };
    let none = runs(scale, load, &full(None), &[], "a run of no record");
    let calm = runs(scale, load, &full(None), &[9; TICKS], "a run of 13 ticks, nothing kept");
    let wait = runs(scale, load, &full(Some(waiting)), &[9; TICKS], "a run of 13 ticks, 256 kept without room");
    let one = |time: f64| (time - none) / TICKS as f64;
    println!("one tick of 256 places: nothing kept {:.0} ns, all kept without room {:.0} ns", one(calm), one(wait));
}

/// The time of a run through a front that starts as given each time. Nothing is installed by it.
fn runs(scale: &Scale, load: &Load, start: &[u32], feed: &[u8], name: &'static str) -> f64 {
    let words = table(&load.candidates, 1);
    let (mut behind, mut front, mut reply) = (words.clone(), start.to_vec(), vec![0; 5 * feed.len()]);
    let mut run = || {
        front.copy_from_slice(start);
        damp::run(&mut front, &mut behind, feed, &mut reply).expect("a front and a table").consumed as u64
    };
    let way = Way::new("toggleash_damp_run", || (0..RUNS).map(|_| run()).sum());
    let time = measure(&title("tick", load, name), scale.rounds, RUNS, vec![way])[0];
    assert!(behind == words, "{name}: something is installed");
    time
}
