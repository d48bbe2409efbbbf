//! The calls that read or write the whole table: the check beside a plain read of the same words, writing out beside the check, and
//! clearing.

use std::hint::black_box;

use compare::family::Family;
use compare::random::Random;
use toggleash::Family as _;

use crate::clock::{measure, Way};
use crate::lists::{self, Load};
use crate::{table, title, Scale, ARRAYS, MOST, ROUTES};

/// More rounds than others take, as one call is a round.
const ROUNDS: usize = 31;

/// Of the random list, the denser and the fullest.
pub fn measure_all(random: &mut Random, scale: &Scale) {
    let sparse = lists::sparse(random, ARRAYS);
    for load in [sparse, lists::dense(random, ARRAYS, ROUTES), lists::dense(random, ARRAYS, MOST)] {
        calls(scale, &load);
    }
}

pub fn calls<A: Family>(scale: &Scale, load: &Load<A>) {
    let words = &table(&load.candidates, ARRAYS);
    let mut buffer = vec![0; load.candidates.encoded_size()];
    let mut cleared = words.clone();
    let check = || done(A::Sent::check(words).is_ok());
    let write_out = || done(A::Sent::write_out(words, &mut buffer).is_ok());
    let clear = || done(A::Sent::clear(&mut cleared).is_ok());
    let parts = [
        ("check", vec![Way::new("the library", check), Way::new("a plain read of the words", || read(words))]),
        ("write out", vec![Way::new("the library", write_out), Way::new("the library's check", check)]),
        ("clear", vec![Way::new("the library", clear)]),
    ];
    let rounds = scale.rounds.max(ROUNDS);
    for (what, ways) in parts {
        measure(&title(what, load, &format!("one call, {rounds} rounds")), rounds, 1, ways);
    }
}

/// The ways do different things, and all give 1.
fn done(done: bool) -> u64 {
    u64::from(done)
}

/// All words added up, of which several go at once.
fn read(words: &[u32]) -> u64 {
    black_box(words.iter().fold(0_u32, |sum, &word| sum.wrapping_add(word)));
    1
}
