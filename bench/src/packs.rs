//! Compressed tables: words beside the table's and the copy's, the build beside the check, and how far the arrays are compressed.
//! Their lookups are measured with those of the other engines.

use compare::feeds::hop;
use compare::lists::Growing;
use compare::random::Random;
use reference::Prefix;
use toggleash::packed;

use crate::clock::{measure, Way};
use crate::lists::{self, Load};
use crate::{copies, table, title, Scale, ARRAYS, MOST, ROUTES};

/// The bits of an entry in the scheme's own simulations, for segments of 8 bits.
const PAPER_BITS: usize = 36;
/// The routes of one of its tables.
const PAPER_ROUTES: usize = 36_292;

/// Of four lists. A whole run has three of them beside the table's own calls.
pub fn measure_all(random: &mut Random, scale: &Scale) {
    for load in [lists::sparse(random, ARRAYS), lists::dense(random, ARRAYS, ROUTES), networks(random)] {
        whole(scale, &load);
    }
    whole(scale, &lists::dense(random, ARRAYS, MOST));
}

/// Words, need and build of a list.
pub fn whole(scale: &Scale, load: &Load) {
    let words = &table(&load.candidates, ARRAYS);
    let mut packed = vec![0; packed::need(words).expect("a table")];
    let arrays = packed::build(words, &mut packed).expect("words enough").arrays as usize;
    sizes(load, words.len(), packed.len(), arrays);
    let count = packed.len();
    let check = || toggleash::check(words).map_or(0, |counts| counts.arrays.into());
    let need = || packed::need(words).map_or(0, |need| u64::from(need == count) * arrays as u64);
    let build = || packed::build(words, &mut packed).map_or(0, |built| built.arrays.into());
    let ways = vec![
        Way::new("toggleash_check", check),
        Way::new("toggleash_packed_need", need),
        Way::new("toggleash_packed_build", build),
    ];
    measure(&title("compress", load, "one call"), scale.rounds.min(3), 1, ways);
}

/// Words and entries; bytes a route, ours and with entries as wide as in the scheme's simulations.
fn sizes(load: &Load, table: usize, packed: usize, arrays: usize) {
    let routes = load.list.routes().len();
    let entries = (packed - 1_024) / 4;
    let later = (entries - 256) as f64 / (arrays - 1) as f64;
    println!(
        "{}",
        title("compressed", load, &format!("{packed} words, {:.3} of the table's", packed as f64 / table as f64))
    );
    println!("  a copy has {} words", copies::words(&load.candidates).len());
    println!("  {later:.2} entries in place of 256 in an array but the first");
    let bytes = |bits: usize| (entries * bits) as f64 / 8.0 / routes as f64;
    println!("  {:.1} bytes a route; {:.1} with entries of {PAPER_BITS} bits", bytes(128), bytes(PAPER_BITS));
}

/// As many routes as in one of the scheme's simulations, of lengths 16 to 24 as networks announce them, most of them 24, under as
/// many heads of 16 bits as a table has arrays for.
pub fn networks(random: &mut Random) -> Load {
    let mut growing = Growing::default();
    let first: Vec<u32> = (0..100).map(|_| random.word() & 0xFF00_0000).collect();
    let heads: Vec<u32> = (0..3_900).map(|_| random.pick(&first) | random.word() >> 8 & 0x00FF_0000).collect();
    let lengths = [24, 24, 24, 24, 24, 24, 23, 22, 21, 20, 19, 19, 18, 16];
    while growing.count() < PAPER_ROUTES {
        let address = random.pick(&heads) | random.word() >> 16;
        let length: u32 = random.pick(&lengths);
        growing.grow(Prefix::around(address, length), hop(random), ARRAYS);
    }
    let list = growing.list();
    let deepest = growing.heads().filter(|&(level, _)| level == 2).map(|(_, head)| head).collect();
    Load { name: "network list", candidates: (&list).into(), list, deepest }
}
