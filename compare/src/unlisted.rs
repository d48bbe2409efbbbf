//! Bytes that are no written-out list, or hardly one: need and build are called on them under guard.

use reference::CandidateList;

use crate::copies::{build, need};
use crate::feeds::Terrain;
use crate::guard::{Lent, Side};
use crate::lists::{any_list, filling};
use crate::pair::Same;
use crate::random::Random;
use crate::tally::Tally;

/// The bytes of a list, and of each of its records: those of kind 4, or of kind 1.
struct List {
    bytes: Vec<u8>,
    size: usize,
}

impl List {
    fn of(random: &mut Random, list: &CandidateList) -> List {
        match random.chance(65) {
            true => List { bytes: list.encoding(), size: 10 },
            false => List { bytes: list.winners().encoding(), size: 8 },
        }
    }

    fn records(&self) -> usize {
        self.bytes.len() / self.size
    }

    /// The start of some record.
    fn start(&self, random: &mut Random) -> usize {
        self.size * random.below(self.records())
    }
}

/// A list with some damage.
pub fn torn(random: &mut Random, tally: &mut Tally) -> Same {
    let prefixes = random.below(12);
    let whole = any_list(random, prefixes);
    let mut list = List::of(random, &whole);
    for _ in 0..random.pick(&[1, 1, 1, 1, 2, 3]) {
        tear(random, &mut list);
    }
    every_call(random, &list.bytes, tally)
}

/// A list of the other family, which no copy is made of unless it is empty.
pub fn of_ipv6(random: &mut Random, tally: &mut Tally) -> Same {
    let arrays = random.within(1..=20);
    let terrain = Terrain::<u128>::new(random, arrays);
    let list = filling(random, &terrain, arrays);
    every_call(random, &list.encoding(), tally)
}

/// Need, and builds into no word, too few, just enough and more.
fn every_call(random: &mut Random, bytes: &[u8], tally: &mut Tally) -> Same {
    tally.copies.torn += 1;
    let side = random.pick(&[Side::Front, Side::Back]);
    let bytes = Lent::copy_of(bytes, side);
    let enough = need(&bytes, tally)?.unwrap_or(1_024 + 8 * bytes.len());
    for count in [0, random.below(enough), enough, enough + random.below(9)] {
        let litter = random.word();
        build(&bytes, &mut Lent::copy_of(&vec![litter; count], side), tally)?;
    }
    Ok(())
}

/// Damage to one record, to the order of two, to the kinds, or to the end.
fn tear(random: &mut Random, list: &mut List) {
    match (list.records(), random.below(12)) {
        (0, _) | (_, 0) => tear_end(random, list),
        (_, 1 | 2) => tear_order(random, list),
        (_, 3) => tear_kind(random, list),
        (_, 4 | 5) if list.size == 10 => tear_feed(random, list),
        _ => tear_record(random, list),
    }
}

fn tear_end(random: &mut Random, List { bytes, size }: &mut List) {
    match random.below(5) {
        0 => bytes.truncate(random.below(bytes.len() + 1)),
        1 => bytes.push(random.pick(&[0, 0, 1, 255])),
        2 => bytes.extend((0..random.within(1..=*size)).map(|_| 0)),
        3 => drop(bytes.pop()),
        _ => bytes.iter_mut().rev().take(1).for_each(|byte| *byte = random.pick(&[1, 2, 3, 4, 5, 16, 255])),
    }
}

/// Two records change places, one comes twice or goes.
fn tear_order(random: &mut Random, list: &mut List) {
    let (one, other) = (list.start(random), list.start(random));
    let List { bytes, size } = list;
    let record: Vec<u8> = bytes[one..one + *size].to_vec();
    match random.below(4) {
        0 => (0..*size).for_each(|i| bytes.swap(one + i, other + i)),
        1 => drop(bytes.splice(one..one, record)),
        2 => drop(bytes.splice(other..other, record)),
        _ => drop(bytes.drain(one..one + *size)),
    }
}

/// A record becomes one of the other kind, of the same route: both kinds in one list, unless it is the only record.
fn tear_kind(random: &mut Random, list: &mut List) {
    let start = list.start(random);
    let mut record = list.bytes[start..start + list.size].to_vec();
    record[0] = if list.size == 8 { 4 } else { 1 };
    record.resize(18 - list.size, 1);
    list.bytes.splice(start..start + list.size, record);
}

/// A feed or a preference becomes another, or a record gets the prefix of the one before.
fn tear_feed(random: &mut Random, list: &mut List) {
    let (start, any) = (list.start(random), random.byte());
    match random.below(4) {
        0 => list.bytes[start + 8] = random.pick(&[0, 5, 255, any]),
        1 => list.bytes[start + 8] = random.within(1..=4) as u8,
        2 => list.bytes[start + 9] = any,
        _ if start >= list.size => list.bytes.copy_within(start - list.size..start - list.size + 6, start),
        _ => {}
    }
}

/// A byte of a record: its kind, a bit inside or after the prefix, its length, its hop, or any.
fn tear_record(random: &mut Random, list: &mut List) {
    let start = list.start(random);
    let record = &mut list.bytes[start..start + list.size];
    let any = random.byte();
    match random.below(8) {
        0 => record[0] = random.pick(&[0, 1, 2, 3, 4, 5, 17, any]),
        1 | 2 => record[1 + random.below(4)] ^= 1 << random.below(8),
        3 => record[4] |= 1,
        4 => record[5] = random.pick(&[33, 64, 255, 32, any]),
        5 => record[5] = record[5].wrapping_add(random.pick(&[1, 255])),
        6 => record[6..8].copy_from_slice(&random.pick(&[[0, 0], [0, 1], [1, 0], [255, 255]])),
        _ => record[random.below(list.size)] = any,
    }
}
