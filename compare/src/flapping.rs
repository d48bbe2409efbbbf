//! Random fronts, hardly fronts, and feeds with ticks of candidates that come and go.

use reference::feed::Record;
use reference::front::{lay, Kept, Name, Place, Places, FRONT_WORDS, MOST_PENALTY, MOST_PLACES, ROW_WORDS};
use reference::{CandidateList, Prefix};

use crate::feeds::{any_kind, encode, hop, preference, Terrain};
use crate::random::Random;

/// A tick's kind.
const TICK: u8 = 9;
/// Penalties at the borders.
const PENALTIES: [u32; 14] = [1, 2, 749, 750, 751, 1_499, 1_500, 1_501, 2_000, 3_000, 3_001, 6_000, 11_999, 12_000];
/// Words of a row at its borders: any, a penalty's, and what is kept.
const SMALL: [u32; 8] = [0, 1, 2, 3, 5, 7, 8, 33 * 8 + 1];
const THIRDS: [u32; 7] = [1_498, 1_499, 1_501, 6_000, 6_002, 24_001, 24_003];
const FOURTHS: [u32; 5] = [0x1_0000, 0xFF_0000, 0xFF_0001, 0x100_0001, u32::MAX];
/// Numbers of words that no front has.
pub const SIZES: [usize; 9] = [0, 1, 4, 1_020, 1_023, 1_025, 1_028, 2_048, 6_144];

/// The candidates that come and go: some of a list, some that are nowhere.
pub struct Flock {
    names: Vec<Name>,
    /// Percentages of ticks, and of withdrawals among updates.
    ticks: usize,
    withdrawals: usize,
}

impl Flock {
    pub fn new(random: &mut Random, terrain: &Terrain<u32>, list: &CandidateList<u32>) -> Flock {
        let count = random.pick(&[1, 1, 2, 3, 5, 8, 20, 60, 300]);
        let held = list.candidates();
        let name = |random: &mut Random| match held.is_empty() || random.chance(60) {
            true => (terrain.prefix(random), random.within(1..=4) as u32),
            false => Some(random.pick(held)).map(|candidate| (candidate.prefix, candidate.feed)).expect("it is one"),
        };
        let names = (0..count).map(|_| name(random)).collect();
        Flock { names, ticks: random.pick(&[0, 2, 5, 10, 25, 60]), withdrawals: random.pick(&[20, 45, 50, 50, 60, 80]) }
    }

    /// A front of some of them and perhaps of others, up to all places.
    pub fn places(&self, random: &mut Random) -> Places {
        let share = random.pick(&[0, 30, 70, 100]);
        let mut places: Places =
            self.names.iter().filter(|_| random.chance(share)).map(|&name| (name, Place::default())).collect();
        let fill = random.pick(&[0, 0, 0, 3, MOST_PLACES - 1, MOST_PLACES]);
        while places.len() < fill {
            let prefix = Prefix::around(random.word(), random.below(33) as u32);
            places.insert((prefix, random.within(1..=4) as u32), Place::default());
        }
        let mut places: Places = places.into_iter().take(MOST_PLACES).collect();
        places.values_mut().for_each(|kept| *kept = place(random));
        places
    }

    fn name(&self, random: &mut Random) -> Name {
        random.pick(&self.names)
    }

    /// A record, or none for a tick. A few are of numbers that no candidate has.
    pub fn record(&self, random: &mut Random) -> Option<Record<u32>> {
        if random.chance(self.ticks) {
            return None;
        }
        let (Prefix { address, mut length }, mut feed) = self.name(random);
        let mut hop = if random.chance(30) { 5 } else { hop(random) };
        let mut address = address;
        match random.below(100) {
            0 => length = random.pick(&[33, 64, 255]),
            1 => address = random.word(),
            2 => hop = 0,
            3 => feed = random.pick(&[0, 5, 255]),
            4..=8 => return Some(Record::Lookup { address }),
            _ => (),
        }
        Some(match random.chance(self.withdrawals) {
            true => Record::Withdraw { address, length, feed },
            false => {
                let preference = if random.chance(50) { 0 } else { preference(random) };
                Record::Announce { address, length, hop, feed, preference }
            }
        })
    }

    /// A feed of about so many records, which ends in any way.
    pub fn feed(&self, random: &mut Random, records: usize) -> Vec<u8> {
        let mut bytes = Vec::new();
        (0..records).for_each(|_| self.encode(random, &mut bytes));
        match random.below(6) {
            0 => bytes.push(any_kind(random)),
            1 => bytes.truncate(random.below(bytes.len() + 1)),
            2 => (),
            _ => bytes.push(0),
        }
        bytes
    }

    /// A feed of this length, cut where it ends; in some a kind of any sort stands inside.
    pub fn program_feed(&self, random: &mut Random, length: usize) -> Vec<u8> {
        let broken = random.chance(30).then(|| random.below(length + 1));
        let mut bytes = Vec::new();
        while bytes.len() < length {
            if broken.is_some_and(|at| at <= bytes.len() && bytes.len() < at + 10) {
                bytes.push(any_kind(random));
            }
            self.encode(random, &mut bytes);
        }
        bytes.truncate(length);
        bytes
    }

    fn encode(&self, random: &mut Random, bytes: &mut Vec<u8>) {
        match self.record(random) {
            Some(record) => encode(record, random.chance(50), bytes),
            None => bytes.push(TICK),
        }
    }
}

/// What a front may know of a candidate, mostly at a border.
fn place(random: &mut Random) -> Place {
    let any = random.within(1..=MOST_PENALTY as usize) as u32;
    let penalty = if random.chance(70) { random.pick(&PENALTIES) } else { any };
    let kept = Some(Kept { hop: hop(random), preference: preference(random) });
    match random.below(3) {
        0 if penalty <= 3_000 => Place { penalty, held_back: false, kept: None },
        1 if penalty >= 750 => Place { penalty, held_back: true, kept: None },
        _ if random.chance(10) => Place { penalty: 0, held_back: true, kept },
        _ => Place { penalty, held_back: true, kept },
    }
}

/// The words of a front, perhaps with some damage.
pub fn hardly(random: &mut Random, places: &Places) -> Vec<u32> {
    let mut words = lay(places);
    let used = places.len().max(1);
    for _ in 0..random.pick(&[1, 1, 1, 2, 3]) {
        // Mostly among the rows that are used, or just after them.
        let row = random.below((used + 2).min(MOST_PLACES));
        let at = ROW_WORDS * row + random.below(ROW_WORDS);
        match random.below(7) {
            0 => words[at] = random.pick(&SMALL),
            1 => words[at] = random.pick(&THIRDS),
            2 => words[at] = random.pick(&FOURTHS),
            3 => words[at] ^= 1 << random.below(32),
            4 => words[random.below(FRONT_WORDS)] = random.word(),
            5 => words.swap(at, ROW_WORDS * random.below(used) + at % ROW_WORDS),
            _ => words.copy_within(ROW_WORDS * row..ROW_WORDS * (row + 1), ROW_WORDS * random.below(used)),
        }
    }
    words
}
