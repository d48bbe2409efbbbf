//! Random prefixes that nest and meet, and random feeds of them: repeated, malformed, cut.

use reference::feed::{kind_of, Record, Role};
use reference::{CandidateList, Prefix, FEEDS};

use crate::family::Family;
use crate::random::Random;

const HOPS: [u32; 5] = [1, 255, 256, 65_534, 65_535];
/// Feeds that there are not.
const NO_FEEDS: [u32; 4] = [0, 5, 6, 255];
/// Kinds of both families, of replies and of nothing.
const KINDS: [u8; 15] = [1, 2, 3, 4, 5, 6, 7, 8, 9, 15, 16, 17, 19, 128, 255];

/// Addresses that prefixes are drawn around, so that boxes stand inside boxes.
pub struct Terrain<A> {
    anchors: Vec<A>,
}

impl<A: Family> Terrain<A> {
    /// For a table of so many arrays: enough anchors to fill it, few enough to meet often.
    pub fn new(random: &mut Random, arrays: usize) -> Terrain<A> {
        // About so many arrays are the way to one anchor alone.
        let way = 3 * A::LEVELS as usize / 4;
        let count = 1 + random.below(2 + arrays / way);
        let any = A::any(random);
        let mut anchors = vec![random.pick(&[A::default(), !A::default(), any, any])];
        for _ in 1..count {
            let old = random.pick(&anchors);
            anchors.push(old.near(random));
        }
        Terrain { anchors }
    }

    pub fn address(&self, random: &mut Random) -> A {
        random.pick(&self.anchors).near(random)
    }

    pub fn prefix(&self, random: &mut Random) -> Prefix<A> {
        Prefix::around(self.address(random), A::length(random))
    }
}

pub fn hop(random: &mut Random) -> u32 {
    match random.chance(20) {
        true => random.pick(&HOPS),
        false => random.within(1..=65_535) as u32,
    }
}

/// Few, so that candidates are often as good as each other.
pub fn preference(random: &mut Random) -> u8 {
    match random.chance(80) {
        true => random.pick(&[0, 0, 1, 1, 2, 254, 255]),
        false => random.byte(),
    }
}

/// What a burst mostly does, as percentages of announcements and withdrawals; the rest are lookups.
#[derive(Clone, Copy)]
pub struct Mood {
    announce: usize,
    withdraw: usize,
}

impl Mood {
    pub const FILL: Mood = Mood { announce: 80, withdraw: 8 };
    pub const FREE: Mood = Mood { announce: 8, withdraw: 80 };
    pub const CHURN: Mood = Mood { announce: 45, withdraw: 40 };

    pub fn any(random: &mut Random) -> Mood {
        random.pick(&[Mood::FILL, Mood::FILL, Mood::FREE, Mood::CHURN, Mood::CHURN])
    }
}

/// Draws records, remembering the prefixes that it named, each with a feed.
pub struct Source<'a, A> {
    random: &'a mut Random,
    terrain: &'a Terrain<A>,
    known: Vec<(Prefix<A>, u32)>,
    /// The feeds that most of its records name.
    sides: &'static [u32],
}

impl<'a, A: Family> Source<'a, A> {
    /// Knows some of the candidates held.
    pub fn new(random: &'a mut Random, terrain: &'a Terrain<A>, held: &CandidateList<A>) -> Source<'a, A> {
        let sides = random.pick(&[&[1][..], &[3], &[1, 2], &[2, 4], &[1, 2, 3, 4], &[1, 2, 3, 4]]);
        let known = match held.candidates() {
            [] => vec![(Prefix { address: A::default(), length: 0 }, 1)],
            held => (0..40).map(|_| random.pick(held)).map(|held| (held.prefix, held.feed)).collect(),
        };
        Source { random, terrain, known, sides }
    }

    /// The prefixes that its records were drawn around.
    pub fn known(&self) -> Vec<Prefix<A>> {
        self.known.iter().map(|known| known.0).collect()
    }

    /// A prefix named before, one that starts where such a one does, or a new one; with the feed that named the one before, or
    /// with another.
    fn named(&mut self, before: usize, by_another: usize) -> (Prefix<A>, u32) {
        let (known, feed) = self.random.pick(&self.known);
        let prefix = match self.random.below(100) {
            roll if roll < before => known,
            roll if roll < before + 15 => Prefix::around(known.address, A::length(self.random)),
            _ => self.terrain.prefix(self.random),
        };
        let feed = if self.random.chance(by_another) { self.random.pick(self.sides) } else { feed };
        self.known.push((prefix, feed));
        (prefix, feed)
    }

    /// Sometimes a length over the longest or a bit after the length.
    fn maybe_malformed(&mut self, prefix: Prefix<A>) -> (A, u32) {
        match self.random.below(50) {
            0 => (prefix.address, self.random.within(A::BITS as usize + 1..=255) as u32),
            1 => {
                let (bit, level) = (1 << self.random.below(8), self.random.below(A::LEVELS as usize) as u32);
                (prefix.address | A::with_byte(bit, level), prefix.length)
            }
            _ => (prefix.address, prefix.length),
        }
    }

    /// Sometimes one that there is not.
    fn maybe_no_feed(&mut self, feed: u32) -> u32 {
        match self.random.below(60) {
            0 => self.random.pick(&NO_FEEDS),
            1 => self.random.within(1..=FEEDS as usize) as u32,
            _ => feed,
        }
    }

    /// Often the prefix's own, so that second announcements, and those of other feeds, meet the same hop and another one.
    fn hop(&mut self, prefix: Prefix<A>) -> u32 {
        match self.random.chance(30) {
            true => {
                1 + prefix.address.bytes().iter().fold(prefix.length, |sum, &byte| sum * 37 % 65_521 + u32::from(byte))
            }
            false => hop(self.random),
        }
    }

    /// Often 0 by feed 1, which a record of kind 1 can say.
    fn preference(&mut self, feed: u32) -> u8 {
        match feed == 1 && self.random.chance(40) {
            true => 0,
            false => preference(self.random),
        }
    }

    pub fn record(&mut self, mood: Mood) -> Record<A> {
        let roll = self.random.below(100);
        if roll < mood.announce {
            let (prefix, feed) = self.named(30, 70);
            let (address, length) = self.maybe_malformed(prefix);
            let hop = if self.random.chance(2) { 0 } else { self.hop(prefix) };
            let feed = self.maybe_no_feed(feed);
            Record::Announce { address, length, hop, feed, preference: self.preference(feed) }
        } else if roll < mood.announce + mood.withdraw {
            let (prefix, feed) = self.named(75, 15);
            let (address, length) = self.maybe_malformed(prefix);
            Record::Withdraw { address, length, feed: self.maybe_no_feed(feed) }
        } else {
            let (known, _) = self.random.pick(&self.known);
            Record::Lookup { address: known.address.near(self.random) }
        }
    }

    /// A feed of about so many records that ends in any of the ways a feed can.
    pub fn feed(&mut self, mood: Mood, records: usize) -> Vec<u8> {
        let mut bytes = Vec::new();
        for _ in 0..records {
            self.encode(mood, &mut bytes);
        }
        self.close(&mut bytes);
        bytes
    }

    /// Adds a record's bytes; one that names feed 1 is of either kind that can say so.
    fn encode(&mut self, mood: Mood, bytes: &mut Vec<u8>) {
        let plain = self.random.chance(50);
        encode(self.record(mood), plain, bytes);
    }

    fn close(&mut self, bytes: &mut Vec<u8>) {
        match self.random.below(8) {
            0 | 1 => bytes.push(0),
            2 => {
                bytes.push(0);
                self.litter(bytes);
            }
            3 => {
                bytes.push(any_kind(self.random));
                self.litter(bytes);
            }
            4 => bytes.push(any_kind(self.random)),
            // At most all of a record but its kind.
            5 => bytes.truncate(bytes.len().saturating_sub(self.random.within(1..=A::LEVELS as usize + 5))),
            6 => self.scratch(bytes),
            _ => {}
        }
    }

    fn litter(&mut self, bytes: &mut Vec<u8>) {
        for _ in 0..self.random.below(20) {
            bytes.push(self.random.byte());
        }
    }

    /// One byte anywhere becomes another, which may shift all records after it.
    fn scratch(&mut self, bytes: &mut [u8]) {
        if !bytes.is_empty() {
            let at = self.random.below(bytes.len());
            bytes[at] = self.random.byte();
        }
    }
}

/// Any kind, mostly one that no record of a family has: that is for the two sides to say.
pub fn any_kind(random: &mut Random) -> u8 {
    match random.chance(70) {
        true => random.pick(&KINDS),
        false => random.byte(),
    }
}

/// A feed of just so many bytes for a program of so many arrays, its last record cut; sometimes a record before it is an end
/// or of any kind.
pub fn program_feed<A: Family>(random: &mut Random, arrays: usize, length: usize) -> Vec<u8> {
    let terrain = Terrain::<A>::new(random, arrays);
    let mood = Mood::any(random);
    let broken = random.chance(50).then(|| random.below(length + 1));
    let kind = if random.chance(35) { 0 } else { any_kind(random) };
    let mut source = Source::new(random, &terrain, &CandidateList::default());
    let mut bytes = Vec::new();
    let mut whole = true;
    while bytes.len() < length {
        if whole && broken.is_some_and(|at| at <= bytes.len()) {
            bytes.push(kind);
            whole = false;
        }
        source.encode(mood, &mut bytes);
    }
    bytes.truncate(length);
    bytes
}

/// The bytes of a record; a plain one names no feed, where it need not and a kind has none.
pub fn encode<A: Family>(record: Record<A>, plain: bool, bytes: &mut Vec<u8>) {
    let both = |named: Role, plain_role: Role, may: bool| match kind_of::<A>(plain_role).filter(|_| plain && may) {
        Some(kind) => (Some(kind), false),
        None => (kind_of::<A>(named), true),
    };
    let (kind, names) = match record {
        Record::End => (Some(0), false),
        Record::Announce { feed, preference, .. } => {
            both(Role::AnnounceFor, Role::Announce, feed == 1 && preference == 0)
        }
        Record::Withdraw { feed, .. } => both(Role::WithdrawFor, Role::Withdraw, feed == 1),
        Record::Lookup { .. } => (kind_of::<A>(Role::Lookup), false),
    };
    bytes.push(kind.expect("a family has kinds that name feeds, and lookups"));
    match record {
        Record::End => {}
        Record::Announce { address, length, hop, feed, preference } => {
            bytes.extend(address.bytes());
            bytes.push(length as u8);
            bytes.extend((hop as u16).to_be_bytes());
            bytes.extend([feed as u8, preference].into_iter().filter(|_| names));
        }
        Record::Withdraw { address, length, feed } => {
            bytes.extend(address.bytes());
            bytes.push(length as u8);
            bytes.extend([feed as u8].into_iter().filter(|_| names));
        }
        Record::Lookup { address } => bytes.extend(address.bytes()),
    }
}
