//! What was compared, and what differed.

use std::fmt;
use std::sync::atomic::{AtomicU64, Ordering::Relaxed};

use reference::layout::{Odd, OddTotal, Stray};

use crate::family::Family;

/// Differences after which no more are looked for.
const ENOUGH: u64 = 10;

/// Counts of what was compared.
#[derive(Default)]
pub struct Tally {
    pub four: Counts,
    pub six: Counts,
    pub copies: Copies,
    pub differences: u64,
}

/// Of the tables of a family.
#[derive(Default)]
pub struct Counts {
    pub records: u64,
    pub feeds: u64,
    pub updates: u64,
    pub lookups: u64,
    pub withins: u64,
    pub tables: u64,
    pub damaged: u64,
}

/// Of copies for the line card.
#[derive(Default)]
pub struct Copies {
    pub built: u64,
    pub lookups: u64,
    /// Bytes that are hardly a list.
    pub torn: u64,
    /// Words that are hardly a copy.
    pub damaged: u64,
    /// How often 2 was the right answer for bytes, 9 for the words of a build, 2 in a lookup.
    pub bytes_refused: u64,
    pub words_refused: u64,
    pub lookups_refused: u64,
}

/// The levels of the family that has most.
const LEVELS: usize = 16;

/// How often each thing was met in the tables of a family.
pub struct Seen {
    /// A refusal, by its number, or a stop as the right answer.
    refusals: [AtomicU64; 11],
    stops: [AtomicU64; 5],
    /// A direct update that made a hop win at its prefix, changed it, left it, and left none.
    winners: [AtomicU64; 4],
    /// A lookup's walk that ended at what no table has: lengths, blocks and links, by level.
    odd: [[AtomicU64; LEVELS]; 3],
    /// A walk to a total that ended so: links and totals, by level.
    odd_totals: [[AtomicU64; LEVELS]; 2],
    /// A local update of words that are no table, by the number of its refusal; 0 for none.
    locals: [AtomicU64; 11],
    /// One that was refused for what it met: links, tags, bests beside a link, bests and blocks of the cell that gets one, by level.
    strays: [[AtomicU64; LEVELS]; 5],
    /// The same for the root, too few free arrays, and one that is not blank.
    other_strays: [AtomicU64; 3],
}

impl Seen {
    pub const fn new() -> Seen {
        Seen {
            refusals: [const { AtomicU64::new(0) }; 11],
            stops: [const { AtomicU64::new(0) }; 5],
            winners: [const { AtomicU64::new(0) }; 4],
            odd: [const { [const { AtomicU64::new(0) }; LEVELS] }; 3],
            odd_totals: [const { [const { AtomicU64::new(0) }; LEVELS] }; 2],
            locals: [const { AtomicU64::new(0) }; 11],
            strays: [const { [const { AtomicU64::new(0) }; LEVELS] }; 5],
            other_strays: [const { AtomicU64::new(0) }; 3],
        }
    }

    pub fn refusal(&self, number: u8) {
        self.refusals[usize::from(number)].fetch_add(1, Relaxed);
    }

    pub fn stop(&self, number: u8) {
        self.stops[usize::from(number)].fetch_add(1, Relaxed);
    }

    /// Notes the hops that win at an accepted update's prefix before and after it.
    pub fn winner(&self, before: Option<u32>, after: Option<u32>) {
        let which = match (before, after) {
            (None, _) => 0,
            (Some(_), None) => 3,
            _ if before == after => 2,
            _ => 1,
        };
        self.winners[which].fetch_add(1, Relaxed);
    }

    pub fn odd(&self, odd: Odd, level: u32) {
        self.odd[odd as usize][level as usize].fetch_add(1, Relaxed);
    }

    pub fn odd_total(&self, odd: OddTotal, level: u32) {
        self.odd_totals[odd as usize][level as usize].fetch_add(1, Relaxed);
    }

    pub fn local(&self, refusal: u32) {
        self.locals[refusal as usize].fetch_add(1, Relaxed);
    }

    pub fn stray(&self, stray: Stray, level: u32) {
        let level = level as usize;
        let count = match stray {
            Stray::Array => &self.strays[0][level],
            Stray::Tag => &self.strays[1][level],
            Stray::Best => &self.strays[2][level],
            Stray::LastBest => &self.strays[3][level],
            Stray::LastBlock => &self.strays[4][level],
            Stray::Root => &self.other_strays[0],
            Stray::Few => &self.other_strays[1],
            Stray::Filled => &self.other_strays[2],
        };
        count.fetch_add(1, Relaxed);
    }

    /// Prints what was met, of so many levels. Tells whether one of them never was.
    fn lacks(&self, levels: usize) -> bool {
        let of_tables = self.lacks_of_tables(levels);
        let of_locals = self.lacks_of_locals(levels);
        of_tables || of_locals
    }

    /// The same of local updates of words that are no table.
    fn lacks_of_locals(&self, levels: usize) -> bool {
        let mut locals = counts(&self.locals);
        // no update is refused with 6 or 9
        locals.remove(9);
        locals.remove(6);
        println!("  local updates of no table done, and refused with 1, 2, 3, 4, 5, 7, 8, 10, {locals:?} times");
        // No path leaves the last level.
        let strays = [0, 1, 2, 3, 4].map(|stray| counts(&self.strays[stray][..levels - 1]));
        println!("  with 2 for a link, a tag, a best, and the best and block that get a link, on each level {strays:?} times");
        let others = counts(&self.other_strays);
        println!("  with 2 for the root, too few free arrays and one that is not blank {others:?} times");
        [locals, strays.concat(), others].concat().contains(&0)
    }

    fn lacks_of_tables(&self, levels: usize) -> bool {
        let (mut refusals, stops) = (counts(&self.refusals), counts(&self.stops));
        // there is no 0 and no 6
        refusals.remove(6);
        refusals.remove(0);
        println!("  refusals 1, 2, 3, 4, 5, 7, 8, 9, 10 met {refusals:?} times, stops 0 to 4 {stops:?} times");
        let winners = counts(&self.winners);
        println!("  direct updates by which a winning hop comes, changes, stays and goes {winners:?} times");
        let odd = [0, 1, 2].map(|odd| counts(&self.odd[odd][..levels]));
        println!("  lookups refused with 2 for a length, a block and a link, on each level {odd:?} times");
        // No walk to a total leaves the last level.
        let odd_totals = [counts(&self.odd_totals[0][..levels - 1]), counts(&self.odd_totals[1][..levels])];
        println!("  counts inside a prefix refused with 2 for a link and a total, on each level {odd_totals:?} times");
        [refusals, stops, winners, odd.concat(), odd_totals.concat()].concat().contains(&0)
    }
}

fn counts(of: &[AtomicU64]) -> Vec<u64> {
    of.iter().map(|count| count.load(Relaxed)).collect()
}

impl Default for Seen {
    fn default() -> Seen {
        Seen::new()
    }
}

impl Tally {
    /// Prints what was met of a family. A comparison that met one of the answers never has shown nothing of it.
    pub fn answers<A: Family>(&mut self) {
        println!("{}: {}", A::NAME, A::counts(self));
        let lacks = A::seen().lacks(A::LEVELS as usize);
        self.missing(lacks);
    }

    /// The same of copies.
    pub fn copies(&mut self) {
        println!("copies: {}", self.copies);
        let copies = [self.copies.bytes_refused, self.copies.words_refused, self.copies.lookups_refused];
        println!("  bytes refused with 2, words by 9 and lookups by 2 {copies:?} times");
        self.missing(copies.contains(&0));
    }

    fn missing(&mut self, lacks: bool) {
        if lacks && !self.enough() {
            println!("difference: one of them was never met");
            self.differences += 1;
        }
    }

    /// Prints a difference, with what finds it again.
    pub fn case(&mut self, part: &str, case: u64, result: Result<(), String>) {
        if let Err(difference) = result {
            println!("difference in {part} case {case}: {difference}");
            self.differences += 1;
        }
    }

    pub fn enough(&self) -> bool {
        self.differences >= ENOUGH
    }
}

impl fmt::Display for Counts {
    fn fmt(&self, f: &mut fmt::Formatter<'_>) -> fmt::Result {
        let Counts { records, feeds, updates, lookups, withins, tables, damaged } = self;
        write!(f, "{records} records in {feeds} feeds, {updates} direct updates, {lookups} lookups, ")?;
        write!(f, "{withins} counts inside a prefix, {tables} tables, {damaged} damaged memories")
    }
}

impl fmt::Display for Copies {
    fn fmt(&self, f: &mut fmt::Formatter<'_>) -> fmt::Result {
        let Copies { built, lookups, torn, damaged, .. } = self;
        write!(f, "{built} built, {lookups} lookups in them, {torn} damaged lists, {damaged} damaged copies")
    }
}
