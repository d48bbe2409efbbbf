//! Words that are a table on some paths alone: tags and links lead down as in one, and all else is anything. Local updates get far
//! in them.

use reference::feed::Record;
use reference::layout::{tag_below, Cell, End, CELLS, HOPS, LINKS, MOST, ROOT_TAG, SLOT, TOTALS};
use reference::memory::ARRAY_WORDS;
use reference::{Prefix, FEEDS};

use crate::damage::border;
use crate::family::Family;
use crate::feeds::{encode, hop, preference};
use crate::guard::Side;
use crate::pair::{Pair, Same};
use crate::random::Random;
use crate::rooms::update;
use crate::tally::Counts;

/// Updates of one memory, and records of its run.
const UPDATES: usize = 6;
const RECORDS: usize = 20;

/// An array that hangs: its number, level and head.
type Hung<A> = (usize, u32, A);

/// Updates in such words, each on them as they are, and a run of others.
pub fn memory<A: Family>(random: &mut Random, tally: &mut Counts) -> Same {
    let arrays = random.within(1..=2 * A::LEVELS as usize);
    let mut words = anything(random, arrays);
    let hung = hang::<A>(random, &mut words);
    free(random, &mut words, &hung);
    count(random, &mut words);
    tally.damaged += 1;
    let mut pair = Pair::<A>::seen(&words, Side::Back);
    for _ in 0..UPDATES {
        let record = some_update(random, &hung);
        update(&mut pair, record, |number| number)?;
    }
    tally.updates += UPDATES as u64;
    let mut feed = Vec::new();
    (0..RECORDS).for_each(|_| encode(some_update(random, &hung), random.chance(50), &mut feed));
    tally.records += Pair::<A>::seen(&words, Side::Back).run(&feed, 5 * RECORDS, Side::Back)?;
    tally.feeds += 1;
    Ok(())
}

/// All words alike, at borders, any, or of the cells those that a table can have.
fn anything(random: &mut Random, arrays: usize) -> Vec<u32> {
    let count = ARRAY_WORDS * (arrays + 1);
    let alike = border(random);
    let cell =
        |random: &mut Random| (random.word() % HOPS) * LINKS + random.below(9) as u32 * 16 + random.below(9) as u32;
    match random.below(4) {
        0 => vec![alike; count],
        1 => (0..count).map(|_| border(random)).collect(),
        2 => (0..count).map(|_| random.word()).collect(),
        _ => (0..count)
            .map(|at| if (CELLS..TOTALS).contains(&(at % ARRAY_WORDS)) { cell(random) } else { random.word() })
            .collect(),
    }
}

/// Arrays hung one below another, mostly the next below the last, from the first on, which mostly is the root.
fn hang<A: Family>(random: &mut Random, words: &mut [u32]) -> Vec<Hung<A>> {
    let arrays = words.len() / ARRAY_WORDS - 1;
    words[ARRAY_WORDS] = if random.chance(2) { border(random) } else { ROOT_TAG };
    let mut hung = vec![(1, 0, A::default())];
    for below in (2..=arrays).filter(|_| random.chance(70)).collect::<Vec<_>>() {
        let last = hung[hung.len() - 1];
        let (a, level, head) = if random.chance(70) { last } else { random.pick(&hung) };
        if level + 1 == A::LEVELS {
            continue;
        }
        let cell = random.byte();
        let length =
            if random.chance(3) { random.within(9..=14) as u32 } else { random.below(MOST as usize + 1) as u32 };
        let linked = Cell { hop: random.word() % HOPS, length, end: End::Link(below as u32) };
        words[ARRAY_WORDS * a + CELLS + usize::from(cell)] = linked.word();
        words[ARRAY_WORDS * below] = tag_below(a, cell.into(), words[ARRAY_WORDS * a]);
        hung.push((below, level + 1, head | A::with_byte(cell, level)));
    }
    hung
}

/// Of the other arrays most are free, and nearly all of these blank.
fn free<A: Family>(random: &mut Random, words: &mut [u32], hung: &[Hung<A>]) {
    for a in (1..words.len() / ARRAY_WORDS).filter(|a| hung.iter().all(|hung| hung.0 != *a)) {
        let page = &mut words[ARRAY_WORDS * a..ARRAY_WORDS * (a + 1)];
        match random.below(20) {
            0 => {}
            1 => page[0] = 0,
            2 => {
                page.fill(0);
                page[random.within(SLOT..=ARRAY_WORDS - 1)] = random.word();
            }
            _ => page.fill(0),
        }
    }
}

/// The header counts what is used, or anything.
fn count(random: &mut Random, words: &mut [u32]) {
    let arrays = words.len() / ARRAY_WORDS - 1;
    let any = random.below(arrays + 2) as u32;
    let used: Vec<usize> = (1..=arrays).filter(|a| words[ARRAY_WORDS * a] != 0).collect();
    words[0] = random.pick(&[used.len() as u32, used.len() as u32, used.len() as u32, any]);
    for group in 0..arrays.div_ceil(8) {
        let count = used.iter().filter(|&&a| (a - 1) / 8 == group).count() as u32;
        words[1 + group] = random.pick(&[count, count, count, count, 8, any]);
    }
}

/// An update of a prefix in or below some array that hangs.
fn some_update<A: Family>(random: &mut Random, hung: &[Hung<A>]) -> Record<A> {
    let (_, level, head) = random.pick(hung);
    let deeper = random.pick(&[0, 0, 0, 1, 2, 3]).min(A::LEVELS - 1 - level);
    let length = 8 * (level + deeper) + random.within(1..=8) as u32;
    let inside = A::any(random) & !A::mask(8 * level);
    let Prefix { address, length } = Prefix::around(head | inside, if random.chance(2) { 0 } else { length });
    let feed = random.within(1..=FEEDS as usize) as u32;
    match random.chance(50) {
        true => Record::Announce { address, length, hop: hop(random), feed, preference: preference(random) },
        false => Record::Withdraw { address, length, feed },
    }
}
