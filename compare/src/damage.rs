//! Memories that are no table, or hardly one: every call is made on them under guard.

use std::collections::VecDeque;

use reference::layout::{self, cells, fill_totals, tag_below, unused, winners, word, Arrays, Cell, End};
use reference::layout::{CELLS, HOPS, LINKS, SLOT, TOTALS, UNUSED};
use reference::memory::ARRAY_WORDS;
use reference::{Address, Candidate, CandidateList, Prefix};

use crate::family::Family;
use crate::feeds::{preference, Mood, Source, Terrain};
use crate::guard::Side;
use crate::insides;
use crate::lists::{filling, litter, rivalled, scattered, Growing};
use crate::pair::{Pair, Same};
use crate::random::Random;
use crate::tally::Counts;

/// Numbers of words that no table has, but for two, and the nearest to those that some has.
pub const SIZES: [usize; 17] = [
    0, 1, 2, 1_024, 2_048, 3_071, 3_072, 3_073, 6_143, 6_144, 6_145, 7_168, 4_195_328, 12_585_983, 12_585_984,
    12_585_985, 12_589_056,
];

/// Lookups on one memory.
const ADDRESSES: usize = 2_500;

/// Values at the borders of what a word may hold.
const BORDERS: [u32; 16] =
    [0, 1, 2, 31, 32, 33, 4_095, 4_096, 8_191, 8_192, 65_535, 65_536, (1 << 28) - 1, 1 << 28, 1 << 31, u32::MAX];
/// The same in a cell: blocks, a length with a block, a length, and lengths beside a link.
const CELL_BORDERS: [u32; 6] = [8, 9, 8 * 16 + 8, 9 * 16, 9 << 28, 10 << 28];
/// The same in a slot: preferences with a hop and without.
const SLOT_BORDERS: [u32; 6] =
    [HOPS + 1, 255 * HOPS, 255 * HOPS + 1, 255 * HOPS + 65_535, 256 * HOPS + 1, 256 * HOPS + 65_535];

/// A table of so many arrays with some damage, and every call on it.
pub fn memory<A: Family>(random: &mut Random, arrays: usize, tally: &mut Counts) -> Same {
    let terrain = Terrain::<A>::new(random, arrays);
    let need = arrays - random.below(arrays.min(4));
    let list = filling(random, &terrain, need);
    let whole = scattered(random, &list, arrays);
    let mut words = whole.clone();
    for _ in 0..random.pick(&[0, 1, 1, 1, 1, 2, 3]) {
        damage(random, &mut words);
    }
    every_call(random, (&terrain, &list), (&words, &whole), &[], tally)
}

/// A table of the other family, which may be one of this family too, and every call on it.
pub fn other<A: Family, B: Family>(random: &mut Random, tally: &mut Counts) -> Same {
    let arrays = random.within(1..=24);
    let terrain = Terrain::<B>::new(random, arrays);
    let list = filling(random, &terrain, arrays);
    let words = scattered(random, &list, arrays);
    let seen = layout::read::<A>(&words).list().cloned().unwrap_or_default();
    let terrain = Terrain::<A>::new(random, arrays);
    every_call(random, (&terrain, &seen), (&words, &words), &[], tally)
}

/// Words of any number, all alike or all random, and every call on them.
pub fn size<A: Family>(random: &mut Random, count: usize, tally: &mut Counts) -> Same {
    let terrain = Terrain::<A>::new(random, 7);
    let alike = border(random);
    let any = random.chance(50);
    let words: Vec<u32> = (0..count).map(|_| if any { random.word() } else { alike }).collect();
    every_call(random, (&terrain, &CandidateList::default()), (&words, &words), &[], tally)
}

pub fn border(random: &mut Random) -> u32 {
    match random.below(10) {
        0..=5 => random.pick(&BORDERS),
        6 | 7 => random.pick(&CELL_BORDERS),
        _ => random.pick(&SLOT_BORDERS),
    }
}

/// The calls that change no word first, on words that cannot be written, then updates in a row, a run and clearing. Beside the
/// words stand those that they were before any damage; the prefixes are counted inside, their first addresses looked up, and they are
/// announced and withdrawn, too.
fn every_call<A: Family>(
    random: &mut Random,
    (terrain, list): (&Terrain<A>, &CandidateList<A>),
    (words, whole): (&[u32], &[u32]),
    besides: &[Prefix<A>],
    tally: &mut Counts,
) -> Same {
    tally.damaged += 1;
    let side = random.pick(&[Side::Front, Side::Back]);
    let mut pair = Pair::<A>::seen(words, side);
    pair.check()?;
    let mut addresses = every_cell(random, words, whole);
    let mut prefixes: Vec<Prefix<A>> = addresses.iter().map(|&address| insides::holding(random, address)).collect();
    addresses.extend(besides.iter().map(|prefix| prefix.address));
    prefixes.extend(besides);
    pair.lookup(&addresses)?;
    tally.lookups += addresses.len() as u64;
    pair.within(&prefixes)?;
    tally.withins += prefixes.len() as u64;
    let full = list.encoded_size();
    for room in [0, full - 1, full, full + random.below(30)] {
        pair.write_out(room, side)?;
    }
    let mut source = Source::new(random, terrain, list);
    let feed = source.feed(Mood::CHURN, 12);
    let updates = [source.record(Mood::FILL), source.record(Mood::FREE), source.record(Mood::CHURN)];
    for record in updates {
        crate::rooms::update(&mut pair, record, |number| number)?;
        pair.stands()?;
    }
    for &prefix in besides {
        pair.announce(Candidate { prefix, feed: 4, preference: 1, hop: 1 })?;
        pair.withdraw(prefix, 4)?;
    }
    tally.updates += (updates.len() + 2 * besides.len()) as u64;
    tally.records += Pair::<A>::seen(words, side).run(&feed, random.below(70), side)?;
    tally.feeds += 1;
    Pair::<A>::seen(words, side).clear()
}

/// Random addresses, and one for each cell that links lead to, damaged ones too, until there are enough; in arrays without damage
/// perhaps only for some cells, and for those with a link.
fn every_cell<A: Family>(random: &mut Random, words: &[u32], whole: &[u32]) -> Vec<A> {
    let mut addresses: Vec<A> = (0..20).map(|_| A::any(random)).collect();
    let Some(arrays) = Arrays::new(words) else { return addresses };
    let mut ahead = VecDeque::from([(1, 0, A::default())]);
    while let Some((a, level, head)) = ahead.pop_front() {
        if addresses.len() > ADDRESSES {
            break;
        }
        let page = ARRAY_WORDS * a..ARRAY_WORDS * (a + 1);
        let damaged = words[page.clone()] != whole[page];
        for cell in 0..=255 {
            let link = arrays.below(a, cell.into());
            if !damaged && link.is_none() && random.below(256) >= A::CELLS {
                continue;
            }
            let inside = head | A::with_byte(cell, level);
            addresses.push(inside | A::any(random) & !A::mask(8 * level + 8));
            let below = link.and_then(|number| arrays.held(number)).filter(|_| level + 1 < A::LEVELS);
            ahead.extend(below.map(|below| (below, level + 1, inside)));
        }
    }
    addresses
}

/// What can be planted in an array: something in a cell, a total or a tag that no table has.
const PLANTS: u64 = 6;

/// The number of cases of `depth` for a family: each of these on each level.
pub const fn depths(levels: u32) -> u64 {
    PLANTS * levels as u64
}

/// A table with a way to one address, and on a chosen level of that way something that no table has: at the way's cell a length
/// beside a link or without one, a block or a link; a total, or the tag of the array below.
pub fn depth<A: Family>(random: &mut Random, case: u64, tally: &mut Counts) -> Same {
    let (level, plant) = ((case / PLANTS) as u32 % A::LEVELS, case % PLANTS);
    let arrays = A::LEVELS as usize + random.below(9);
    let terrain = Terrain::<A>::new(random, arrays);
    let mut growing = Growing::default();
    let way = Prefix::around(terrain.address(random), A::BITS);
    growing.grow(way, 1 + random.below(65_535) as u32, arrays);
    for _ in 0..random.below(60) {
        growing.grow(terrain.prefix(random), 1 + random.below(65_535) as u32, arrays);
    }
    let list = rivalled(random, &growing.list());
    let whole = scattered(random, &list, arrays);
    let mut words = whole.clone();
    let on_the_way =
        |level| Arrays::new(&whole).and_then(|all| array_on(&all, way.address, level)).expect("the way is held");
    let page = ARRAY_WORDS * on_the_way(level);
    let at = page + CELLS + way.address.byte(level);
    let cell = Cell::of(words[at]);
    let no_array = (arrays as u32 + 1).min(LINKS);
    match plant {
        0 => words[at] = Cell { length: random.within(9..=14) as u32, ..cell }.word(),
        1 => words[at] = Cell { end: End::Block(random.within(9..=15) as u32), ..cell }.word(),
        2 => words[at] = Cell { end: End::Link(no_array), ..cell }.word(),
        3 => words[at] = Cell { length: random.within(9..=255) as u32, end: End::Block(0), ..cell }.word(),
        4 if level + 1 < A::LEVELS => {
            words[ARRAY_WORDS * on_the_way(level + 1)] ^= random.pick(&[1, 31, 32, 1 << 13, 1 << 31])
        }
        _ => words[page + TOTALS + 256 + way.address.byte(level)] = 511 * arrays as u32 + 1,
    }
    let inside = Prefix::around(way.address, 8 * level + 8);
    every_call(random, (&terrain, &list), (&words, &whole), &[way, inside], tally)
}

/// The array that links lead to along an address's first bytes.
fn array_on<A: Family>(arrays: &Arrays, address: A, level: u32) -> Option<usize> {
    (0..level).try_fold(1, |a, level| arrays.held(arrays.below(a, address.byte(level))?))
}

/// One change, of a kind that some call may or may not notice.
pub fn damage(random: &mut Random, words: &mut [u32]) {
    match random.below(19) {
        0..=3 => one_word(random, words),
        4 => whole_pages(random, words),
        5 | 6 => hang_another(random, words),
        7 => change_a_slot(random, words),
        8 | 9 => border_best(random, words),
        10 => other_link(random, words),
        11 | 12 => other_block(random, words),
        13 | 14 => other_candidates(random, words),
        15..=17 => other_total(random, words),
        _ => unused_words(random, words),
    }
}

/// An array, mostly a used one.
fn some_array(random: &mut Random, words: &[u32]) -> usize {
    let arrays = words.len() / ARRAY_WORDS - 1;
    if random.chance(10) {
        return random.within(1..=arrays);
    }
    let tried = (0..8).map(|_| random.within(1..=arrays)).find(|a| words[ARRAY_WORDS * a] != 0);
    tried.unwrap_or(1)
}

/// The word of a cell, as often as not of one with a link if its array has any.
fn some_cell(random: &mut Random, words: &[u32]) -> usize {
    let first = ARRAY_WORDS * some_array(random, words) + CELLS;
    let linked: Vec<usize> = (first..first + 256).filter(|&at| Cell::of(words[at]).link().is_some()).collect();
    match linked.is_empty() || random.chance(50) {
        true => first + random.below(256),
        false => random.pick(&linked),
    }
}

/// A word of one of the kinds that a table has, near to what it was, at a border, or anything.
fn one_word(random: &mut Random, words: &mut [u32]) {
    let arrays = (words.len() / ARRAY_WORDS - 1) as u32;
    let page = ARRAY_WORDS * some_array(random, words);
    let at = match random.below(10) {
        0 => random.below(words.len()),
        1 => random.within(0..=2),
        2 => random.pick(&[512, 513, 1_023, 1_024, 3_071]),
        3 => page,
        4 => page + random.within(SLOT..=CELLS - 1),
        5 => page + SLOT * random.pick(&[1, 2, 3, 256, 511]) + random.below(SLOT),
        6 => page + some_unused(random),
        7 => page + random.within(TOTALS + 1..=UNUSED - 1),
        _ => some_cell(random, words),
    };
    words[at] = match random.below(6) {
        0 => random.word(),
        1 => border(random),
        2 => words[at] ^ 1 << random.below(32),
        // One more or less, or one more of what stands higher in a tag, a slot or a cell.
        3 => words[at].wrapping_add(random.pick(&[1, u32::MAX, 16, 32, 8192, LINKS, HOPS, LINKS * HOPS])),
        4 => random.below(arrays as usize + 3) as u32,
        _ => arrays + 1,
    };
}

/// Length and hop of a best each come to a border or stay; the link or the block stays.
fn border_best(random: &mut Random, words: &mut [u32]) {
    let at = some_cell(random, words);
    let cell = Cell::of(words[at]);
    // Beside a link there is no length over 14.
    let most = if cell.link().is_some() { 14 } else { 255 };
    let length = random.pick(&[cell.length, 0, 1, 8, 9, most]);
    let hop = random.pick(&[cell.hop, 0, 1, HOPS - 1]);
    words[at] = Cell { hop, length, ..cell }.word();
}

/// A link goes, and any block stands in its place; or one leads elsewhere, to the first array too, or, unless there are as
/// many arrays as links, past the last. The best stays.
fn other_link(random: &mut Random, words: &mut [u32]) {
    let arrays = (words.len() / ARRAY_WORDS - 1) as u32;
    let at = some_cell(random, words);
    let cell = Cell::of(words[at]);
    let (any, block) = (1 + random.below(arrays as usize) as u32, random.below(9) as u32);
    let number = random.pick(&[1, 2, any, arrays, arrays % LINKS + 1, LINKS]);
    let end = random.pick(&[End::Block(block), End::Link(number), End::Link(number)]);
    words[at] = Cell { length: cell.length.min(14), end, ..cell }.word();
}

/// The block of a cell without a link, mostly one that is met, comes to a border, or is one more or less; the best stays.
fn other_block(random: &mut Random, words: &mut [u32]) {
    for _ in 0..8 {
        let at = some_cell(random, words);
        let cell = Cell::of(words[at]);
        if let End::Block(block) = cell.end {
            let block = random.pick(&[0, 1, 8, 9, 15, block.saturating_sub(1), (block + 1).min(15)]);
            words[at] = Cell { end: End::Block(block), ..cell }.word();
            return;
        }
    }
}

/// A total, mostly one that is not 0, is one more or less, comes to a border of what the walk takes, or is anything; as often as
/// not those above it in its array follow, and in the arrays above.
fn other_total(random: &mut Random, words: &mut [u32]) {
    let most = 511 * (words.len() / ARRAY_WORDS - 1) as u32;
    let a = some_array(random, words);
    let first = ARRAY_WORDS * a + TOTALS;
    let some: Vec<usize> = (first + 1..first + 512).filter(|&at| words[at] != 0).collect();
    let any = first + random.within(1..=511);
    let at = if some.is_empty() || random.chance(30) { any } else { random.pick(&some) };
    let (more, fewer, far) = (words[at].wrapping_add(1), words[at].wrapping_sub(1), random.word());
    let value = random.pick(&[more, more, fewer, fewer, 0, most, most + 1, far]);
    let by = value.wrapping_sub(words[at]);
    words[at] = value;
    if random.chance(50) {
        let mut slot = (at - first) / 2;
        while slot > 0 {
            words[first + slot] = words[first + slot].wrapping_add(by);
            slot /= 2;
        }
        total_above(words, a);
    }
}

/// A word of an array without a use.
fn some_unused(random: &mut Random) -> usize {
    random.pick(&unused().collect::<Vec<_>>())
}

/// The words of one slot, mostly a taken one, change places, or one of them gets another candidate or none, and no cell
/// follows: another table where the same hop wins.
fn other_candidates(random: &mut Random, words: &mut [u32]) {
    let page = ARRAY_WORDS * some_array(random, words);
    let taken: Vec<usize> = (page + SLOT..page + CELLS).filter(|&at| words[at] != 0).collect();
    let at = if taken.is_empty() { page + 2 * SLOT } else { random.pick(&taken) };
    let slot = &mut words[at / SLOT * SLOT..][..SLOT];
    match random.below(3) {
        0 => slot.swap(random.below(SLOT), random.below(SLOT)),
        1 => slot[random.below(SLOT)] = 0,
        _ => slot[random.below(SLOT)] = word(preference(random), 1 + random.below(65_535) as u32),
    }
}

/// Anything in the words without a use, of one array or of all: what was a table stays the same one.
fn unused_words(random: &mut Random, words: &mut [u32]) {
    let arrays = words.len() / ARRAY_WORDS - 1;
    let any = random.within(1..=arrays);
    let (first, last) = random.pick(&[(any, any), (1, arrays)]);
    (first..=last).for_each(|a| litter(random, words, a));
}

fn whole_pages(random: &mut Random, words: &mut [u32]) {
    let (one, other) = (some_array(random, words), some_array(random, words));
    let page = |a: usize| ARRAY_WORDS * a..ARRAY_WORDS * (a + 1);
    match random.below(5) {
        0 => words[page(one)].fill(0),
        1 => words.copy_within(page(one), ARRAY_WORDS * other),
        2 => (0..ARRAY_WORDS).for_each(|i| words.swap(ARRAY_WORDS * one + i, ARRAY_WORDS * other + i)),
        3 => words[page(one)].iter_mut().for_each(|word| *word = random.word()),
        _ => words[..ARRAY_WORDS].fill(0),
    }
}

/// A free array hung below a cell with tag, link and counts in order, perhaps with a route: an empty array, a level too
/// many, a link that is taken from another array, a parent that is free, or, with luck, a table of one route more.
fn hang_another(random: &mut Random, words: &mut [u32]) {
    let arrays = words.len() / ARRAY_WORDS - 1;
    // No link leads to array 1, though damage may have freed it.
    let Some(free) = (2..=arrays).find(|a| words[ARRAY_WORDS * a] == 0) else { return };
    let (parent, cell) = (some_array(random, words), random.below(256));
    let at = ARRAY_WORDS * parent + CELLS + cell;
    words[at] = Cell { hop: 0, length: 0, end: End::Link(free as u32) }.word();
    words[ARRAY_WORDS * free] = tag_below(parent, cell, words[ARRAY_WORDS * parent]);
    words[0] = words[0].wrapping_add(1);
    words[1 + (free - 1) / 8] = words[1 + (free - 1) / 8].wrapping_add(1);
    if random.chance(50) {
        words[ARRAY_WORDS * free + SLOT * (256 + cell) + random.below(SLOT)] = 9;
    }
    follow(words, free);
    total_up(words, free);
    // As often as not the blocks beside the new link are left as they were.
    if random.chance(50) {
        follow(words, parent);
    }
}

/// A word of a slot gets another candidate, or none, and all cells follow: another table, an array left empty, a candidate of
/// length 0 below the root, a preference without a hop or over its range, or a candidate in a free array.
fn change_a_slot(random: &mut Random, words: &mut [u32]) {
    let a = some_array(random, words);
    let any = random.within(1..=511);
    let at = SLOT * random.pick(&[1, any, any, any]) + random.below(SLOT);
    words[ARRAY_WORDS * a + at] = random.pick(&[0, 1, 65_535, 65_536, word(255, 1), 256 * HOPS + 1]);
    follow(words, a);
    // As often as not the totals are left as they were.
    if random.chance(50) {
        total_up(words, a);
    }
}

/// The totals of an array follow, and those of the arrays above it.
fn total_up(words: &mut [u32], a: usize) {
    fill_totals(words, a);
    total_above(words, a);
}

/// The totals of the arrays above one follow, as far as tags lead to any and levels allow.
fn total_above(words: &mut [u32], mut a: usize) {
    for _ in 0..u128::LEVELS {
        let Some(parent) = Arrays::new(words).and_then(|arrays| arrays.held(arrays.tag(a) / 8192)) else { return };
        fill_totals(words, parent);
        a = parent;
    }
}

/// Bests and blocks of an array become those that its slots and links make.
fn follow(words: &mut [u32], a: usize) {
    let page = &mut words[ARRAY_WORDS * a..ARRAY_WORDS * (a + 1)];
    let links: Vec<_> = page[CELLS..TOTALS].iter().map(|&word| Cell::of(word).link()).collect();
    for (at, cell) in cells(&winners(page), &links).into_iter().enumerate() {
        page[CELLS + at] = cell.word();
    }
}
