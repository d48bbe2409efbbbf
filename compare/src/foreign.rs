//! Words that are no copy, or hardly one: lookups go by the walk under guard.

use reference::copy::HEADER;

use crate::copies::{addresses, look_up, BOXES};
use crate::guard::{Lent, Side};
use crate::lists::{any_encoding, any_list};
use crate::pair::Same;
use crate::random::Random;
use crate::tally::Tally;

/// The words of an entry: four places, of a key and a best match each.
const ENTRY: usize = 8;

/// The header's words up to the last with a use.
const USED: usize = 2 * 33;

/// Numbers of words around those that a header has, or has a use for.
const SIZES: [usize; 9] = [0, 1, USED - 1, USED, 700, HEADER - 1, HEADER - 1, HEADER, HEADER + 1];

/// Best matches at the borders of hop and length.
const BESTS: [u32; 10] = [0, 1, 255, 256, 256 + 32, 256 + 33, 65_535 * 256, 65_535 * 256 + 33, 1 << 24, u32::MAX];

/// Numbers of entries. From 2^29 on eight times them is 2^32 or more, from 2^30 on four times them too.
const ENTRIES: [u32; 5] = [1 << 28, 1 << 29, 1 << 30, 1 << 31, u32::MAX];

/// A copy with some damage.
pub fn damaged(random: &mut Random, tally: &mut Tally) -> Same {
    let prefixes = random.within(1..=30);
    let list = any_list(random, prefixes);
    let bytes = any_encoding(random, &list);
    let mut words = vec![0; reference::copy::need(&bytes).expect("a list is one") + random.below(20)];
    toggleash::copy::build(&bytes, &mut words).map_err(|refusal| format!("copy::build of a list: {refusal}"))?;
    for _ in 0..random.pick(&[1, 1, 1, 2, 3, 8]) {
        damage(random, &mut words);
    }
    let addresses = addresses(random, list.winners(), BOXES);
    looked_up(random, &words, &addresses, tally)
}

/// Tables anywhere, over one another, with places that are mostly taken, and by the bits of the addresses looked up.
pub fn made_up(random: &mut Random, tally: &mut Tally) -> Same {
    let any = random.within(HEADER..=4 * HEADER);
    let count = if random.chance(20) { random.pick(&SIZES) } else { any };
    let mut addresses = some_addresses(random);
    let odd = random.pick(&[0, 0, 0, 1, 1, 5, 5, 100]);
    let mut words: Vec<u32> = (0..count).map(|_| random.word()).collect();
    if count >= USED && odd < 100 {
        let begins: Vec<u32> = (1..=32).flat_map(|m| put_table(random, &mut words, m, &addresses, odd)).collect();
        words[0] = if random.chance(20) { random.pick(&BESTS) } else { 7 * 256 };
        words[2..USED].copy_from_slice(&begins);
    }
    addresses.extend((0..10).map(|_| random.word()));
    looked_up(random, &words, &addresses, tally)
}

/// The first address, the last and any; or the last two, which by having one way up to 31 come to 32 often.
fn some_addresses(random: &mut Random) -> Vec<u32> {
    match random.chance(30) {
        true => vec![u32::MAX - 1, u32::MAX],
        false => [0, u32::MAX].into_iter().chain((0..4).map(|_| random.word())).collect(),
    }
}

fn looked_up(random: &mut Random, words: &[u32], addresses: &[u32], tally: &mut Tally) -> Same {
    tally.copies.damaged += 1;
    look_up(&Lent::copy_of(words, random.pick(&[Side::Front, Side::Back])), addresses, None, tally)
}

/// Begin and number of entries of a table of length m that lies somewhere, mostly inside, with its places written; so
/// many words of them in a hundred are any.
fn put_table(random: &mut Random, words: &mut [u32], m: u32, addresses: &[u32], odd: usize) -> [u32; 2] {
    let room = words.len().saturating_sub(HEADER) / ENTRY;
    let before = random.within(0..=room);
    let (begin, most) = ((HEADER + ENTRY * before).min(words.len()), room - before);
    // Few reach to the end, as those take the words of others.
    let large = random.pick(&[5, 8, most]);
    let entries = random.pick(&[0, 1, 1, 2, 2, 3, 3, large]).min(most);
    let (keys, bests) = words[begin..][..ENTRY * entries].split_at_mut(ENTRY / 2 * entries);
    keys.iter_mut().for_each(|word| *word = some_key(random, m, addresses));
    bests.iter_mut().for_each(|word| *word = some_best(random));
    for word in keys.iter_mut().chain(bests) {
        *word = if random.chance(odd) { random.word() } else { *word };
    }
    [before as u32, (entries + usize::from(random.chance(1))) as u32]
}

/// The key of a place of length m: free, mostly of an address's first bits, or of its first bits of any number.
fn some_key(random: &mut Random, m: u32, addresses: &[u32]) -> u32 {
    let any = random.below(32) as u32;
    let cut = random.pick(&[32 - m, 32 - m, 32 - m, any]);
    match random.below(6) {
        0 => 0,
        _ => u32::MAX - (random.pick(addresses) >> cut),
    }
}

/// A best match, or now and then what may be none.
fn some_best(random: &mut Random) -> u32 {
    match random.below(10) {
        0 => random.pick(&BESTS),
        _ => random.pick(&[0, 256, 3 * 256 + 1, 4 * 256 + 4, 65_535 * 256 + 14]),
    }
}

fn damage(random: &mut Random, words: &mut Vec<u32>) {
    // Damage may have left too few words for a header.
    if words.len() < HEADER {
        return;
    }
    let m = random.within(1..=32);
    let (often, taken) = (random.pick(&[8, 16, 24, m]), some_table(random, words));
    match (random.below(10), taken) {
        (0, _) => words.truncate(random.below(words.len() + 1)),
        (1, _) => words[0] = random.pick(&BESTS),
        (2, _) => one_word(random, words),
        (3, Some(table)) => no_free_place(random, &mut Places::of(words, table)),
        (4..=6, Some(table)) => one_place(random, &mut Places::of(words, table)),
        (7, _) => (0..2).for_each(|i| words.swap(2 * m + i, 2 * often + i)),
        _ => begin_or_entries(random, words, often),
    }
}

/// Where a table lies: its length, begin and number of entries.
type Lying = (usize, usize, usize);

/// A table with entries that lies inside, if one is met.
fn some_table(random: &mut Random, words: &[u32]) -> Option<Lying> {
    let table = |m: usize| (m, HEADER + ENTRY * words[2 * m] as usize, words[2 * m + 1] as usize);
    let lies = |&(_, begin, entries): &Lying| entries > 0 && begin + ENTRY * entries <= words.len();
    (0..40).map(|_| table(random.within(1..=32))).find(lies)
}

/// The places of a table.
struct Places<'a> {
    length: usize,
    keys: &'a mut [u32],
    bests: &'a mut [u32],
}

impl Places<'_> {
    fn of(words: &mut [u32], (length, begin, entries): Lying) -> Places<'_> {
        let (keys, bests) = words[begin..][..ENTRY * entries].split_at_mut(ENTRY / 2 * entries);
        Places { length, keys, bests }
    }
}

/// A word that a walk may read: of the header one with a use, or any of the tables.
fn one_word(random: &mut Random, words: &mut [u32]) {
    let at = match words.len() == HEADER || random.chance(40) {
        true => random.within(2..=USED - 1),
        false => random.within(HEADER..=words.len() - 1),
    };
    words[at] = match random.chance(50) {
        true => random.word(),
        false => words[at] ^ 1 << random.below(32),
    };
}

/// Every place taken, so that a probe for what is not there goes all the way round, and what is there can stand
/// anywhere. Of length 32 a best match alone takes a place.
fn no_free_place(random: &mut Random, Places { length, keys, bests }: &mut Places) {
    let by_best = *length == 32 && random.chance(50);
    for (key, best) in keys.iter_mut().zip(bests.iter_mut()).filter(|(key, _)| **key == 0) {
        match by_best {
            true => *best = random.pick(&BESTS).max(1),
            false => *key = random.word().max(1),
        }
    }
    let by = random.below(keys.len());
    keys.rotate_left(by);
    bests.rotate_left(by);
}

/// A place, mostly a taken one, freed by its key alone, with the key of other bits, at a border of its best match, or
/// in another place's stead, whole or by its key alone.
fn one_place(random: &mut Random, Places { length, keys, bests }: &mut Places) {
    let places = keys.len();
    let taken = (0..16).map(|_| random.below(places)).find(|&place| keys[place] != 0);
    let (at, other, longest) = (taken.unwrap_or(0), random.below(places), *length as u32);
    match random.below(7) {
        0 => keys[at] = random.pick(&[0, 0, 1, u32::MAX]),
        1 => keys[at] ^= 1 << random.below(*length),
        2 | 3 => bests[at] = random.pick(&BESTS),
        4 => bests[at] = 256 * random.pick(&[1, 65_535]) + random.pick(&[longest, longest + 1, 32, 33]),
        5 => keys.swap(at, other),
        _ => {
            keys.swap(at, other);
            bests.swap(at, other);
        }
    }
}

/// The table of length m begins elsewhere or has another number of entries: at the borders of what lies inside, far
/// over them, and where the end of the table is inside modulo 2^32.
fn begin_or_entries(random: &mut Random, words: &mut [u32], m: usize) {
    let count = (words.len() - HEADER) as u32 / ENTRY as u32;
    let any = random.within(0..=count as usize) as u32;
    let (before, entries) = (words[2 * m], words[2 * m + 1]);
    let last = count.saturating_sub(entries);
    let most = count.saturating_sub(before);
    let round = 0u32.wrapping_sub(entries);
    let far = random.pick(&ENTRIES);
    match random.chance(50) {
        true => {
            words[2 * m] =
                random.pick(&[0, last, last + 1, count, count + 1, any, before ^ 4, round, 1 << 29, u32::MAX])
        }
        false => {
            let more = entries.wrapping_add(1);
            words[2 * m + 1] = random.pick(&[0, more, entries / 2, most, most + 1, far, entries.wrapping_add(far)]);
        }
    }
}
