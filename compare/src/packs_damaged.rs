//! Words that are hardly a compressed table, and words that are none: lookups in them under guard, against the reference's walk.

use reference::packed::{index, ENTRY, FULL, HEADER, LENGTHS, LEVELS};
use reference::{Address, RouteList};

use crate::guard::{Lent, Side};
use crate::packs::{look_up, small, some_addresses, Packs};
use crate::pair::Same;
use crate::random::Random;

/// Numbers of words around the ends of the header, of the first entries and of the first array.
const SIZES: [usize; 12] = [0, 1, 4, 1_023, 1_024, 1_027, 1_028, 1_029, 2_047, 2_048, 2_049, 3_000];

/// Built words with some damage, or cut, or followed by others; or words that were never built.
pub fn words(random: &mut Random, seen: &mut Packs) -> Same {
    seen.damaged += 1;
    let (list, mut packed) = small(random);
    let mut addresses = some_addresses(random, &list);
    match random.below(10) {
        0 => packed.truncate(random.below(packed.len() + 1)),
        1 => packed.extend((0..random.within(1..=9)).map(|_| random.word())),
        2 => packed = made_up(random),
        _ => (0..random.within(1..=3)).for_each(|_| {
            let met = damage(random, &mut packed, &list);
            addresses.extend((0..6).map(|_| inside(random, met)));
        }),
    }
    let side = random.pick(&[Side::Front, Side::Back]);
    look_up(&Lent::copy_of(&packed, side), &addresses, None, seen)
}

/// An address that shares bytes with this one.
fn inside(random: &mut Random, address: u32) -> u32 {
    address ^ random.word().checked_shr(8 * random.below(5) as u32).unwrap_or(0)
}

/// The places of the entries that the walk of an address meets, as long as they lie in the words.
fn met(words: &[u32], address: u32) -> Vec<usize> {
    let (mut place, mut mask, mut met) = (HEADER, FULL, Vec::new());
    for level in 0..LEVELS {
        let at = place + ENTRY * index(mask, address.byte(level) as u8);
        if at + ENTRY > words.len() {
            break;
        }
        met.push(at);
        if words[at + 2] == 0 {
            break;
        }
        (place, mask) = (words[at + 2] as usize, words[at + 3] as u8);
    }
    met
}

/// Changes a field of an entry that the walk of an address meets, which is given.
fn damage(random: &mut Random, words: &mut [u32], list: &RouteList) -> u32 {
    let anywhere = random.word();
    let address = match list.routes() {
        [] => anywhere,
        routes => random.pick(routes).prefix.address | anywhere & 255,
    };
    let entries = met(words, address);
    let Some(&last) = entries.last() else { return address };
    let any = random.pick(&entries);
    let at = random.pick(&[last, any]);
    let byte = (address.byte(random.below(4) as u32)) as u32;
    let (end, hop) = (words.len() as u32, words[at + 1] % LENGTHS);
    let near = |word: u32, random: &mut Random| word ^ 1 << random.below(9);
    match random.below(5) {
        0 => {
            let near = near(words[at], random);
            words[at] = random.pick(&[0, 1, 2, 255, 256, 511, 512, 513, near, near, 256 + byte, u32::MAX, anywhere]);
        }
        1 => {
            let lengths = random.pick(&[0, 1, 7, 8, 8, 9, 9, 10, 65_535]);
            let hop = random.pick(&[0, hop, 1, 65_535]);
            words[at + 1] = random.pick(&[lengths * LENGTHS + hop, lengths * LENGTHS + hop, anywhere]);
        }
        2 => {
            let other = random.pick(&entries) as u32;
            words[at + 2] = random.pick(&[
                0,
                1,
                1_024,
                other,
                other,
                end - 4,
                end - 3,
                end - 1,
                end,
                u32::MAX - 3,
                u32::MAX,
                anywhere,
            ]);
        }
        3 => {
            let near = near(words[at + 3], random);
            words[at + 3] = random.pick(&[0, 1, 128, 255, 256, 256 + byte, near, near, byte, u32::MAX, anywhere]);
        }
        // An entry that every byte has, and that leads to itself or to another that was met.
        _ => {
            let other = random.pick(&entries) as u32;
            let cover = random.pick(&[0, hop, 8 * LENGTHS + hop]);
            words[at..at + ENTRY].copy_from_slice(&[1, cover, other, random.pick(&[0, 0, 255, 15])]);
        }
    }
    address
}

/// Words all alike, all random, or of small numbers, as entries have them.
fn made_up(random: &mut Random) -> Vec<u32> {
    let count = random.pick(&SIZES);
    let alike = random.pick(&[0, 1, 511, 512, 1_024, 8 * LENGTHS + 5, u32::MAX]);
    let kind = random.below(3);
    let word = |random: &mut Random, at: usize| match (kind, at % ENTRY) {
        (0, _) => alike,
        (1, _) => random.word(),
        (_, 0) => random.below(514) as u32,
        (_, 1) => random.below(10) as u32 * LENGTHS + random.below(3) as u32,
        (_, 2) => random.below(count.max(1)) as u32 / 4 * 4,
        (..) => random.below(258) as u32,
    };
    (0..count).map(|at| word(random, at)).collect()
}
