//! The reading of docs/LAYOUT.md: a table laid out is read again, its walk is the longest match, and each condition of
//! the definition is missed when it alone is broken.

use reference::layout::{check, fill_totals, lay, read, unused, walk, winner, word, Cell, End, Walked};
use reference::{Candidate, CandidateList, Counts, Lookup, Memory, Prefix, Refusal, RouteList};

/// The words of an array, and where in it the cells and the totals begin.
const ARRAY: usize = 3072;
const CELLS: usize = 2048;
const TOTALS: usize = 2304;

fn sample() -> CandidateList {
    let candidates = [
        (0x0000_0000, 0, 1, 0, 65_535),
        (0x0A00_0000, 7, 4, 255, 1),
        // Feed 3 wins, with as low a preference as feed 4.
        (0x0A00_0000, 8, 1, 200, 9),
        (0x0A00_0000, 8, 3, 7, 2),
        (0x0A00_0000, 8, 4, 7, 65_535),
        (0x0A01_0000, 16, 2, 0, 3),
        (0x0A01_0400, 22, 1, 0, 4),
        (0x0A01_0400, 23, 1, 1, 8),
        (0x0A01_0400, 23, 2, 0, 5),
        (0x0A01_0180, 25, 1, 0, 6),
        (0xFFFF_FFFF, 32, 1, 0, 7),
    ];
    let candidate = |(address, length, feed, preference, hop)| Candidate {
        prefix: Prefix { address, length },
        feed,
        preference,
        hop,
    };
    candidates.map(candidate).to_vec().into()
}

/// Its winners: one route for each of eight prefixes.
fn winners() -> RouteList {
    sample().winners().clone()
}

/// The sample in 12 arrays, scattered: 10/8 is 9, 10.1/16 is 5, 10.1.1/24 is 12, and 2, 11, 7 lead to the last address.
fn words() -> Vec<u32> {
    lay(&sample(), 12, &[9, 2, 5, 11, 12, 7])
}

/// The word of a cell without a link.
fn ends(length: u32, hop: u32, block: u32) -> u32 {
    hop << 12 | length << 4 | block
}

/// The word of a cell with a link to an array.
fn leads(length: u32, hop: u32, number: u32) -> u32 {
    (length + 1) << 28 | hop << 12 | (number - 1)
}

#[test]
fn laid_out_is_read_again() {
    let words = words();
    assert_eq!(read(&words), Memory::new(words.len(), Some(sample())));
    assert_eq!(check::<u32>(&words), Ok(Counts { routes: 11, arrays: 7 }));
    let empty = lay(&CandidateList::<u32>::default(), 1, &[]);
    assert_eq!(check::<u32>(&empty), Ok(Counts { routes: 0, arrays: 1 }));
}

#[test]
fn the_walk_is_the_longest_match_and_the_block() {
    let (words, list) = (words(), winners());
    assert_eq!(list.routes().len(), 8);
    let near = |r: &reference::Route| {
        [r.prefix.address.wrapping_sub(1), r.prefix.address, r.prefix.last(), r.prefix.last().wrapping_add(1)]
    };
    for address in list.routes().iter().flat_map(near) {
        let Lookup { route, block } = Memory::new(words.len(), Some(sample())).lookup(address).unwrap();
        let found = route.map(|route| (route.hop, route.prefix.length));
        assert_eq!(walk(&words, address), Ok(Walked { found, block }), "{address:08x}");
    }
}

#[test]
fn the_words_of_cells() {
    let words = words();
    let on_the_way_to_12 = [(1, 10, leads(8, 2, 9)), (9, 1, leads(8, 3, 5)), (5, 1, leads(0, 0, 12))];
    // The default route covers cells with length 0. Beside 10 stands 11, the other half of the /7; 0 leaves 10 after 4 bits.
    let in_the_root = [(1, 0, ends(0, 65_535, 5)), (1, 11, ends(7, 1, 8)), (1, 255, leads(0, 65_535, 2))];
    let below = [(5, 4, ends(7, 5, 7)), (5, 6, ends(6, 4, 7)), (12, 0, ends(0, 0, 1)), (12, 255, ends(1, 6, 1))];
    for (a, i, word) in [&on_the_way_to_12[..], &in_the_root, &below].concat() {
        assert_eq!(words[ARRAY * a + CELLS + i], word, "cell {i} of array {a}");
    }
}

#[test]
fn each_single_word_with_a_use_matters() {
    let mut words = words();
    let seen: Memory = read(&words);
    for at in 0..words.len() {
        let unused = matches!(at % ARRAY, 1..=3 | TOTALS | 2816..);
        let used = at < ARRAY || !unused;
        // In a cell these are bits of its block or link, of its hop, and of its length or whether it has a link; in a slot
        // of the hop, the preference, and above it. In a total one bit is as good as another. A word without a use is read no
        // other way whatever its bits.
        let bits = match at % ARRAY {
            _ if !used => &[31][..],
            2305.. if at >= ARRAY => &[0],
            _ => &[0, 12, 16, 28],
        };
        for &bit in bits {
            words[at] ^= 1 << bit;
            assert_eq!(read(&words) != seen, used, "bit {bit} of word {at}");
            words[at] ^= 1 << bit;
        }
    }
}

#[test]
fn sizes() {
    for count in [0, 1, 1024, 2048, 3072, 6143, 6145, 7168, 4_195_328, 12_585_983, 12_585_985, 12_589_056] {
        let words = vec![0; count];
        assert_eq!(check::<u32>(&words), Err(Refusal::WordCount), "{count}");
        assert_eq!(walk(&words, 0_u32), Err(Refusal::WordCount), "{count}");
    }
    for count in [6_144, 9_216, 12_288, 12_585_984] {
        assert_eq!(check::<u32>(&vec![0; count]), Err(Refusal::NotATable), "{count}");
    }
}

/// Sets words and tells whether a table is left, once all totals follow, level by level.
fn after(changes: &[(usize, u32)]) -> bool {
    let mut words = words();
    for &(at, value) in changes {
        words[at] = value;
    }
    for _ in 0..4 {
        (1..=12).for_each(|a| fill_totals(&mut words, a));
    }
    check::<u32>(&words).is_ok()
}

#[test]
fn an_array_must_hold_something() {
    // Array 12 holds the /25 alone; with its slot and bests gone it is empty but still hangs.
    let mut changes = vec![(12 * ARRAY + 4 * 3, 0)];
    changes.extend((0..256).map(|i| (12 * ARRAY + CELLS + i, 0)));
    assert!(!after(&changes));
    // Taken off its parent as well, it is free and the table is right again: the /22 and the /23 inside it are left there.
    changes.extend([(12 * ARRAY, 0), (0, 6), (2, 2)]);
    changes.extend((0..4).map(|i| (5 * ARRAY + CELLS + i, ends(0, 0, 6))));
    assert!(after(&changes));
}

#[test]
fn a_level_below_the_last() {
    // Array 10 below cell 200 of array 12, with a slot and its best: all in order but the level.
    let hangs = [
        (12 * ARRAY + CELLS + 200, leads(1, 6, 10)),
        (10 * ARRAY, 12 * 8192 + 200 * 32 + 5),
        (10 * ARRAY + 4 * 256, 1),
        (10 * ARRAY + CELLS, ends(8, 1, 8)),
        (0, 8),
        (2, 4),
    ];
    // Cells leave cell 200 after so many bits, or 0 after as many.
    let leaves = |from: u32, i: u32| (from ^ i).leading_zeros() - 23;
    let above = (128..256).filter(|&i| i != 200).map(|i| (12 * ARRAY + CELLS + i as usize, ends(1, 6, leaves(200, i))));
    let inside = (1..256).map(|i| (10 * ARRAY + CELLS + i as usize, ends(0, 0, leaves(0, i))));
    assert!(!after(&hangs.into_iter().chain(above).chain(inside).collect::<Vec<_>>()));
}

#[test]
fn slot_one_is_the_roots() {
    // Below the root the route of length 0 in the array would be the best of all cells but that of the /16.
    let (words, cells) = (words(), 9 * ARRAY + CELLS);
    let bests = (0..256).filter(|&i| i != 1).map(|i| (cells + i, words[cells + i] | 8 << 12));
    let bests: Vec<(usize, u32)> = bests.collect();
    for feed in 0..4 {
        assert!(!after(&[&bests[..], &[(9 * ARRAY + 4 + feed, 8)]].concat()), "{feed}");
    }
    // In the root a loser may join the default route.
    assert!(after(&[(ARRAY + 4 + 3, word(9, 1))]));
}

/// The four words of the slot of 255.255.255.255/32, and its cell.
fn last_slot(words: [u32; 4], cell: u32) -> bool {
    let slot = (0..).zip(words).map(|(feed, word)| (7 * ARRAY + 4 * 511 + feed, word));
    after(&slot.chain([(7 * ARRAY + CELLS + 255, cell)]).collect::<Vec<_>>())
}

#[test]
fn hops_and_preferences_in_their_range() {
    let best = |hop| ends(8, hop, 8);
    assert!(last_slot([word(0, 65_535), 0, 0, 0], best(65_535)));
    assert!(last_slot([word(255, 65_535), 0, 0, 0], best(65_535)));
    assert!(last_slot([0, 0, 0, word(255, 1)], best(1)));
    // A preference without a hop, one over its range, and both: whatever the cell says.
    for odd in [1 << 16, 255 << 16, 256 << 16, 256 << 16 | 7, u32::MAX] {
        assert!(!last_slot([odd, 0, 0, 0], best(odd % 65_536)), "{odd:08x}");
        assert!(!last_slot([word(0, 7), 0, 0, odd], best(7)), "{odd:08x}");
    }
}

#[test]
fn the_best_is_the_winners() {
    let (a, b, c) = (word(9, 1), word(5, 2), word(5, 3));
    for (slot, hop) in [([a, b, c, 0], 2), ([a, c, 0, b], 3), ([a, 0, 0, 0], 1), ([0, 0, b, a], 2), ([c, a, b, a], 3)] {
        assert_eq!(winner(&slot), Some(hop));
        for told in 0..4 {
            assert_eq!(last_slot(slot, ends(8, told, 8)), told == hop, "{told} for {slot:?}");
        }
    }
    assert_eq!(winner(&[0; 4]), None);
}

/// Words without a use hold anything, in a free array too.
#[test]
fn words_without_a_use() {
    assert!(unused().eq((1..4).chain([TOTALS]).chain(2816..ARRAY)));
    let mut words = words();
    let seen: Memory = read(&words);
    (1..=12).flat_map(|a| unused().map(move |at| a * ARRAY + at)).for_each(|at| words[at] = u32::MAX);
    assert_eq!(read(&words), seen);
}

#[test]
fn two_arrays_that_hang_on_each_other() {
    let leaves = |i: u32| ends(0, 0, i.leading_zeros() - 23);
    let cells = |a: usize| (1..256).map(move |i| (a * ARRAY + CELLS + i as usize, leaves(i)));
    let ring = [
        (3 * ARRAY, 4 * 8192 + 2),
        (3 * ARRAY + CELLS, leads(0, 0, 4)),
        (4 * ARRAY, 3 * 8192 + 3),
        (4 * ARRAY + CELLS, leads(0, 0, 3)),
        (0, 9),
        (1, 5),
    ];
    assert!(!after(&ring.into_iter().chain(cells(3)).chain(cells(4)).collect::<Vec<_>>()));
}

#[test]
fn every_word_is_a_cell_of_its_own() {
    let words = (0..1 << 20).map(|n: u32| n.wrapping_mul(4_097).rotate_left(n % 32));
    for word in words.chain([0, u32::MAX, 1 << 28, (1 << 28) - 1]) {
        assert_eq!(Cell::of(word).word(), word, "{word:08x}");
    }
    assert_eq!(Cell::of(0), Cell { hop: 0, length: 0, end: End::Block(0) });
    assert_eq!(Cell::of(1 << 28), Cell { hop: 0, length: 0, end: End::Link(1) });
}

/// The walk to an address with one cell changed, by its array and number: hop, length and block.
fn walk_with(a: usize, i: usize, word: u32, address: u32) -> Result<Walked, Refusal> {
    let mut words = words();
    words[ARRAY * a + CELLS + i] = word;
    walk(&words, address)
}

fn walked(hop: u32, length: u32, block: u32) -> Result<Walked, Refusal> {
    Ok(Walked { found: Some((hop, length)), block })
}

const REFUSED: Result<Walked, Refusal> = Err(Refusal::NotATable);

/// A cell on each level: its array and number, the address that leads to it, and what is found before.
const PLACES: [(usize, usize, u32, Option<(u32, u32)>); 4] = [
    (1, 10, 0x0A00_0000, None),
    (9, 9, 0x0A09_0000, Some((2, 8))),
    (5, 9, 0x0A01_0900, Some((3, 16))),
    (12, 9, 0x0A01_0109, Some((3, 16))),
];

#[test]
fn the_walk_of_any_length_and_block() {
    for (level, &(a, i, address, before)) in PLACES.iter().enumerate() {
        let above = 8 * level as u32;
        for (length, block) in [(0, 0), (0, 8), (8, 0), (8, 8), (3, 5)] {
            assert_eq!(walk_with(a, i, ends(length, 7, block), address), walked(7, above + length, above + block));
            // Without a hop there is no best, whatever its length: the walk keeps what it found before.
            let none = Ok(Walked { found: before, block: above + block });
            assert_eq!(walk_with(a, i, ends(length, 0, block), address), none);
        }
        for (length, block) in [(9, 0), (15, 8), (255, 0), (0, 9), (8, 9), (0, 15), (255, 15)] {
            for hop in [0, 1, 65_535] {
                assert_eq!(walk_with(a, i, ends(length, hop, block), address), REFUSED, "{length} {block} {hop}");
            }
        }
        // Beside a link a length may be over 8 as well.
        for length in 9..=14 {
            assert_eq!(walk_with(a, i, leads(length, 1, 3), address), REFUSED, "{length}");
        }
    }
}

#[test]
fn the_walk_of_any_link() {
    for &(a, i, address, before) in &PLACES {
        for number in [13, 14, 4096] {
            assert_eq!(walk_with(a, i, leads(8, 2, number), address), REFUSED, "{number}");
            // That cell is not on every way.
            assert_eq!(walk_with(a, i, leads(8, 2, number), 0x0B00_0000), walked(1, 7, 8), "{number}");
        }
        // Array 3 is free: its words are 0, so all of it is one block. No link leads on from the last level.
        let free = walk_with(a, i, leads(0, 0, 3), address);
        let level = PLACES.iter().position(|place| place.0 == a).unwrap() as u32;
        match level {
            3 => assert_eq!(free, REFUSED),
            _ => assert_eq!(free, Ok(Walked { found: before, block: 8 * level + 8 })),
        }
    }
    // A link to the root, whose cells are then met again, and rings of links, which run out of levels.
    assert_eq!(walk_with(9, 10, leads(0, 0, 1), 0x0A0A_0B00), walked(1, 23, 24));
    assert_eq!(walk_with(1, 10, leads(0, 0, 1), 0x0A0A_0A0A), REFUSED);
    assert_eq!(walk_with(9, 10, leads(0, 0, 9), 0x0A0A_0A0A), REFUSED);
    assert_eq!(walk_with(9, 10, leads(0, 0, 9), 0x0A0A_0A0B), walked(2, 8, 29));
}
