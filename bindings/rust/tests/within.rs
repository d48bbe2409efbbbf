//! How many prefixes lie inside one: worked cases, what updates do to them, and words that are no table.

use toggleash::{within, words_for, Candidate, Prefix, Record, Refusal, Table};

const HELD: [&str; 8] = [
    "0.0.0.0/0",
    "10.0.0.0/8",
    "10.0.0.0/9",
    "10.1.0.0/16",
    "10.1.4.0/22",
    "10.1.4.0/24",
    "10.1.4.128/25",
    "11.0.0.0/8",
];

fn prefix(text: &str) -> Prefix {
    text.parse().unwrap()
}

fn table() -> Table<Vec<u32>> {
    let mut table = Table::new(vec![0; words_for(7).unwrap()]).unwrap();
    for text in HELD {
        table.announce(prefix(text), Candidate::via(1)).unwrap();
    }
    table
}

fn counted(table: &Table<Vec<u32>>, expected: &[(&str, u32)]) {
    for &(text, count) in expected {
        assert_eq!(table.within(prefix(text)), Ok(count), "{text}");
    }
}

#[test]
fn on_every_level() {
    let table = table();
    let level_0 = [("0.0.0.0/0", 8), ("10.0.0.0/7", 7), ("10.0.0.0/8", 6), ("0.0.0.0/1", 7), ("128.0.0.0/1", 0)];
    let level_1 = [("10.0.0.0/9", 5), ("10.128.0.0/9", 0), ("10.0.0.0/15", 4), ("10.1.0.0/16", 4), ("11.0.0.0/9", 0)];
    let level_2 = [("10.1.0.0/17", 3), ("10.1.4.0/22", 3), ("10.1.4.0/23", 2), ("10.1.4.0/24", 2), ("12.1.1.0/24", 0)];
    let level_3 = [("10.1.4.0/25", 0), ("10.1.4.128/25", 1), ("10.1.4.128/26", 0), ("10.1.4.128/32", 0)];
    let none = [("12.0.0.0/8", 0), ("10.2.0.0/32", 0)];
    for expected in [&level_0[..], &level_1, &level_2, &level_3, &none] {
        counted(&table, expected);
    }
}

#[test]
fn prefixes_and_not_candidates() {
    let mut table = Table::new(vec![0; words_for(2).unwrap()]).unwrap();
    for (text, feed) in [("10.0.0.0/8", 1), ("10.0.0.0/8", 2), ("10.0.0.0/9", 4)] {
        table.announce(prefix(text), Candidate { hop: 1, feed, preference: 0 }).unwrap();
    }
    assert_eq!((table.within(Prefix::DEFAULT), table.check().unwrap().routes), (Ok(2), 3));
    table.withdraw(prefix("10.0.0.0/8"), 1).unwrap();
    assert_eq!(table.within(Prefix::DEFAULT), Ok(2));
    table.withdraw(prefix("10.0.0.0/8"), 2).unwrap();
    counted(&table, &[("0.0.0.0/0", 1), ("10.0.0.0/8", 1), ("10.0.0.0/9", 1)]);
}

/// A run that withdraws all but one, and frees the arrays in between.
#[test]
fn after_a_run() {
    let mut table = table();
    let feed: Vec<u8> = HELD[1..].iter().flat_map(|text| Record::withdraw(prefix(text)).bytes()).collect();
    table.run(&feed, &mut [0; 64]).unwrap();
    counted(&table, &[("0.0.0.0/0", 1), ("10.0.0.0/8", 0), ("10.1.4.0/24", 0), ("10.1.4.128/25", 0)]);
}

#[test]
fn refusals_in_their_order() {
    let foreign = vec![u32::MAX; words_for(1).unwrap()];
    let one = [0, 0, 0, 1].into();
    assert_eq!(within(&[], one, 33), Err(Refusal::WordCount));
    assert_eq!(within(&foreign[1..], one, 33), Err(Refusal::WordCount));
    for length in [33, 64, 256, u32::MAX] {
        assert_eq!(within(&foreign, one, length), Err(Refusal::LengthOver32), "{length}");
    }
    (0..32).for_each(|length| assert_eq!(within(&foreign, one, length), Err(Refusal::StrayBit), "{length}"));
    assert_eq!(within(&foreign, one, 32), Err(Refusal::NotATable));
    assert_eq!(within(&foreign, [0; 4].into(), 0), Err(Refusal::NotATable));
}

/// The words of one array, and where in it the cells and the totals begin.
const ARRAY: usize = 3_072;
const CELLS: usize = 2_048;
const TOTALS: usize = 2_304;

/// Words of three arrays that are 0 but for one cell and some totals.
#[test]
fn totals_that_no_table_has() {
    let zero = [0; 4].into();
    let mut words = vec![0; words_for(3).unwrap()];
    for (total, told) in [(1_533, Ok(1_533)), (1_534, Err(Refusal::NotATable)), (u32::MAX, Err(Refusal::NotATable))] {
        words[ARRAY + TOTALS + 1] = total;
        assert_eq!(within(&words, zero, 0), told, "{total}");
        assert_eq!(within(&words, zero, 1), Ok(0), "{total}");
    }
    words[3 * ARRAY + TOTALS + 2] = 5;
    // A link, by its bits alone; the length beside it is none that a table has.
    for (cell, told) in
        [(0, Ok(0)), (1 << 28 | 2, Ok(5)), (15 << 28 | 2, Ok(5)), (1 << 28 | 3, Err(Refusal::NotATable))]
    {
        words[ARRAY + CELLS] = cell;
        assert_eq!(within(&words, zero, 9), told, "{cell:08x}");
        assert_eq!(within(&words, zero, 8), Ok(0), "{cell:08x}");
    }
}

#[test]
fn a_table_has_right_totals() {
    let words = table().into_words();
    for (array, slot) in [(1, 1), (1, 511), (2, 2), (7, 1), (7, 300)] {
        let mut wrong = words.clone();
        wrong[ARRAY * array + TOTALS + slot] += 1;
        assert_eq!(Table::from_words(wrong).unwrap_err(), Refusal::NotATable, "slot {slot} of array {array}");
    }
    let mut littered = words.clone();
    for at in [TOTALS, TOTALS + 512, ARRAY - 1] {
        littered[ARRAY + at] = u32::MAX;
    }
    assert!(Table::from_words(littered).is_ok());
}
