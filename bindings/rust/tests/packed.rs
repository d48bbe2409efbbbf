//! Compressed tables as values.

use std::net::Ipv4Addr;

use toggleash::packed::{self, Built, LEAST_WORDS};
use toggleash::{words_for, Candidate, Match, Packed, Prefix, Refusal, Table};

fn table(routes: &[(&str, u32)]) -> Table<Vec<u32>> {
    let mut table = Table::new(vec![0; words_for(7).unwrap()]).unwrap();
    for (prefix, hop) in routes {
        table.announce(prefix.parse().unwrap(), Candidate::via(*hop)).unwrap();
    }
    table
}

/// Worked lists: no later array, nested prefixes, and masks of two bits.
#[test]
fn needs() {
    for (routes, words) in [
        (&[][..], LEAST_WORDS),
        (&[("10.0.0.0/8", 1), ("0.0.0.0/0", 2)], LEAST_WORDS),
        (&[("10.0.0.0/9", 1), ("10.0.0.0/16", 2)], 2_560),
        (&[("10.0.0.0/8", 1), ("10.1.4.0/22", 2), ("10.1.0.0/20", 3)], 2_068),
        (&[("10.96.0.0/12", 1), ("10.120.0.0/16", 2), ("10.205.0.0/16", 3)], 2_064),
    ] {
        let table = table(routes);
        assert_eq!(table.packed_need(), Ok(words), "{routes:?}");
        let card = Packed::build(&table, vec![0; words]).unwrap();
        assert_eq!(Packed::build(&table, vec![0; words - 1]).unwrap_err(), Refusal::BufferShort);
        assert_eq!(format!("{card:?}"), format!("Packed of {words} words"));
    }
}

/// It answers as the table did when it was made, from any words, owned or borrowed, and more of them than are needed.
#[test]
fn carried_and_looked_up() {
    let mut table = table(&[("0.0.0.0/0", 9), ("10.1.224.0/20", 4), ("10.1.239.128/25", 5), ("10.1.239.129/32", 6)]);
    // A candidate that waits has no part in it.
    table.announce(Prefix::DEFAULT, Candidate { hop: 1, feed: 2, preference: 1 }).unwrap();
    let mut words = vec![7; table.packed_need().unwrap() + 5];
    let counted = packed::build(table.words(), &mut words);
    assert_eq!(counted, Ok(Built { arrays: table.check().unwrap().arrays, words: words.len() - 5 }));
    assert_eq!((&words[..1_024], &words[words.len() - 5..]), (&[7; 1_024][..], &[7; 5][..]));
    let card = Packed::from_words(&words[..]);
    let asked: [[u8; 4]; 6] =
        [[10, 1, 239, 5], [10, 1, 239, 128], [10, 1, 239, 129], [10, 1, 224, 0], [10, 1, 240, 0], [255; 4]];
    for address in asked.map(Ipv4Addr::from) {
        assert_eq!(card.lookup(address), table.lookup(address).map(|answer| answer.found), "{address}");
    }
    table.announce("10.1.239.5/32".parse().unwrap(), Candidate::via(7)).unwrap();
    assert_eq!(card.lookup([10, 1, 239, 5].into()), Ok(Some(Match { hop: 4, length: 20 })));
    words.resize(table.packed_need().unwrap(), 0);
    let again = Packed::build(&table, &mut words[..]).unwrap();
    assert_eq!(again.lookup([10, 1, 239, 5].into()), Ok(Some(Match { hop: 7, length: 32 })));
}

#[test]
fn words_that_are_none() {
    let refused = Err(Refusal::NotATable);
    assert_eq!(Packed::from_words([0; 0]).lookup([1; 4].into()), refused);
    assert_eq!(Packed::from_words([0; 1_027]).lookup([0; 4].into()), refused);
    assert_eq!(Packed::from_words([0; 1_028]).lookup([0; 4].into()), Ok(None));
    assert_eq!(Packed::from_words(vec![u32::MAX; 3_000]).lookup([1; 4].into()), refused);
    let mut words = vec![0; 6_144];
    assert_eq!(packed::need(&words), Err(Refusal::NotATable));
    assert_eq!(packed::build(&words, &mut []), Err(Refusal::NotATable));
    assert_eq!(packed::build(&words[..6_143], &mut []), Err(Refusal::WordCount));
    toggleash::clear(&mut words).unwrap();
    assert_eq!(packed::build(&words, &mut []), Err(Refusal::BufferShort));
}
