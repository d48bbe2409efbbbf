//! Tables, copies and prefixes as values.

use std::net::Ipv4Addr;

use toggleash::{
    copy, replies, words_for, Candidate, Counts, ListCopy, Lookup, Match, Prefix, PrefixError, Record, Refusal, Reply,
    Table, Update,
};

fn prefix(text: &str) -> Prefix {
    text.parse().unwrap()
}

#[test]
fn prefixes_in_text() {
    for text in ["0.0.0.0/0", "128.0.0.0/1", "10.1.4.0/22", "255.255.255.255/32"] {
        assert_eq!(prefix(text).to_string(), text);
    }
    let no_form = [
        "",
        "/",
        "10.0.0.0",
        "10.0.0.0/",
        "10.0/8",
        "10.0.0.0/+8",
        "10.0.0.0/08",
        "10.0.0.0/8 ",
        "010.0.0.0/8",
        "10.0.0.0/8/8",
    ];
    for text in no_form {
        assert_eq!(text.parse::<Prefix>(), Err(PrefixError::Form), "{text}");
    }
    for text in ["0.0.0.0/33", "0.0.0.1/256", "0.0.0.0/99999999999999999999"] {
        assert_eq!(text.parse::<Prefix>(), Err(PrefixError::Refused(Refusal::LengthOver32)), "{text}");
    }
    for text in ["0.0.0.1/0", "10.0.0.1/31", "10.1.4.0/21"] {
        assert_eq!(text.parse::<Prefix>(), Err(PrefixError::Refused(Refusal::StrayBit)), "{text}");
    }
}

#[test]
fn what_a_prefix_matches() {
    let (first, last) = (Ipv4Addr::new(10, 1, 4, 0), Ipv4Addr::new(10, 1, 7, 255));
    assert!(prefix("10.1.4.0/22").matches(first) && prefix("10.1.4.0/22").matches(last));
    assert!(!prefix("10.1.4.0/22").matches(Ipv4Addr::new(10, 1, 8, 0)));
    assert!(Prefix::DEFAULT.matches(Ipv4Addr::BROADCAST));
    assert!(prefix("255.255.255.255/32").matches(Ipv4Addr::BROADCAST));
    let mut order = [prefix("10.1.4.0/23"), prefix("11.0.0.0/8"), prefix("10.1.4.0/22"), Prefix::DEFAULT];
    order.sort();
    assert_eq!(order.map(|prefix| prefix.to_string()), ["0.0.0.0/0", "10.1.4.0/22", "10.1.4.0/23", "11.0.0.0/8"]);
}

#[test]
fn tables_own_or_borrow_their_words() {
    let mut words = [0; 6_144];
    let mut table = Table::new(&mut words[..]).unwrap();
    table.announce(Prefix::DEFAULT, Candidate::via(7)).unwrap();
    assert_eq!(table.announce(Prefix::DEFAULT, Candidate::via(0)), Err(Refusal::HopOutOfRange));
    assert_eq!(table.announce(prefix("10.0.0.0/9"), Candidate::via(1)), Err(Refusal::NoRoom));
    assert_eq!(table.withdraw(prefix("10.0.0.0/8"), 1), Err(Refusal::NotHeld));
    assert_eq!(table.write_out(&mut [0; 10]), Err(Refusal::BufferShort));

    let reader = Table::from_words(&words[..]).unwrap();
    let found = Some(Match { hop: 7, length: 0 });
    assert_eq!(reader.lookup(Ipv4Addr::BROADCAST), Ok(Lookup { found, block: 0 }));
    assert_eq!(reader.check().unwrap().routes, 1);
    let mut owner = Table::from_words(words.to_vec()).unwrap();
    assert_eq!(owner.withdraw(Prefix::DEFAULT, 1).unwrap().hop, 7);
    assert_eq!(reader.words(), words);
    assert_ne!(owner.into_words(), words);
    assert_eq!(format!("{reader:?}"), "Table of 6144 words");

    assert_eq!(Table::new(vec![0; 6_143]).unwrap_err(), Refusal::WordCount);
    assert_eq!(Table::from_words(vec![7; 6_144]).unwrap_err(), Refusal::NotATable);
}

#[test]
fn copies_of_a_list() {
    let mut table = Table::new(vec![0; words_for(7).unwrap()]).unwrap();
    for (text, hop) in [("0.0.0.0/0", 9), ("10.0.0.0/8", 1), ("10.1.4.0/22", 2)] {
        table.announce(prefix(text), Candidate::via(hop)).unwrap();
    }
    // A loser, which the list has and the copy has not.
    table.announce(prefix("10.0.0.0/8"), Candidate { hop: 3, feed: 2, preference: 1 }).unwrap();
    let mut buffer = [0; toggleash::written_bytes(4)];
    let list = table.write_out(&mut buffer).unwrap();
    let need = copy::need(list).unwrap();
    let card = ListCopy::build(list, vec![0; need]).unwrap();
    for address in [[10, 1, 5, 9], [10, 1, 8, 0], [11, 0, 0, 1]] {
        assert_eq!(card.lookup(address.into()), table.lookup(address.into()).map(|answer| answer.found));
    }
    let sent = ListCopy::from_words(card.words());
    assert_eq!(sent.lookup([10, 1, 5, 9].into()), Ok(Some(Match { hop: 2, length: 22 })));
    assert_eq!(ListCopy::build(list, vec![0; need - 1]).unwrap_err(), Refusal::BufferShort);
    assert_eq!(ListCopy::build(&list[..10], vec![0; need]).unwrap_err(), Refusal::NotATable);
    assert_eq!(ListCopy::from_words([0; 3]).lookup([1; 4].into()), Err(Refusal::NotATable));
}

/// The lowest preference wins, then the lowest feed; cells are told where the winning hop changes.
#[test]
fn candidates_of_a_prefix() {
    let mut table = Table::new(vec![0; words_for(3).unwrap()]).unwrap();
    let net = prefix("10.1.4.0/22");
    let update = |hop, cells| Ok(Update { hop, cells });
    let winner = |table: &Table<Vec<u32>>| table.lookup([10, 1, 5, 9].into()).unwrap().found.map(|found| found.hop);
    for (candidate, cells, wins) in [
        (Candidate { hop: 5, feed: 4, preference: 10 }, 4, 5),
        (Candidate { hop: 6, feed: 1, preference: 255 }, 0, 5),
        (Candidate { hop: 7, feed: 2, preference: 10 }, 4, 7),
        (Candidate { hop: 8, feed: 3, preference: 10 }, 0, 7),
        (Candidate { hop: 7, feed: 1, preference: 0 }, 0, 7),
        (Candidate { hop: 7, feed: 2, preference: 11 }, 0, 7),
    ] {
        assert_eq!(table.announce(net, candidate), update(candidate.hop, cells), "{candidate:?}");
        assert_eq!(winner(&table), Some(wins), "{candidate:?}");
    }
    assert_eq!(table.check(), Ok(Counts { routes: 4, arrays: 3 }));
    // There is room for a prefix that has a candidate, and for no other array.
    assert_eq!(table.announce(prefix("11.0.0.0/9"), Candidate::via(1)), Err(Refusal::NoRoom));
    for (feed, hop, cells, wins) in [(1, 7, 4, Some(8)), (4, 5, 0, Some(8)), (3, 8, 4, Some(7)), (2, 7, 4, None)] {
        assert_eq!(table.withdraw(net, feed), update(hop, cells), "{feed}");
        assert_eq!(winner(&table), wins, "{feed}");
    }
    assert_eq!(table.check(), Ok(Counts { routes: 0, arrays: 1 }));
}

/// What README says of 1,919 routes anywhere, and of 3,839 that are no longer than 24 bits.
#[test]
fn what_fits() {
    let mut words = vec![0; words_for(4_096).unwrap()];
    for (routes, tail, length, arrays) in [(1_919_u16, [1, 1], 32, 4_095), (3_839, [0, 0], 24, 4_096)] {
        let mut table = Table::new(&mut words[..]).unwrap();
        let record = |i: u16| {
            let [high, low] = i.to_be_bytes();
            Record::Announce { address: [low, high, tail[0], tail[1]].into(), length, hop: 1 }
        };
        let feed: Vec<u8> = (0..=routes).flat_map(|i| record(i).bytes()).collect();
        let mut reply = vec![0; feed.len()];
        let ran = table.run(&feed, &mut reply).unwrap();
        assert_eq!((ran.accepted, ran.refused), (routes.into(), 1));
        let last = replies(&reply[..ran.written]).last();
        assert_eq!(last, Some(Reply::Refused(Refusal::NoRoom)));
        assert_eq!(table.check(), Ok(Counts { routes: routes.into(), arrays }));
    }
}
