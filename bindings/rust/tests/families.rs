//! IPv6 beside IPv4: the worked cases of IPv6, and what is the same for both families, through their trait.

use std::net::{Ipv4Addr, Ipv6Addr};

use toggleash::{replies, words_for, Candidate, Counts, Family, Lookup, Match, Ran, Refusal, Reply, Stop, Update};
use toggleash::{Prefix6, PrefixError, PrefixOf, Record, Record6, RecordOf, Table, Table6, TableOf};

fn bytes(hex: &str) -> Vec<u8> {
    let digits: String = hex.chars().filter(|digit| !digit.is_whitespace()).collect();
    (0..digits.len()).step_by(2).map(|at| u8::from_str_radix(&digits[at..at + 2], 16).unwrap()).collect()
}

fn table<A: Family>(arrays: usize) -> TableOf<A, Vec<u32>> {
    TableOf::new(vec![0; words_for(arrays).unwrap()]).unwrap()
}

/// Runs a feed of records and an end on a cleared table: the replies, then what it holds, and that its list fills another.
fn worked(arrays: usize, feed: &str, replied: &[Reply], counts: Counts, list: &str) {
    let (feed, list) = (bytes(feed), bytes(list));
    let mut six = table::<Ipv6Addr>(arrays);
    let mut reply = [0xEE; 64];
    let ran = six.run(&feed, &mut reply).unwrap();
    let accepted = replied.iter().filter(|reply| matches!(reply, Reply::Done { .. })).count();
    let refused = replied.iter().filter(|reply| matches!(reply, Reply::Refused(_))).count();
    assert!(replies(&reply[..ran.written]).eq(replied.iter().copied()));
    assert_eq!(ran, Ran { stop: Stop::End, consumed: feed.len(), written: ran.written, accepted, refused });
    assert!(reply[ran.written..].iter().all(|&byte| byte == 0xEE));
    assert_eq!(six.check(), Ok(counts));

    assert_eq!(list.len(), Record6::written_bytes(counts.routes as usize));
    assert_eq!(six.write_out(&mut vec![0; list.len() - 1]), Err(Refusal::BufferShort));
    let mut buffer = [0xEE; 128];
    assert_eq!(six.write_out(&mut buffer).unwrap(), list);
    assert_eq!(buffer[list.len()], 0xEE);
    let mut other = table::<Ipv6Addr>(arrays);
    other.run(&list, &mut reply).unwrap();
    assert_eq!(other.write_out(&mut [0; 128]).unwrap(), list);
}

fn done(hop: u16, cells: u16) -> Reply {
    Reply::Done { hop, cells }
}

fn found(hop: u16, length: u8, block: u8) -> Reply {
    Reply::Found { hop, length, block }
}

#[test]
fn default_route_and_none() {
    let feed = "08 00000000000000000000000000000001
        06 00000000000000000000000000000000 00 0001 01 00
        08 FFFFFFFFFFFFFFFFFFFFFFFFFFFFFFFF
        06 80000000000000000000000000000000 01 0002 01 00
        08 80000000000000000000000000000000
        07 00000000000000000000000000000000 00 01
        00";
    let replied = [Reply::None { block: 0 }, done(1, 256), found(1, 0, 0), done(2, 128), found(2, 1, 1), done(1, 128)];
    let list = "06 80000000000000000000000000000000 01 0002 01 00 00";
    worked(1, feed, &replied, Counts { routes: 1, arrays: 1 }, list);
}

#[test]
fn length_128_needs_sixteen_arrays() {
    let first = "06 FF000000000000000000000000000001 80 0007 04 09";
    let feed = "08 FF000000000000000000000000000001
        08 FF000000000000000000000000000000
        08 FF000000000000000000000000000002
        06 FF000000000000000000000000000000 78 0008 01 00
        06 FF000000000000000000000000000000 79 0009 01 00
        06 FE000000000000000000000000000000 09 0009 01 00
        00";
    let none = |block| Reply::None { block };
    let no_room = Reply::Refused(Refusal::NoRoom);
    let replied = [done(7, 1), found(7, 128, 128), none(128), none(127), done(8, 1), done(9, 127), no_room];
    let list = "06 FF000000000000000000000000000000 78 0008 01 00
        06 FF000000000000000000000000000000 79 0009 01 00
        06 FF000000000000000000000000000001 80 0007 04 09
        00";
    worked(16, &[first, feed].concat(), &replied, Counts { routes: 3, arrays: 16 }, list);
    worked(15, &[first, "00"].concat(), &[no_room], Counts { routes: 0, arrays: 1 }, "00");
}

#[test]
fn candidates_and_writing_out() {
    let feed = "06 20010000000000000000000000000000 10 0005 02 01
        06 20010000000000000000000000000000 10 0006 01 01
        06 20000000000000000000000000000000 03 0007 03 00
        07 20010000000000000000000000000000 10 01
        00";
    let list = "06 20000000000000000000000000000000 03 0007 03 00
        06 20010000000000000000000000000000 10 0005 02 01
        00";
    worked(3, feed, &[done(5, 1), done(6, 1), done(7, 32), done(6, 1)], Counts { routes: 2, arrays: 2 }, list);
}

/// Where a run on a table of a family stops, and where reading its records does.
fn stops<A: Family>(feed: &[u8]) -> Stop {
    let ran = table::<A>(1).run(feed, &mut [0; 64]).unwrap();
    assert_eq!(ran.consumed, usize::from(ran.stop == Stop::End), "{feed:?}");
    let mut records = RecordOf::<A>::all(feed);
    assert_eq!((records.next(), records.stop()), (None, Some(ran.stop)), "{feed:?}");
    ran.stop
}

#[test]
fn feeds_of_both_families() {
    assert_eq!((stops::<Ipv4Addr>(&[]), stops::<Ipv6Addr>(&[])), (Stop::NoByteLeft, Stop::NoByteLeft));
    for kind in 0..=255 {
        let (four, six) = match kind {
            0 => (Stop::End, Stop::End),
            1..=5 => (Stop::BodyShort, Stop::UnknownKind),
            6..=8 => (Stop::UnknownKind, Stop::BodyShort),
            _ => (Stop::UnknownKind, Stop::UnknownKind),
        };
        assert_eq!((stops::<Ipv4Addr>(&[kind]), stops::<Ipv6Addr>(&[kind])), (four, six), "{kind}");
    }
}

/// Every refusal of a call on words, in its order; `one` is the address of which the last bit alone is set.
fn refused_in_order<A: Family>(one: A) {
    let most = u32::from(A::MOST_LENGTH);
    let mut foreign = vec![u32::MAX; words_for(1).unwrap()];
    let none = Candidate { hop: 0, feed: 0, preference: 255 };
    let mut each = |length, candidate: Candidate, refusal| {
        assert_eq!(A::announce(&mut foreign, one, length, candidate), Err(refusal), "{length} {candidate:?}");
        if candidate.hop == 1 {
            assert_eq!(A::withdraw(&mut foreign, one, length, candidate.feed), Err(refusal), "{length}");
        }
        if candidate.feed == 1 {
            assert_eq!(A::within(&foreign, one, length), Err(refusal), "{length}");
        }
    };
    for length in [most + 1, 2 * most, 256, 256 + most, 1 << 16, u32::MAX] {
        each(length, none, Refusal::LengthOver);
        each(length, Candidate::via(1), Refusal::LengthOver);
    }
    (0..most).for_each(|length| each(length, none, Refusal::StrayBit));
    (0..most).for_each(|length| each(length, Candidate::via(1), Refusal::StrayBit));
    each(most, none, Refusal::HopOutOfRange);
    each(most, Candidate { hop: 65_536, ..none }, Refusal::HopOutOfRange);
    each(most, Candidate { hop: 1, ..none }, Refusal::FeedOutOfRange);
    each(most, Candidate { hop: 1, feed: 5, preference: 0 }, Refusal::FeedOutOfRange);
    each(most, Candidate::via(1), Refusal::NotATable);

    assert_eq!((A::clear(&mut []), A::check(&[])), (Err(Refusal::WordCount), Err(Refusal::WordCount)));
    assert_eq!(A::lookup(&[], one), Err(Refusal::WordCount));
    assert_eq!(A::within(&foreign[1..], one, u32::MAX), Err(Refusal::WordCount));
    assert_eq!(A::announce(&mut [], one, u32::MAX, none), Err(Refusal::WordCount));
    assert_eq!(A::withdraw(&mut [], one, u32::MAX, 0), Err(Refusal::WordCount));
    assert_eq!(A::write_out(&[], &mut []), Err(Refusal::WordCount));
    assert_eq!(A::run(&mut [], &[], &mut []), Err(Refusal::WordCount));
    assert_eq!((A::check(&foreign), A::lookup(&foreign, one)), (Err(Refusal::NotATable), Err(Refusal::NotATable)));
    let mut buffer = [0xEE; 64];
    assert_eq!(A::write_out(&foreign, &mut buffer), Err(Refusal::NotATable));
    assert_eq!(A::run(&mut foreign, &[0], &mut buffer), Err(Refusal::NotATable));
    assert_eq!(buffer, [0xEE; 64]);
    assert!(foreign.iter().all(|&word| word == u32::MAX));
    assert_eq!(A::clear(&mut foreign), Ok(()));
    assert_eq!(A::withdraw(&mut foreign, one, most, 1), Err(Refusal::NotHeld));
    assert_eq!(A::announce(&mut foreign, one, most, Candidate::via(1)), Err(Refusal::NoRoom));
}

#[test]
fn refusals_in_their_order() {
    refused_in_order(Ipv4Addr::new(0, 0, 0, 1));
    refused_in_order(Ipv6Addr::LOCALHOST);
    // What 3 was called while there was IPv4 alone, as a pattern too.
    assert!(matches!(Refusal::from_number(3), Some(Refusal::LengthOver32)));
}

/// A prefix of each length of one path, and what lies beside it. `path` gives the address of the first so many bits.
fn along<A: Family>(path: impl Fn(u8, bool) -> A) {
    let most = A::MOST_LENGTH;
    let mut table = table::<A>(usize::from(most) / 8);
    let prefix = |length| PrefixOf::new(path(length, false), length.into()).unwrap();
    for length in 0..=most {
        let cells = if length == 0 { 256 } else { 1 << ((most - length) % 8) };
        let hop = u32::from(length) + 1;
        assert_eq!(table.announce(prefix(length), Candidate::via(hop)), Ok(Update { hop, cells }), "{length}");
    }
    let count = u32::from(most) + 1;
    assert_eq!(table.check(), Ok(Counts { routes: count, arrays: u32::from(most) / 8 }));
    for length in 0..=most {
        let hop = u32::from(length) + 1;
        assert_eq!(table.within(prefix(length)), Ok(count - u32::from(length)), "{length}");
        // The address that leaves the path after so many bits.
        let off = path(length, true);
        let found = Some(Match { hop, length: length.into() });
        let block = u32::from(most.min(length + 1));
        assert_eq!(table.lookup(off), Ok(Lookup { found, block }), "{off}");
        assert!(prefix(length).matches(off) && (length == most || !prefix(length + 1).matches(off)), "{off}");
        assert_eq!(prefix(length).to_string().parse(), Ok(prefix(length)));
    }
    assert_eq!(PrefixOf::<A>::DEFAULT, prefix(0));
    for length in 0..=most {
        assert_eq!(table.withdraw(prefix(length), 1).unwrap().hop, u32::from(length) + 1);
    }
    assert_eq!(table.check(), Ok(Counts { routes: 0, arrays: 1 }));
}

/// The first bits of a path of 128, and where asked for the other bit after them.
fn bits(path: u128, length: u8, off: bool) -> u128 {
    let after = u128::MAX.checked_shr(length.into()).unwrap_or(0);
    let next = (1_u128 << 127).checked_shr(length.into()).unwrap_or(0);
    (path & !after) | if off { !path & next } else { 0 }
}

#[test]
fn every_length() {
    let path = 0x2001_0db8_85a3_8d3f_7fe1_5a2e_0370_7345_u128;
    along(|length, off| Ipv6Addr::from(bits(path, length, off)));
    along(|length, off| Ipv4Addr::from((bits(path, length, off) >> 96) as u32));
}

/// An IPv4 table is an IPv6 table too; an IPv6 table is none of IPv4 while a prefix in it is over 32 bits long.
#[test]
fn words_that_are_a_table_of_both_families() {
    let mut four = Table::new(vec![0; words_for(4).unwrap()]).unwrap();
    four.announce("32.1.13.184/32".parse().unwrap(), Candidate::via(7)).unwrap();
    let as_six = Table6::from_words(four.words()).unwrap();
    assert_eq!(as_six.within("2001:db8::/32".parse().unwrap()), Ok(1));
    let mut six = Table6::new(vec![0; words_for(5).unwrap()]).unwrap();
    six.announce("2001:db8:8000::/33".parse().unwrap(), Candidate::via(1)).unwrap();
    assert_eq!(Table::from_words(six.words()).unwrap_err(), Refusal::NotATable);
    assert_eq!(Table6::from_words(six.words()).unwrap().check(), Ok(Counts { routes: 1, arrays: 5 }));
    assert_eq!(format!("{six:?}"), "Table6 of 18432 words");
    six.withdraw("2001:db8:8000::/33".parse().unwrap(), 1).unwrap();
    six.announce("2001:db8::/32".parse().unwrap(), Candidate::via(1)).unwrap();
    assert_eq!(Table::from_words(six.words()).unwrap().within("32.1.13.184/32".parse().unwrap()), Ok(1));
}

#[test]
fn prefixes_in_text() {
    for (text, printed) in [
        ("::/0", "::/0"),
        ("2001:db8::/32", "2001:db8::/32"),
        ("2001:0DB8:0:0:1:0:0:0/80", "2001:db8:0:0:1::/80"),
        ("2001:db8:0:1:1:1:1:1/128", "2001:db8:0:1:1:1:1:1/128"),
        ("::ffff:10.0.0.0/104", "::ffff:10.0.0.0/104"),
    ] {
        assert_eq!(text.parse::<Prefix6>().unwrap().to_string(), printed);
    }
    for text in ["", "/", "::", "::/", "::/08", "::/+8", "10.0.0.0/8", ":::/8", "1::2::3/8", "12345::/16", "::/8/8"] {
        assert_eq!(text.parse::<Prefix6>(), Err(PrefixError::Form), "{text}");
    }
    for text in ["::/129", "::1/256", "::/99999999999999999999"] {
        assert_eq!(text.parse::<Prefix6>(), Err(PrefixError::Refused(Refusal::LengthOver)), "{text}");
    }
    for text in ["::1/0", "::1/127", "2001:db8::/28"] {
        assert_eq!(text.parse::<Prefix6>(), Err(PrefixError::Refused(Refusal::StrayBit)), "{text}");
    }
    assert!("2001:db8::/32".parse::<Prefix6>().unwrap() < "2001:db8::/33".parse().unwrap());
}

#[test]
fn every_record_is_read_as_it_was_written() {
    let address = "2001:db8::8:800:200c:417a".parse().unwrap();
    let all = [
        (Record6::End, 1),
        (Record6::Lookup { address }, 17),
        (Record6::AnnounceFor { address, length: 129, hop: 0, feed: 255, preference: 7 }, 22),
        (Record6::AnnounceFor { address, length: 64, hop: 65_535, feed: 4, preference: 255 }, 22),
        (Record6::WithdrawFor { address, length: 255, feed: 0 }, 19),
    ];
    for (record, size) in all {
        let bytes: Vec<u8> = record.bytes().chain([9]).collect();
        assert_eq!((record.bytes().len(), bytes.len()), (size, size + 1));
        assert_eq!(Record6::decode(&bytes), Ok((record, &[9][..])));
        (1..size).for_each(|cut| assert_eq!(Record6::decode(&bytes[..cut]), Err(Stop::BodyShort), "{record:?}"));
    }
    assert_eq!((Record::MOST, Record6::MOST), (10, 22));
}

/// IPv6 has no kinds for feed 1 alone: such records are written and read as those that name it.
#[test]
fn records_of_feed_1() {
    let prefix: Prefix6 = "2001:db8::/32".parse().unwrap();
    let pairs = [
        (Record6::announce(prefix, 258), Record6::announce_for(prefix, 258, 1, 0)),
        (Record6::withdraw(prefix), Record6::withdraw_for(prefix, 1)),
    ];
    for (short, long) in pairs {
        assert!(short.bytes().eq(long.bytes()));
        assert_eq!(Record6::decode(&short.bytes().collect::<Vec<_>>()), Ok((long, &[][..])));
    }
    let feed: Vec<u8> = pairs.iter().flat_map(|pair| pair.0.bytes()).chain(Record6::End.bytes()).collect();
    let mut reply = [0; 2 * Reply::MOST];
    let ran = table::<Ipv6Addr>(4).run(&feed, &mut reply).unwrap();
    assert!(replies(&reply[..ran.written]).eq([done(258, 1), done(258, 1)]));
}
