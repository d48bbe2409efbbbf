//! Feeds and replies as bytes, and the worked feed of docs/FEED.md, read from that page.

use std::net::{Ipv4Addr, Ipv6Addr};

use toggleash::{
    records, replies, words_for, Family, Prefix, Ran, Record, RecordOf, Refusal, Reply, Stop, Table, TableOf,
};

const PAGE: &str = include_str!("../../../docs/FEED.md");

fn bytes(hex: &str) -> Vec<u8> {
    let digits: String = hex.chars().filter(|digit| !digit.is_whitespace() && *digit != '`').collect();
    (0..digits.len()).step_by(2).map(|at| u8::from_str_radix(&digits[at..at + 2], 16).unwrap()).collect()
}

/// A section of the page, by its title.
fn section(title: &str) -> &'static str {
    PAGE.split(&format!("## {title}\n")).nth(1).unwrap().split("\n## ").next().unwrap()
}

/// A section's rows of record, reply and line.
fn rows(section: &'static str) -> Vec<[&'static str; 3]> {
    let row = |line: &'static str| -> [&str; 3] {
        let fields: Vec<_> = line.trim_matches('|').split('|').map(str::trim).collect();
        fields.try_into().unwrap()
    };
    section.lines().filter(|line| line.starts_with("| `")).map(row).collect()
}

/// The list that a section shows at its end.
fn list(section: &str) -> Vec<u8> {
    let left = section.split("table gives\n").nth(1).unwrap();
    bytes(&left.lines().skip(1).take_while(|line| line.starts_with("    ")).collect::<String>())
}

fn line<A: Family>(record: RecordOf<A>, reply: Reply) -> String {
    let sent = match record {
        RecordOf::Announce { address, length, .. } | RecordOf::AnnounceFor { address, length, .. } => {
            format!("announce {address}/{length}")
        }
        RecordOf::Withdraw { address, length } | RecordOf::WithdrawFor { address, length, .. } => {
            format!("withdraw {address}/{length}")
        }
        RecordOf::Lookup { address } => format!("lookup {address}"),
        RecordOf::End => unreachable!("an end has no reply"),
    };
    match reply {
        Reply::Done { hop, cells } => format!("{sent} via {hop} cells {cells}"),
        Reply::Found { hop, length, block } => format!("{sent} via {hop} length {length} block {block}"),
        Reply::None { block } => format!("{sent} none block {block}"),
        Reply::Refused(refusal) => format!("{sent} refused {}", refusal.number()),
    }
}

/// Runs a section's feed on a cleared table of a family: replies, counts, lines and the list that is left. Gives the feed
/// and the lines.
fn worked<A: Family>(section: &'static str, arrays: usize, accepted: usize, refused: usize) -> (Vec<u8>, Vec<String>) {
    let rows = rows(section);
    let feed: Vec<u8> = rows.iter().flat_map(|row| bytes(row[0])).collect();
    let expected: Vec<u8> = rows.iter().flat_map(|row| bytes(row[1])).collect();
    let (consumed, written) = (feed.len(), expected.len());
    assert!(section.contains(&format!("These are {consumed} feed bytes and {written} reply bytes: stop 0,")));

    let mut table = TableOf::<A, _>::new(vec![0; words_for(arrays).unwrap()]).unwrap();
    let mut reply = [0xEE; 128];
    let ran = table.run(&feed, &mut reply).unwrap();
    assert_eq!(ran, Ran { stop: Stop::End, consumed, written, accepted, refused });
    assert_eq!(reply[..written], expected);
    assert!(reply[written..].iter().all(|&byte| byte == 0xEE));

    let records = RecordOf::<A>::all(&feed);
    let lines: Vec<_> = records.zip(replies(&expected)).map(|(record, reply)| line(record, reply)).collect();
    let shown: Vec<_> = rows.iter().map(|row| row[2].trim_matches('`')).filter(|line| !line.is_empty()).collect();
    assert_eq!(lines, shown);
    let list = list(section);
    assert_eq!(table.write_out(&mut vec![0; list.len()]).unwrap(), list);
    (feed, lines)
}

#[test]
fn the_worked_feed() {
    let (feed, lines) = worked::<Ipv4Addr>(section("A worked feed"), 3, 4, 1);
    assert_eq!(feed, include_bytes!("../../../crates/router/stdin"));
    assert!(include_str!("../../../crates/router/stdout").starts_with(&lines.join("\n")));
}

#[test]
fn the_worked_feed_of_several_sides() {
    worked::<Ipv4Addr>(section("A worked feed of several sides"), 3, 5, 2);
}

#[test]
fn the_worked_feed_of_ipv6() {
    let (feed, lines) = worked::<Ipv6Addr>(section("A worked feed of IPv6"), 17, 7, 2);
    assert_eq!(feed, include_bytes!("../../../crates/router6/stdin"));
    assert!(include_str!("../../../crates/router6/stdout").starts_with(&lines.join("\n")));
}

#[test]
fn every_record_is_read_as_it_was_written() {
    let address = [10, 1, 4, 255].into();
    let all = [
        Record::End,
        Record::Announce { address, length: 255, hop: 0 },
        Record::Announce { address, length: 0, hop: 65_535 },
        Record::Withdraw { address, length: 33 },
        Record::Lookup { address },
        Record::AnnounceFor { address, length: 33, hop: 0, feed: 255, preference: 7 },
        Record::AnnounceFor { address, length: 24, hop: 65_535, feed: 4, preference: 255 },
        Record::WithdrawFor { address, length: 255, feed: 0 },
    ];
    for record in all {
        let bytes: Vec<u8> = record.bytes().chain([9]).collect();
        assert_eq!(record.bytes().len(), bytes.len() - 1);
        assert!(record.bytes().len() <= Record::MOST);
        assert_eq!(Record::decode(&bytes), Ok((record, &[9][..])));
        for cut in 1..bytes.len() - 1 {
            assert_eq!(Record::decode(&bytes[..cut]), Err(Stop::BodyShort), "{record:?}");
        }
    }
    assert_eq!(Record::decode(&[]), Err(Stop::NoByteLeft));
    (6..=255).for_each(|kind| assert_eq!(Record::decode(&[kind; 10]), Err(Stop::UnknownKind)));
}

#[test]
fn every_reply_is_read_as_it_was_written() {
    let all = [
        Reply::Done { hop: 65_535, cells: 256 },
        Reply::Found { hop: 258, length: 31, block: 32 },
        Reply::None { block: 8 },
        Reply::Refused(Refusal::NoRoom),
    ];
    for reply in all {
        let bytes: Vec<u8> = reply.bytes().chain([9]).collect();
        assert_eq!(reply.bytes().len(), bytes.len() - 1);
        assert!(reply.bytes().len() <= Reply::MOST);
        assert_eq!(Reply::decode(&bytes), Some((reply, &[9][..])));
        (0..bytes.len() - 1).for_each(|cut| assert_eq!(Reply::decode(&bytes[..cut]), None, "{reply:?}"));
    }
    assert_eq!((Reply::decode(&[19, 6]), Reply::decode(&[19, 0]), Reply::decode(&[20])), (None, None, None));
}

#[test]
fn records_end_as_a_run_does() {
    let route = Record::announce(Prefix::DEFAULT, 1);
    for (tail, stop) in
        [(&[][..], Stop::NoByteLeft), (&[0, 3], Stop::End), (&[6], Stop::UnknownKind), (&[3, 1], Stop::BodyShort)]
    {
        let feed: Vec<u8> = route.bytes().chain(tail.iter().copied()).collect();
        let mut left = records(&feed);
        assert_eq!(left.stop(), None);
        assert!(left.by_ref().eq([route]));
        assert_eq!((left.stop(), left.next()), (Some(stop), None));
        let mut table = Table::new(vec![0; 6_144]).unwrap();
        assert_eq!(table.run(&feed, &mut [0; 9]).unwrap().stop, stop);
        assert_eq!(Stop::from_number(stop.number().into()), Some(stop));
        assert!(stop.to_string().starts_with(&format!("stopped {}: ", stop.number())));
    }
    assert_eq!(Stop::from_number(5), None);
}
