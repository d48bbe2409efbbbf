//! The shortest list from tables as values: document 02's worked cases of item 12.

use toggleash::shortest::{written_bytes, MOST_HOP};
use toggleash::{words_for, Candidate, Counts, Prefix, Record, Refusal, Table};

type Routes = [(&'static str, u32)];

fn table(routes: &Routes) -> Table<Vec<u32>> {
    let mut table = Table::new(vec![0; words_for(3).unwrap()]).unwrap();
    for (prefix, hop) in routes {
        table.announce(prefix.parse().unwrap(), Candidate::via(*hop)).unwrap();
    }
    table
}

fn bytes(routes: &Routes) -> Vec<u8> {
    let records = routes.iter().map(|(prefix, hop)| Record::announce(prefix.parse().unwrap(), *hop as u16));
    records.chain([Record::End]).flat_map(|record| record.bytes()).collect()
}

/// As many bytes as these are written, and one fewer are refused; a cleared table of as many arrays takes them.
fn writes(held: &Routes, short: &Routes) {
    let table = table(held);
    let (mut scratch, mut buffer) = (vec![7; table.words().len() + 1], [7; 100]);
    let size = written_bytes(short.len());
    let before = table.words().to_vec();
    assert_eq!(table.shortest(&mut scratch, &mut buffer[..size - 1]), Err(Refusal::BufferShort));
    assert_eq!(buffer, [7; 100]);
    let list = table.shortest(&mut scratch, &mut buffer).unwrap();
    assert_eq!(list, bytes(short));
    let mut other = Table::new(vec![0; table.words().len()]).unwrap();
    assert_eq!(other.run(list, &mut [0; 100]).unwrap().accepted, short.len());
    assert!(other.check().unwrap().arrays <= table.check().unwrap().arrays);
    assert!(buffer[size..].iter().all(|&byte| byte == 7));
    assert_eq!((table.words(), scratch[scratch.len() - 1]), (&before[..], 7));
}

#[test]
fn worked_cases() {
    writes(&[("0.0.0.0/0", 7)], &[("0.0.0.0/0", 7)]);
    writes(&[("0.0.0.0/0", 1), ("0.0.0.0/1", 2), ("128.0.0.0/1", 2)], &[("0.0.0.0/0", 2)]);
    writes(
        &[("0.0.0.0/0", 1), ("0.0.0.0/2", 2), ("64.0.0.0/2", 3), ("128.0.0.0/2", 2), ("192.0.0.0/2", 3)],
        &[("0.0.0.0/0", 2), ("64.0.0.0/2", 3), ("192.0.0.0/2", 3)],
    );
    writes(
        &[("0.0.0.0/0", 9), ("10.0.0.0/10", 1), ("10.64.0.0/10", 2), ("10.128.0.0/10", 2), ("10.192.0.0/10", 2)],
        &[("0.0.0.0/0", 9), ("10.0.0.0/8", 2), ("10.0.0.0/10", 1)],
    );
}

#[test]
fn refusals_leave_what_is_lent() {
    let high = MOST_HOP + 1;
    let hidden = [("0.0.0.0/0", 1), ("10.0.0.0/8", high), ("10.0.0.0/9", 1), ("10.128.0.0/9", 1)];
    for (held, fewer, refusal) in [
        (&[("10.0.0.0/8", high)][..], 1, Refusal::WordCount),
        (&[("10.0.0.0/8", high)], 0, Refusal::NoDefault),
        (&[("0.0.0.0/0", high)], 0, Refusal::HighHop),
        (&hidden, 0, Refusal::HighHop),
    ] {
        let table = table(held);
        let (mut scratch, mut buffer) = (vec![7; table.words().len() - fewer], [7; 100]);
        assert_eq!(table.shortest(&mut scratch, &mut buffer), Err(refusal));
        assert!(scratch.iter().all(|&word| word == 7) && buffer == [7; 100]);
    }
}

/// A losing candidate's hop does not matter.
#[test]
fn of_winners() {
    let mut table = table(&[("0.0.0.0/0", 32)]);
    table.announce(Prefix::DEFAULT, Candidate { hop: 33, feed: 2, preference: 1 }).unwrap();
    assert_eq!(table.check(), Ok(Counts { routes: 2, arrays: 1 }));
    let mut scratch = vec![0; table.words().len()];
    assert_eq!(table.shortest(&mut scratch, &mut [0; 9]).unwrap(), bytes(&[("0.0.0.0/0", 32)]));
}

#[test]
fn refusals_speak() {
    for number in [23, 24] {
        let refusal = Refusal::from_number(number).unwrap();
        assert_eq!(u32::from(refusal.number()), number);
        assert!(refusal.to_string().starts_with(&format!("refused {number}: ")));
    }
    assert_eq!(Refusal::from_number(25), None);
}
