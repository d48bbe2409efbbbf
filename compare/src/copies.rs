//! Copies for the line card: built from the written-out list of a table and looked up beside the table, or from a list that no
//! table has room for. The calls are made on bytes and words of any kind, by the reference's reading of docs/COPY.md.

use std::net::Ipv4Addr;

use reference::copy::{self, Built};
use reference::memory::MOST_ARRAYS;
use reference::{Memory, Prefix, Refusal, RouteList};

use crate::guard::{begin_call, Lent, Side};
use crate::lists::{any_encoding, any_list, scattered, wide};
use crate::pair::{left, library, same, Pair, Same};
use crate::random::Random;
use crate::rooms::neighbours;
use crate::tally::Tally;

/// Boxes whose ends are looked up in one copy, and random addresses beside them; and in one of a long list.
pub const BOXES: usize = 60;
const MANY_BOXES: usize = 5_000;

/// A table of about so many prefixes, its list, as it is written out or as plain routes, and the copy of that.
pub fn list(random: &mut Random, prefixes: usize, tally: &mut Tally) -> Same {
    let list = any_list(random, prefixes);
    let side = random.pick(&[Side::Front, Side::Back]);
    let arrays = (list.winners().need() + random.below(3)).min(MOST_ARRAYS);
    let words = Lent::copy_of(&scattered(random, &list, arrays), side);
    let memory = Memory::new(words.len(), Some(list.clone()));
    let table = Pair::new(words, memory);
    table.write_out(list.encoded_size(), side)?;
    let bytes = Lent::copy_of(&any_encoding(random, &list), side);
    let addresses = addresses(random, list.winners(), BOXES);
    table.lookup(&addresses)?;
    tally.four.lookups += addresses.len() as u64;
    copied(random, &bytes, list.winners(), &addresses, tally)
}

/// A list that needs so many arrays, of any number, in records of both kinds.
pub fn of_any_room(random: &mut Random, arrays: usize, tally: &mut Tally) -> Same {
    let list = wide(random, arrays);
    let addresses = addresses(random, list.winners(), MANY_BOXES);
    for bytes in [list.encoding(), list.winners().encoding()] {
        let bytes = Lent::copy_of(&bytes, random.pick(&[Side::Front, Side::Back]));
        copied(random, &bytes, list.winners(), &addresses, tally)?;
    }
    Ok(())
}

/// The copy of a list, built from its bytes into words enough, after one word too few, and looked up.
fn copied(random: &mut Random, bytes: &Lent<u8>, list: &RouteList, addresses: &[u32], tally: &mut Tally) -> Same {
    let Some(need) = need(bytes, tally)? else { return Err("a written-out list is refused".into()) };
    let side = random.pick(&[Side::Front, Side::Back]);
    let litter: Vec<u32> = (0..need + random.below(30)).map(|_| random.word()).collect();
    build(bytes, &mut Lent::copy_of(&litter[..need - 1], side), tally)?;
    let mut words = Lent::copy_of(&litter, side);
    build(bytes, &mut words, tally)?;
    look_up(&words, addresses, Some(list), tally)
}

/// The first and last address inside so many boxes, routes' and markers', those beside, the last of all, whose key is that
/// of a free place, and random ones.
pub fn addresses(random: &mut Random, list: &RouteList, count: usize) -> Vec<u32> {
    let mut boxes: Vec<Prefix> = copy::markers(list).into_iter().collect();
    boxes.extend(list.routes().iter().map(|route| route.prefix));
    random.shuffle(&mut boxes);
    boxes.truncate(count);
    let ends = boxes.into_iter().flat_map(neighbours);
    ends.chain([u32::MAX]).chain((0..count).map(|_| random.word())).collect()
}

/// The words needed, unless the bytes are refused.
pub fn need(bytes: &Lent<u8>, tally: &mut Tally) -> Result<Option<usize>, String> {
    begin_call("copy::need");
    let told = library(bytes.sealed(toggleash::copy::need));
    same(|| format!("copy::need of {} bytes", bytes.len()), told, copy::need(bytes).map_err(Refusal::number))?;
    tally.copies.bytes_refused += u64::from(told.is_err());
    Ok(told.ok())
}

/// Builds into the words, and sees that they are a copy then, with the header's numbers, and with the words kept that a
/// build leaves; or that all are kept if it is refused.
pub fn build(bytes: &Lent<u8>, words: &mut Lent<u32>, tally: &mut Tally) -> Same {
    let (before, from, into) = (words.to_vec(), bytes.len(), words.len());
    let what = || format!("copy::build from {from} bytes into {into} words");
    begin_call("copy::build");
    let told = library(bytes.sealed(|bytes| toggleash::copy::build(bytes, words)));
    let told = told.map(|built| Built { routes: built.routes, markers: built.markers });
    same(what, told, copy::build(bytes, into).map_err(Refusal::number))?;
    let Ok(list) = copy::listed(bytes) else { return left(what, &before, words) };
    if told.is_err() {
        tally.copies.words_refused += 1;
        return left(what, &before, words);
    }
    tally.copies.built += 1;
    let mut expected = words.to_vec();
    copy::kept(&list, into).into_iter().for_each(|at| expected[at] = before[at]);
    copy::header(&list).into_iter().for_each(|(at, number)| expected[at] = number);
    left(what, &expected, words)?;
    match copy::stands(&list, words) {
        true => Ok(()),
        false => Err(format!("{}: the words are not a copy of the list", what())),
    }
}

/// Lookups by the walk on any words, and by longest match where they are a copy of a list.
pub fn look_up(words: &Lent<u32>, addresses: &[u32], list: Option<&RouteList>, tally: &mut Tally) -> Same {
    begin_call("copy::lookup");
    tally.copies.lookups += addresses.len() as u64;
    words.sealed(|words| {
        addresses.iter().try_for_each(|&address| {
            let what = || format!("copy::lookup {}", Ipv4Addr::from(address));
            let told = library(toggleash::copy::lookup(words, address.into()));
            let told = told.map(|found| found.map(|found| (found.hop, found.length)));
            same(what, told, copy::walk(words, address).map_err(Refusal::number))?;
            tally.copies.lookups_refused += u64::from(told.is_err());
            let Some(list) = list else { return Ok(()) };
            same(what, told, Ok(list.longest_match(address).map(|route| (route.hop, route.prefix.length))))
        })
    })
}
