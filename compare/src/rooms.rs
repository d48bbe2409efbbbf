//! Tables of every size filled, freed and churned by feeds and by direct updates; after each burst the words, the
//! check, lookups and the written list are compared.

use reference::feed::Record;
use reference::memory::ARRAY_WORDS;
use reference::{Candidate, CandidateList, Prefix};

use crate::family::Family;
use crate::feeds::{Mood, Source, Terrain};
use crate::guard::Side;
use crate::insides;
use crate::lists::{filling, scattered};
use crate::pair::{Pair, Same};
use crate::random::Random;
use crate::tally::Counts;

/// Words that the check may read over and over for one round trip; beyond that it would take too long.
const ROUND_TRIP_WORDS: usize = 120_000_000;

/// A room of so many arrays and about so many records.
pub fn room<A: Family>(random: &mut Random, arrays: usize, records: u64, tally: &mut Counts) -> Same {
    let terrain = Terrain::<A>::new(random, arrays);
    let mut pair = start(random, &terrain, arrays)?;
    let end = tally.records + tally.updates + records;
    while tally.records + tally.updates < end {
        let known = match random.chance(75) {
            true => run_feed(random, &terrain, &mut pair, tally)?,
            false => update_directly(random, &terrain, &mut pair, tally)?,
        };
        after_burst(random, &terrain, &pair, &known, tally)?;
    }
    round_trip(&pair)
}

/// A cleared table, from words of any content, or one that is nearly full already.
fn start<A: Family>(random: &mut Random, terrain: &Terrain<A>, arrays: usize) -> Result<Pair<A>, String> {
    if arrays > 100 || random.chance(20) {
        let need = arrays - random.below(arrays.min(3));
        let list = filling(random, terrain, need);
        return Ok(Pair::seen(&scattered(random, &list, arrays), Side::Back));
    }
    let litter = random.word();
    let mut pair = Pair::seen(&vec![litter; ARRAY_WORDS * (arrays + 1)], Side::Back);
    pair.clear()?;
    Ok(pair)
}

fn held<A: Family>(pair: &Pair<A>) -> CandidateList<A> {
    pair.memory.list().expect("a room's words stay a table").clone()
}

fn run_feed<A: Family>(
    random: &mut Random,
    terrain: &Terrain<A>,
    pair: &mut Pair<A>,
    tally: &mut Counts,
) -> Result<Vec<Prefix<A>>, String> {
    let mood = Mood::any(random);
    let count = if pair.words.len() > 1_500_000 { random.within(1..=12) } else { random.within(0..=60) };
    let side = random.pick(&[Side::Front, Side::Back]);
    let starved = random.chance(12).then(|| random.below(5 * count + 10));
    let mut source = Source::new(random, terrain, &held(pair));
    let feed = source.feed(mood, count);
    let known = source.known();
    tally.records += pair.run(&feed, starved.unwrap_or(5 * feed.len()), side)?;
    tally.feeds += 1;
    Ok(known)
}

fn update_directly<A: Family>(
    random: &mut Random,
    terrain: &Terrain<A>,
    pair: &mut Pair<A>,
    tally: &mut Counts,
) -> Result<Vec<Prefix<A>>, String> {
    let mood = Mood::any(random);
    let count = if pair.words.len() > 1_500_000 { random.within(1..=4) } else { random.within(1..=30) };
    let wide = random.pick(&[256, 65_536, 1 << 31]);
    let mut source = Source::new(random, terrain, &held(pair));
    let records: Vec<Record<A>> = (0..count).map(|_| source.record(mood)).collect();
    let known = source.known();
    for record in records {
        tally.updates += 1;
        // No feed can send these numbers; a caller can.
        let wider = |number: u32| if random.chance(1) { number + wide } else { number };
        update(pair, record, wider)?;
    }
    pair.stands()?;
    Ok(known)
}

/// Makes one record's call directly, its length, hop and feed perhaps widened.
pub fn update<A: Family>(pair: &mut Pair<A>, record: Record<A>, mut wider: impl FnMut(u32) -> u32) -> Same {
    match record {
        Record::Announce { address, length, hop, feed, preference } => {
            let prefix = Prefix { address, length: wider(length) };
            pair.announce(Candidate { prefix, feed: wider(feed), preference, hop: wider(hop) })
        }
        Record::Withdraw { address, length, feed } => {
            pair.withdraw(Prefix { address, length: wider(length) }, wider(feed))
        }
        Record::Lookup { address } => pair.lookup(&[address]),
        Record::End => Ok(()),
    }
}

fn after_burst<A: Family>(
    random: &mut Random,
    terrain: &Terrain<A>,
    pair: &Pair<A>,
    known: &[Prefix<A>],
    tally: &mut Counts,
) -> Same {
    pair.check()?;
    let mut addresses: Vec<A> = (0..12).map(|_| A::any(random)).collect();
    addresses.extend((0..12).map(|_| terrain.address(random)));
    let list = held(pair);
    for _ in 0..12 {
        addresses.extend(neighbours(random.pick(known)));
        if !list.candidates().is_empty() {
            addresses.extend(neighbours(random.pick(list.candidates()).prefix));
        }
    }
    pair.lookup(&addresses)?;
    tally.lookups += addresses.len() as u64;
    let mut prefixes: Vec<Prefix<A>> = addresses.iter().map(|&address| insides::holding(random, address)).collect();
    for _ in 0..12 {
        let prefix = random.pick(known);
        prefixes.extend(insides::around(random, prefix));
        if !list.candidates().is_empty() {
            let prefix = random.pick(list.candidates()).prefix;
            prefixes.extend(insides::around(random, prefix));
        }
    }
    pair.within(&prefixes)?;
    tally.withins += prefixes.len() as u64;
    tally.tables += 1;
    let full = list.encoded_size();
    let (more, fewer) = (full + random.below(40), random.below(full));
    let room = random.pick(&[full, full, full - 1, more, fewer]);
    pair.write_out(room, random.pick(&[Side::Front, Side::Back]))
}

/// The first and last address inside and those beside.
pub fn neighbours<A: Family>(prefix: Prefix<A>) -> [A; 4] {
    let (first, last) = (prefix.address, prefix.last());
    // After the last of all addresses comes the first. The one before another is not that which comes after what is not it.
    let after = |address: A| address.next().unwrap_or_default();
    [!after(!first), first, last, after(last)]
}

/// The written list, run into a cleared table of the same room, gives the list again.
fn round_trip<A: Family>(pair: &Pair<A>) -> Same {
    let list = held(pair);
    let count = list.candidates().len();
    if count * pair.words.len() > ROUND_TRIP_WORDS {
        return Ok(());
    }
    pair.write_out(list.encoded_size(), Side::Back)?;
    let mut copy = Pair::<A>::seen(&pair.words, Side::Back);
    copy.clear()?;
    copy.run(&list.encoding(), 5 * count, Side::Back)?;
    match held(&copy) == list {
        true => Ok(()),
        false => Err("the written list gives another list".into()),
    }
}
