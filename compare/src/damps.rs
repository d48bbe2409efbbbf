//! Fronts before tables: direct calls, runs with ticks, the check and clearing, by the library and by the reference, under guard.
//! Both memories are compared after each call, word for word the front's, by what they stand for the table's. Each call is made on a
//! copy of both too, by the one that tests only what it touches.

use reference::feed::{Answer, Record};
use reference::front::{self, held, lay, Damped, Held, Place, Places, Told, FRONT_WORDS, MOST_PLACES, RELEASE_BELOW};
use reference::{layout, CandidateList, Refusal};
use toggleash::damp;
use toggleash::ffi::{self, Front, Ran, Update};

use crate::damage::{damage, SIZES};
use crate::feeds::Terrain;
use crate::flapping::{self, hardly, Flock};
use crate::guard::{begin_call, Lent, Side};
use crate::lists::{filling, scattered};
use crate::pair::{left, library, same, unused_left, Same};
use crate::random::Random;
use crate::tally::Tally;

/// Fronts that a plain run has before tables, and of which one memory or both are damaged.
const FRONTS: u64 = 900;
const DAMAGED: u64 = 2_500;
/// What reply bytes hold before a run.
pub const UNTOUCHED: u8 = 0xA5;

/// What can happen to a candidate, each of which must be met.
#[derive(Clone, Copy)]
enum Event {
    Kept,
    Replaced,
    KeptWithdrawn,
    NothingKept,
    FirstCharge,
    HeldBack,
    AtMost,
    Undamped,
    Installed,
    NoRoom,
    LetGo,
    Freed,
}

const EVENTS: &str =
    "kept, replaced, kept withdrawn, nothing kept, first charge, held back, at 12,000, undamped, installed, \
     no room at a tick, let go, freed";

/// What was compared, and how often each answer was the right one.
#[derive(Default)]
pub struct Damps {
    fronts: u64,
    damaged: u64,
    updates: u64,
    feeds: u64,
    records: u64,
    ticks: u64,
    events: [u64; 12],
    /// Refusals by their numbers of direct calls and of records; 2 of a call for the table and for the front alone.
    refusals: [u64; 11],
    foreign: [u64; 2],
    stops: [u64; 5],
    /// Local updates on words that are no table: answered by the front alone, done by the table, refused by it.
    others: [u64; 3],
}

impl Damps {
    /// Prints what was met. An answer that never was the right one has shown nothing: gives how many differences that makes.
    fn told(&self) -> u64 {
        let Damps { fronts, damaged, updates, feeds, records, ticks, events, refusals, foreign, stops, others } = self;
        println!("{fronts} fronts and {damaged} damaged ones or tables, {updates} direct updates and ticks, {records} records and");
        println!("{ticks} ticks in {feeds} feeds; {EVENTS} {events:?} times;");
        let refusals = [1, 2, 3, 4, 5, 7, 8, 10].map(|number| refusals[number]);
        println!("refusals 1, 2, 3, 4, 5, 7, 8, 10 {refusals:?} times, 2 for the table and for the front {foreign:?}, stops {stops:?}");
        println!("local updates on words that are no table by the front alone, done and refused by the table {others:?} times");
        let missing = [&events[..], &refusals, foreign, stops, others].concat().contains(&0);
        if missing {
            println!("difference: one of them was never met");
        }
        u64::from(missing)
    }

    fn event(&mut self, event: Event, met: bool) {
        self.events[event as usize] += u64::from(met);
    }

    /// What an update did, by what the front knew of its candidate before and after.
    fn update(&mut self, record: Record<u32>, (before, full): (Option<Place>, bool), after: Option<Place>, done: bool) {
        let (was, is) = (before.unwrap_or_default(), after.unwrap_or_default());
        let announces = matches!(record, Record::Announce { .. });
        self.event(Event::Kept, announces && was.kept.is_none() && is.kept.is_some());
        self.event(Event::Replaced, announces && was.kept.is_some() && was.kept != is.kept);
        self.event(Event::KeptWithdrawn, !announces && was.kept.is_some() && is.kept.is_none());
        self.event(Event::NothingKept, !announces && was.held_back && was.kept.is_none() && !done);
        self.event(Event::FirstCharge, before.is_none() && after.is_some());
        self.event(Event::HeldBack, !was.held_back && is.held_back);
        self.event(Event::AtMost, was.penalty == 12_000 && !announces && done);
        self.event(Event::Undamped, !announces && done && full && after.is_none());
    }

    /// What a tick did.
    fn tick(&mut self, before: &Places, after: &Places) {
        for (name, was) in before {
            let is = after.get(name).copied();
            let due = was.kept.is_some() && was.penalty / 2 < RELEASE_BELOW;
            self.event(Event::Installed, due && is.is_none_or(|is| is.kept.is_none()));
            self.event(Event::NoRoom, due && is.is_some_and(|is| is.kept.is_some()));
            self.event(Event::LetGo, was.held_back && is.is_none_or(|is| !is.held_back));
            self.event(Event::Freed, is.is_none());
        }
    }

    /// A local update on words that are no table, by whether it was passed on to them, and done.
    pub fn other(&mut self, passed: bool, done: bool) {
        self.others[usize::from(passed) + usize::from(passed && !done)] += 1;
    }

    fn refused(&mut self, both: &Damped, number: u8) {
        self.refusals[usize::from(number)] += 1;
        if number == 2 {
            self.foreign[usize::from(both.memory.list().is_ok())] += 1;
        }
    }
}

/// All of it, so many times.
pub fn compare(random: impl Fn(&'static str, u64) -> Random, times: u64, tally: &mut Tally) {
    let mut seen = Damps::default();
    tally.case("fronts", 0, far());
    for case in 0..FRONTS * times {
        if !tally.enough() {
            tally.case("fronts", case, whole(&mut random("fronts", case), &mut seen));
        }
    }
    for case in 0..DAMAGED * times {
        if !tally.enough() {
            tally.case("damaged fronts", case, damaged(&mut random("damaged fronts", case), &mut seen));
        }
    }
    tally.differences += if tally.enough() { 0 } else { seen.told() };
}

/// The lent words of a front and of a table, and what they must stand for.
pub struct Both {
    pub front: Lent<u32>,
    pub words: Lent<u32>,
    pub is: Damped,
}

impl Both {
    fn seen(front: &[u32], words: &[u32], side: Side) -> Both {
        let is = Damped { places: front::read(front), memory: layout::read(words) };
        Both { front: Lent::copy_of(front, side), words: Lent::copy_of(words, side), is }
    }

    /// Both memories after a call: as they were where it was refused, else as the reference has them.
    fn after(&self, what: impl Fn() -> String, (front, words): (&[u32], &[u32]), refused: bool) -> Same {
        let Some(places) = self.is.places.as_ref().filter(|_| !refused) else {
            left(|| format!("front after {}", what()), front, &self.front)?;
            return left(|| format!("words after {}", what()), words, &self.words);
        };
        left(|| format!("front after {}", what()), &lay(places), &self.front)?;
        same(|| format!("list after {}", what()), layout::read(&self.words) == self.is.memory, true)?;
        unused_left(what, words, &self.words)
    }

    pub fn before(&self) -> (Vec<u32>, Vec<u32>) {
        (self.front.to_vec(), self.words.to_vec())
    }

    fn check(&self) -> Same {
        begin_call("check of a front");
        let told = library(self.front.sealed(damp::check)).map(|held| (held.places, held.held_back));
        let expected = self.is.places.as_ref().map(held).ok_or(Refusal::NotATable);
        same(|| "check of a front".into(), told, plain(expected))
    }

    fn update(&mut self, record: Record<u32>, side: Side, seen: &mut Damps) -> Same {
        let ((front, words), twin) = (self.before(), self.twin(side));
        let what = || format!("{record:?} through a front");
        let known = self.known(record);
        begin_call("an update through a front");
        let (told, expected) = match record {
            Record::Announce { address, length, hop, feed, preference } => {
                let candidate = toggleash::Candidate { hop, feed, preference };
                let told = damp::announce(&mut self.front, &mut self.words, address.into(), length, candidate);
                (told, self.is.announce(address, length, hop, feed, preference))
            }
            Record::Withdraw { address, length, feed } => {
                let told = damp::withdraw(&mut self.front, &mut self.words, address.into(), length, feed);
                (told, self.is.withdraw(address, length, feed))
            }
            Record::Lookup { .. } | Record::End => return Ok(()),
        };
        seen.updates += 1;
        seen.update(record, known, self.known(record).0, expected.is_ok());
        let told = library(told).map(|update| (update.hop, update.cells));
        let expected = expected.map(|update| (update.hop, update.cells)).map_err(Refusal::number);
        let _ = expected.inspect_err(|&number| seen.refused(&self.is, number));
        same(what, told, expected)?;
        self.after(what, (&front, &words), told.is_err())?;
        twin.update_local(record, (told, self), seen)
    }

    /// What the front knows of a record's candidate, and whether all places are taken.
    fn known(&self, record: Record<u32>) -> (Option<Place>, bool) {
        let Some(places) = &self.is.places else { return (None, false) };
        let (Record::Announce { address, length, feed, .. } | Record::Withdraw { address, length, feed }) = record
        else {
            return (None, false);
        };
        let prefix = reference::memory::well_formed(address, length);
        let place = prefix.ok().and_then(|prefix| places.get(&(prefix, feed)).copied());
        (place, places.len() == MOST_PLACES)
    }

    fn tick(&mut self, side: Side, seen: &mut Damps) -> Same {
        let ((front, words), twin, places) = (self.before(), self.twin(side), self.is.places.clone());
        begin_call("a tick");
        let told = library(damp::tick(&mut self.front, &mut self.words)).map(|held| (held.places, held.held_back));
        let expected = plain(self.is.tick());
        seen.updates += 1;
        match (expected, places, &self.is.places) {
            (Ok(_), Some(before), Some(after)) => seen.tick(&before, after),
            (Err(number), ..) => seen.refused(&self.is, number),
            _ => (),
        }
        same(|| "a tick".into(), told, expected)?;
        self.after(|| "a tick".into(), (&front, &words), told.is_err())?;
        twin.tick_local(told, self)
    }

    fn run(&mut self, feed: &[u8], room: usize, side: Side, seen: &mut Damps) -> Same {
        let what = || format!("run of {} bytes through a front with {room} for replies", feed.len());
        let ((front, words), twin) = (self.before(), self.twin(side));
        let mut expected = vec![UNTOUCHED; room];
        let mut replies = Lent::copy_of(&expected, side);
        begin_call("a run through a front");
        let (f, w) = (&mut self.front, &mut self.words);
        let told = library(Lent::copy_of(feed, side).sealed(|feed| damp::run(f, w, feed, &mut replies)));
        let told = told.map(|ran| (ran.stop.number(), ran.consumed, ran.written, ran.accepted, ran.refused));
        let ran = self.is.run_and_tell(feed, &mut expected, |told| match told {
            Told::Tick(_) => seen.ticks += 1,
            Told::Record(_, answer) => {
                seen.records += 1;
                if let Answer::Refused(refusal) = answer {
                    seen.refusals[usize::from(refusal.number())] += 1;
                }
            }
        });
        seen.feeds += 1;
        let _ = ran.inspect(|ran| seen.stops[ran.stop as usize] += 1);
        let _ = ran.inspect_err(|refusal| seen.refused(&self.is, refusal.number()));
        let ran = ran.map(|ran| (ran.stop as u8, ran.consumed, ran.written, ran.accepted, ran.refused));
        same(what, told, ran.map_err(Refusal::number))?;
        left(|| format!("replies of {}", what()), &expected, &replies)?;
        self.after(what, (&front, &words), told.is_err())?;
        twin.run_local(feed, side, (told, &expected), self)
    }

    fn clear(&mut self) -> Same {
        let before = self.front.to_vec();
        begin_call("clear of a front");
        let told = library(damp::clear(&mut self.front));
        let fits = before.len() == FRONT_WORDS;
        same(|| "clear of a front".into(), told, if fits { Ok(()) } else { Err(2) })?;
        left(|| "front after clear".into(), &if fits { vec![0; FRONT_WORDS] } else { before }, &self.front)
    }
}

pub fn plain(held: Result<Held, Refusal>) -> Result<(u32, u32), u8> {
    held.map(|held| (held.places, held.held_back)).map_err(Refusal::number)
}

/// A table, a front before it, and candidates that come and go. One list in three has none of them at first.
fn any(random: &mut Random) -> (Flock, Places, Vec<u32>) {
    let arrays = random.pick(&[1, 2, 2, 3, 3, 5, 8, 20]);
    let terrain = Terrain::new(random, arrays);
    let need = arrays - random.below(arrays.min(3));
    let list = if random.chance(30) { CandidateList::default() } else { filling(random, &terrain, need) };
    let flock = Flock::new(random, &terrain, &list);
    let places = flock.places(random);
    (flock, places, scattered(random, &list, arrays))
}

/// A front and a table, or both cleared: direct calls, then a run, the check after each.
fn whole(random: &mut Random, seen: &mut Damps) -> Same {
    let (flock, places, words) = any(random);
    seen.fronts += 1;
    let side = random.pick(&[Side::Front, Side::Back]);
    let mut both = Both::seen(&lay(&places), &words, side);
    if random.chance(40) {
        both.clear()?;
        both.is.places = Some(Places::new());
    }
    for _ in 0..40 {
        match flock.record(random) {
            Some(record) => both.update(record, side, seen)?,
            None => both.tick(side, seen)?,
        }
        both.check()?;
    }
    for _ in 0..2 {
        let feed = flock.feed(random, 150);
        let room = if random.chance(80) { 5 * feed.len() } else { random.below(400) };
        both.run(&feed, room, side, seen)?;
        both.check()?;
    }
    Ok(())
}

/// A memory that is hardly a front, hardly a table, or of a wrong size, and every call on both. What is refused changes neither.
fn damaged(random: &mut Random, seen: &mut Damps) -> Same {
    let (flock, places, mut words) = any(random);
    seen.damaged += 1;
    let mut front = lay(&places);
    match random.below(10) {
        0..=4 => front = hardly(random, &places),
        5 => front = vec![random.pick(&[0, 0, 7]); random.pick(&flapping::SIZES)],
        6..=8 => (0..random.within(1..=3)).for_each(|_| damage(random, &mut words)),
        _ => words = vec![1; random.pick(&SIZES[..13])],
    }
    if random.chance(10) {
        front = hardly(random, &places);
    }
    let side = random.pick(&[Side::Front, Side::Back]);
    let mut both = Both::seen(&front, &words, side);
    both.check()?;
    for _ in 0..4 {
        match flock.record(random) {
            Some(record) => both.update(record, side, seen)?,
            None => both.tick(side, seen)?,
        }
    }
    both.tick(side, seen)?;
    let feed = flock.feed(random, 8);
    both.run(&feed, random.below(60), side, seen)?;
    both.clear()
}

/// What only a caller in C can do: null for no word, and numbers of words that no memory has, of which none is read.
fn far() -> Same {
    let (front, words) = (Lent::copy_of(&[0; FRONT_WORDS], Side::Back), Lent::copy_of(&[0; 6_144], Side::Back));
    let (f, w) = (front.as_ptr().cast_mut(), words.as_ptr().cast_mut());
    let (none, reply) = (std::ptr::null_mut(), std::ptr::null_mut());
    begin_call("a call of C through a front with null and far lengths");
    for count in [0, 1 << 32, usize::MAX] {
        let what = || format!("a front of {count} words");
        let (clear, check) =
            unsafe { (ffi::toggleash_damp_clear(none, count), ffi::toggleash_damp_check(none, count)) };
        same(what, (clear, check), (2, Front { refusal: 2, ..Front::default() }))?;
        let tick = unsafe { ffi::toggleash_damp_tick(f, FRONT_WORDS, none, count) };
        same(what, tick, Front { refusal: 1, ..Front::default() })?;
        let update = unsafe { ffi::toggleash_damp_withdraw(f, FRONT_WORDS, none, count, 1, 33, 9) };
        same(what, update, Update { refusal: 1, ..Update::default() })?;
        let update = unsafe { ffi::toggleash_damp_announce(none, count, w, 6_144, 1, 33, 0, 9, 0) };
        same(what, update, Update { refusal: 3, ..Update::default() })?;
        let ran = unsafe { ffi::toggleash_damp_run(none, count, none, count, none.cast(), 0, reply, 0) };
        same(what, ran, Ran { refusal: 1, ..Ran::default() })?;
        let tick = unsafe { ffi::toggleash_damp_tick_local(f, FRONT_WORDS, none, count) };
        same(what, tick, Front { refusal: 1, ..Front::default() })?;
        let update = unsafe { ffi::toggleash_damp_withdraw_local(none, count, w, 6_144, 0, 8, 1) };
        same(what, update, Update { refusal: 2, ..Update::default() })?;
        let update = unsafe { ffi::toggleash_damp_announce_local(none, count, w, 6_144, 1, 33, 0, 9, 0) };
        same(what, update, Update { refusal: 3, ..Update::default() })?;
        let ran = unsafe { ffi::toggleash_damp_run_local(none, count, w, 6_144, none.cast(), 0, reply, 0) };
        same(what, ran, Ran { refusal: 2, ..Ran::default() })?;
    }
    Ok(())
}
