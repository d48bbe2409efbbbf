//! The library's words beside the reference's memory: each call is made on both and compared, in answer, in lent
//! bytes, and in what the words stand for.

use reference::feed::{Answer, Record};
use reference::layout::{self, unused, Arrays, Walked, TOTALS, UNUSED};
use reference::memory::ARRAY_WORDS;
use reference::{Candidate, CandidateList, Lookup, Memory, Prefix, Refusal};
use toggleash::{ffi, Family as _};

use crate::family::Family;
use crate::guard::{begin_call, Lent, Side};
use crate::locals::{self, Left};

/// Nothing differs, or the text of what does.
pub type Same = Result<(), String>;

/// What buffers hold before a call, so that a byte written shows.
pub const UNTOUCHED: u8 = 0xA5;

/// Lent words and what they must stand for.
pub struct Pair<A = u32> {
    pub words: Lent<u32>,
    pub memory: Memory<A>,
    /// Others, as many, for the local calls, once there was one.
    twin: Option<Lent<u32>>,
}

/// An answer in the form that both sides share.
pub type Told<T> = Result<T, u8>;

pub fn library<T>(result: Result<T, toggleash::Refusal>) -> Told<T> {
    result.map_err(toggleash::Refusal::number)
}

fn list<A: Family, T>(result: Result<T, Refusal>) -> Told<T> {
    result.map_err(Refusal::number).inspect_err(|&number| A::seen().refusal(number))
}

pub fn same<T: PartialEq + std::fmt::Debug>(what: impl Fn() -> String, library: T, list: T) -> Same {
    if library == list {
        return Ok(());
    }
    Err(format!("{}: the library gives {library:?}, the reference {list:?}", what()))
}

/// The lent elements are those that must be there.
pub fn left<T: PartialEq + std::fmt::Debug>(what: impl Fn() -> String, expected: &[T], lent: &[T]) -> Same {
    // Comparing at once is much faster than looking for the first that differs.
    if expected == lent {
        return Ok(());
    }
    let mut pairs = expected.iter().zip(lent).enumerate();
    let (at, (wanted, is)) = pairs.find(|(_, (wanted, is))| wanted != is).expect("their lengths are equal");
    Err(format!("{}: lent element {at} is {is:?}, not {wanted:?}", what()))
}

impl<A: Family> Pair<A> {
    /// Words that must stand for this.
    pub fn new(words: Lent<u32>, memory: Memory<A>) -> Pair<A> {
        Pair { words, memory, twin: None }
    }

    /// Words as they are, read by the reference.
    pub fn seen(words: &[u32], side: Side) -> Pair<A> {
        Pair::new(Lent::copy_of(words, side), layout::read(words))
    }

    /// Clearing leaves the one table of no candidate whose words without a use are 0; the words stay where it refuses.
    pub fn clear(&mut self) -> Same {
        let before = self.words.to_vec();
        begin_call("clear");
        let told = library(A::Sent::clear(&mut self.words));
        same(|| "clear".into(), told, list::<A, _>(self.memory.clear()))?;
        let cleared = |arrays| layout::lay(&CandidateList::<A>::default(), arrays, &[]);
        let expected = self.memory.room().map_or(before, cleared);
        left(|| "words after clear".into(), &expected, &self.words)
    }

    /// The words stand for the reference's memory, by its own reading of the layout.
    pub fn stands(&self) -> Same {
        match layout::read(&self.words) == self.memory {
            true => Ok(()),
            false => Err("the words do not stand for the list".into()),
        }
    }

    pub fn check(&self) -> Same {
        begin_call("check");
        let told = library(self.words.sealed(A::Sent::check)).map(|counts| (counts.routes, counts.arrays));
        same(|| "check".into(), told, list::<A, _>(self.memory.check()).map(|counts| (counts.routes, counts.arrays)))
    }

    /// Lookups by the layout's walk on any words, and by longest match and block where they are a table.
    pub fn lookup(&self, addresses: &[A]) -> Same {
        begin_call("lookup");
        self.words.sealed(|words| {
            addresses.iter().try_for_each(|&address| {
                let what = || format!("lookup {}", address.text());
                let told = library(A::Sent::lookup(words, address.into()));
                let told = told.map(|answer| (answer.found.map(|found| (found.hop, found.length)), answer.block));
                let walked = list::<A, _>(layout::walk(words, address)).map(|Walked { found, block }| (found, block));
                same(what, told, walked)?;
                match self.memory.lookup(address) {
                    Ok(Lookup { route, block }) => {
                        same(what, told, Ok((route.map(|route| (route.hop, route.prefix.length)), block)))
                    }
                    Err(_) => Ok(count_odd(words, address)),
                }
            })
        })
    }

    /// What lies inside prefixes of any numbers, by the layout's walk on any words, and by the list where they are a table.
    pub fn within(&self, prefixes: &[Prefix<A>]) -> Same {
        begin_call("within");
        self.words.sealed(|words| {
            prefixes.iter().try_for_each(|&Prefix { address, length }| {
                let what = || format!("within {}/{length}", address.text());
                let told = library(A::Sent::within(words, address.into(), length));
                same(what, told, list::<A, _>(layout::within(words, address, length)))?;
                match self.memory.within(address, length) {
                    Err(Refusal::NotATable) => Ok(count_odd_total(words, Prefix { address, length })),
                    counted => same(what, told, counted.map_err(Refusal::number)),
                }
            })
        })?;
        let Ok(held) = self.memory.list() else { return Ok(()) };
        let all = library(A::Sent::within(&self.words, A::default().into(), 0));
        same(|| "prefixes in all".into(), all, Ok(held.winners().routes().len() as u32))
    }

    /// A feed announces a candidate, whose prefix and feed may be any numbers.
    pub fn announce(&mut self, candidate: Candidate<A>) -> Same {
        let Candidate { prefix, feed, preference, hop } = candidate;
        let Prefix { address, length } = prefix;
        let sent = || format!("{}/{length} via {hop}", address.text());
        let what = || format!("announce {} by {feed} with {preference}", sent());
        let before = self.words.to_vec();
        let again = self.memory.list().is_ok_and(|list| list.held(prefix, feed) == Some(candidate));
        let won = self.winning(prefix);
        begin_call("announce");
        let announced = toggleash::Candidate { hop, feed, preference };
        let told = library(A::Sent::announce(&mut self.words, address.into(), length, announced));
        let expected = list::<A, _>(self.memory.announce(address, length, hop, feed, preference));
        same_update(what, told, expected)?;
        if told.is_ok() {
            A::seen().winner(won, self.winning(prefix));
        }
        self.changed(what, (told.is_ok() && !again).then_some((prefix, won)), &before)?;
        self.locally(&before, Record::Announce { address, length, hop, feed, preference }, told)
    }

    pub fn withdraw(&mut self, prefix: Prefix<A>, feed: u32) -> Same {
        let Prefix { address, length } = prefix;
        let what = || format!("withdraw {}/{length} by {feed}", address.text());
        let before = self.words.to_vec();
        let won = self.winning(prefix);
        begin_call("withdraw");
        let told = library(A::Sent::withdraw(&mut self.words, address.into(), length, feed));
        let expected = list::<A, _>(self.memory.withdraw(address, length, feed));
        same_update(what, told, expected)?;
        if told.is_ok() {
            A::seen().winner(won, self.winning(prefix));
        }
        self.changed(what, told.is_ok().then_some((prefix, won)), &before)?;
        self.locally(&before, Record::Withdraw { address, length, feed }, told)
    }

    /// The local call of an update on the words before it: on a table it tells and leaves what the checked one did.
    fn locally(&mut self, before: &[u32], record: Record<A>, checked: Told<toggleash::Update>) -> Same {
        let table = self.memory.list().is_ok();
        let (words, twin) = self.with_twin(before);
        let told = locals::update(twin, before, record)?;
        if !table {
            A::seen().local(told.refusal);
            return Ok(());
        }
        let what = || format!("local {record:?} on a table");
        let fields = |update: toggleash::Update| ffi::Update { refusal: 0, hop: update.hop, cells: update.cells };
        let refused = |number: u8| ffi::Update { refusal: number.into(), ..ffi::Update::default() };
        same(what, told, checked.map_or_else(refused, fields))?;
        left(what, words, twin)
    }

    /// The words, and the others made as those before.
    fn with_twin(&mut self, before: &[u32]) -> (&[u32], &mut [u32]) {
        let twin = self.twin.get_or_insert_with(|| Lent::copy_of(before, Side::Back));
        twin.copy_from_slice(before);
        (&self.words, twin)
    }

    /// The hop that wins at the prefix.
    fn winning(&self, prefix: Prefix<A>) -> Option<u32> {
        self.memory.list().ok()?.winners().hop(prefix)
    }

    /// Only the words changed that the update of this prefix may change, where this hop won before; none if it was refused or the
    /// candidate held already.
    fn changed(&self, what: impl Fn() -> String, updated: Option<(Prefix<A>, Option<u32>)>, before: &[u32]) -> Same {
        match updated {
            Some((prefix, won)) => {
                confined(&what, prefix, before, &self.words)?;
                if won.is_some() == self.winning(prefix).is_some() {
                    totals_left(&what, before, &self.words)?;
                }
                unused_left(what, before, &self.words)
            }
            None => left(what, before, &self.words),
        }
    }

    /// Writes out to a buffer of so many bytes, which all are compared.
    pub fn write_out(&self, room: usize, side: Side) -> Same {
        let what = || format!("write out to {room} bytes");
        let mut expected = vec![UNTOUCHED; room];
        let mut buffer = Lent::copy_of(&expected, side);
        begin_call("write_out");
        let told = self.words.sealed(|words| library(A::Sent::write_out(words, &mut buffer)).map(|front| front.len()));
        same(what, told, list::<A, _>(self.memory.write_out(&mut expected)))?;
        left(what, &expected, &buffer)
    }

    /// Runs a feed with so many reply bytes, which all are compared. Gives the number of records replied to.
    pub fn run(&mut self, feed: &[u8], reply: usize, side: Side) -> Result<u64, String> {
        let what = || format!("run of {} bytes with {reply} for replies", feed.len());
        let before = self.words.to_vec();
        let mut expected = vec![UNTOUCHED; reply];
        let mut replies = Lent::copy_of(&expected, side);
        begin_call("run");
        let words = &mut self.words;
        let told = library(Lent::copy_of(feed, side).sealed(|feed| A::Sent::run(words, feed, &mut replies)));
        let told = told.map(|ran| (ran.stop.number(), ran.consumed, ran.written, ran.accepted, ran.refused));
        let mut records = 0;
        let ran = list::<A, _>(self.memory.run_and_tell(feed, &mut expected, |_, answer| {
            records += 1;
            if let Answer::Refused(refusal) = answer {
                A::seen().refusal(refusal.number());
            }
        }));
        let ran = ran.inspect(|ran| A::seen().stop(ran.stop as u8));
        let ran = ran.map(|ran| (ran.stop as u8, ran.consumed, ran.written, ran.accepted, ran.refused));
        same(what, told, ran)?;
        left(what, &expected, &replies)?;
        match told {
            Ok((.., accepted, _)) if accepted > 0 => {
                self.stands()?;
                unused_left(what, &before, &self.words)?;
            }
            _ => left(what, &before, &self.words)?,
        }
        self.run_locally(&before, feed, told.map(locals::in_c), &replies, side)?;
        Ok(records)
    }

    /// The local run on the words before it tells and leaves what the checked one did, with these replies; where that refused, as
    /// words that are no table make it, what the records' own local calls do.
    fn run_locally(
        &mut self,
        before: &[u32],
        feed: &[u8],
        checked: Told<ffi::Ran>,
        replies: &[u8],
        side: Side,
    ) -> Same {
        let (words, twin) = self.with_twin(before);
        match checked {
            Ok(ran) => locals::run::<A>(twin, feed, &Left { ran, words, replies }, side),
            Err(_) => {
                let Left { ran, words, replies } = locals::series::<A>(before, feed, replies.len())?;
                locals::run::<A>(twin, feed, &Left { ran, words: &words, replies: &replies }, side)
            }
        }
    }
}

/// Counts what a walk over words that are no table meets, if that ends it.
fn count_odd<A: Family>(words: &[u32], address: A) {
    if let Some(Err((odd, level))) = Arrays::new(words).map(|arrays| layout::trace(&arrays, address)) {
        A::seen().odd(odd, level);
    }
}

/// Counts what a walk to a total over words that are no table meets, if that ends it.
fn count_odd_total<A: Family>(words: &[u32], prefix: Prefix<A>) {
    if let Some(Err((odd, level))) = Arrays::new(words).map(|arrays| layout::trace_total(&arrays, prefix)) {
        A::seen().odd_total(odd, level);
    }
}

fn same_update(what: impl Fn() -> String, told: Told<toggleash::Update>, expected: Told<reference::Update>) -> Same {
    same(what, told.map(|update| (update.hop, update.cells)), expected.map(|update| (update.hop, update.cells)))
}

/// The words without a use, which only clearing writes, are as they were.
pub fn unused_left(what: impl Fn() -> String, before: &[u32], after: &[u32]) -> Same {
    let pages = before.chunks(ARRAY_WORDS).zip(after.chunks(ARRAY_WORDS)).enumerate();
    for (a, (before, after)) in pages.skip(1).filter(|(_, (before, after))| before != after) {
        if let Some(at) = unused().find(|&at| before[at] != after[at]) {
            return Err(format!("{}: word {at} of array {a} changed, which has no use", what()));
        }
    }
    Ok(())
}

/// An update that neither adds nor removes a prefix leaves all totals.
fn totals_left(what: impl Fn() -> String, before: &[u32], after: &[u32]) -> Same {
    let pages = before.chunks(ARRAY_WORDS).zip(after.chunks(ARRAY_WORDS)).enumerate();
    pages.skip(1).try_for_each(|(a, (before, after))| {
        left(|| format!("{}, totals of array {a}", what()), &before[TOTALS..UNUSED], &after[TOTALS..UNUSED])
    })
}

/// Besides the header and the update's own array only arrays gained or freed, and the one that links to them, changed; of the
/// other arrays on the way only totals.
fn confined<A: Family>(what: impl Fn() -> String, prefix: Prefix<A>, before: &[u32], after: &[u32]) -> Same {
    // The way to the array is whole where more arrays are used.
    let (full, lean) = if after[0] >= before[0] { (after, before) } else { (before, after) };
    let arrays = Arrays::new(full).expect("an accepted update has a right size");
    let mut path = vec![1];
    for level in 0..prefix.level() {
        let below =
            arrays.below(path[level as usize], prefix.address.byte(level)).and_then(|number| arrays.held(number));
        path.push(below.ok_or_else(|| format!("{}: no array for it", what()))?);
    }
    let comes_or_goes = |a: &usize| lean[ARRAY_WORDS * a] == 0;
    let from = path.iter().position(comes_or_goes).unwrap_or(path.len()).saturating_sub(1);
    let allowed = &path[from..];
    let pages = full.chunks(ARRAY_WORDS).zip(lean.chunks(ARRAY_WORDS)).enumerate();
    for (a, (one, other)) in pages.skip(1).filter(|(_, (one, other))| one != other) {
        let no_total_changed = one[..TOTALS] != other[..TOTALS] || one[UNUSED..] != other[UNUSED..];
        if !path.contains(&a) || (no_total_changed && !allowed.contains(&a)) {
            return Err(format!("{}: array {a} changed, which has no part in it", what()));
        }
    }
    Ok(())
}
