//! The local calls, which test only what they touch: on any words by the layout's rule, and on a table beside the checked calls,
//! in every field and every word.

use reference::feed::{run_by, Answer, Record};
use reference::layout::{self, Unfit, Walked};
use reference::memory::ARRAY_WORDS;
use reference::{Candidate, Lookup, Prefix, Refusal, Route};
use toggleash::ffi::{Ran, Update};

use crate::family::Family;
use crate::guard::{begin_call, Lent, Side};
use crate::pair::{left, same, unused_left, Same, UNTOUCHED};

/// The local call of an update, whose numbers may be any, on words of any kind, which are as those before. One that the layout
/// refuses leaves them so; another changes no array but those of its path and those that it gains.
pub fn update<A: Family>(words: &mut [u32], before: &[u32], record: Record<A>) -> Result<Update, String> {
    let what = || format!("local {record:?}");
    let allowed = allowed(before, record);
    let told = call(words, record);
    match allowed {
        Err(unfit) => {
            if let Unfit::Words(stray, level) = unfit {
                A::seen().stray(stray, level);
            }
            same(what, told, refused(unfit.refusal()))?;
            left(what, before, words)?;
        }
        Ok(arrays) => {
            same(what, told.refusal, 0)?;
            confined(what, &arrays, before, words)?;
            unused_left(what, before, words)?;
        }
    }
    Ok(told)
}

/// The arrays that the update may change, or why it is refused.
fn allowed<A: Family>(words: &[u32], record: Record<A>) -> Result<Vec<usize>, Unfit> {
    match record {
        Record::Announce { address, length, hop, feed, preference } => {
            layout::announce_local(words, Candidate { prefix: Prefix { address, length }, feed, preference, hop })
        }
        Record::Withdraw { address, length, feed } => layout::withdraw_local(words, Prefix { address, length }, feed),
        Record::Lookup { .. } | Record::End => unreachable!("{record:?} is no update"),
    }
}

fn call<A: Family>(words: &mut [u32], record: Record<A>) -> Update {
    let (first, n, calls) = (words.as_mut_ptr(), words.len(), A::CALLS.local);
    // SAFETY: the pointer and length are the slice's.
    match record {
        Record::Announce { address, length, hop, feed, preference } => {
            begin_call("announce_local");
            unsafe { (calls.announce)(first, n, address.passed(), length, hop, feed, preference) }
        }
        Record::Withdraw { address, length, feed } => {
            begin_call("withdraw_local");
            unsafe { (calls.withdraw)(first, n, address.passed(), length, feed) }
        }
        Record::Lookup { .. } | Record::End => unreachable!("{record:?} is no update"),
    }
}

fn refused(refusal: Refusal) -> Update {
    Update { refusal: refusal.number().into(), ..Update::default() }
}

/// No array changed but these; the header may have.
fn confined(what: impl Fn() -> String, arrays: &[usize], before: &[u32], after: &[u32]) -> Same {
    let pages = before.chunks(ARRAY_WORDS).zip(after.chunks(ARRAY_WORDS)).enumerate().skip(1);
    for (a, (before, after)) in pages.filter(|(a, _)| !arrays.contains(a)) {
        left(|| format!("{}, array {a}, which has no part in it", what()), before, after)?;
    }
    Ok(())
}

/// What a run tells and leaves.
pub struct Left<W, R> {
    pub ran: Ran,
    pub words: W,
    pub replies: R,
}

/// The local run of a feed must tell and leave this.
pub fn run<A: Family>(words: &mut [u32], feed: &[u8], expected: &Left<&[u32], &[u8]>, side: Side) -> Same {
    let what = || format!("local run of {} bytes with {} for replies", feed.len(), expected.replies.len());
    let mut replies = Lent::copy_of(&vec![UNTOUCHED; expected.replies.len()], side);
    begin_call("run_local");
    let told = Lent::copy_of(feed, side).sealed(|feed| {
        let (first, n, bytes, room) = (words.as_mut_ptr(), words.len(), replies.as_mut_ptr(), replies.len());
        // SAFETY: the pointers and lengths are the slices'.
        unsafe { (A::CALLS.local.run)(first, n, feed.as_ptr(), feed.len(), bytes, room) }
    });
    same(what, told, expected.ran)?;
    left(what, expected.replies, &replies)?;
    left(what, expected.words, words)
}

/// What it must tell and leave on words of any kind: each record is answered by its own local call.
pub fn series<A: Family>(before: &[u32], feed: &[u8], room: usize) -> Result<Left<Lent<u32>, Vec<u8>>, String> {
    let mut words = Lent::copy_of(before, Side::Back);
    let mut replies = vec![UNTOUCHED; room];
    if layout::Arrays::new(before).is_none() {
        let refusal = Refusal::WordCount.number().into();
        return Ok(Left { ran: Ran { refusal, ..Ran::default() }, words, replies });
    }
    let mut differs = None;
    let ran = run_by(feed, &mut replies, |record| {
        let answer = answered::<A>(&mut words, record);
        answer.unwrap_or_else(|difference| {
            differs = Some(difference);
            None
        })
    });
    match differs {
        Some(difference) => Err(difference),
        None => {
            let ran = in_c((ran.stop as u8, ran.consumed, ran.written, ran.accepted, ran.refused));
            Ok(Left { ran, words, replies })
        }
    }
}

/// A record's own call; an end has none.
fn answered<A: Family>(words: &mut [u32], record: Record<A>) -> Result<Option<Answer<A>>, String> {
    match record {
        Record::End => Ok(None),
        Record::Lookup { address } => Ok(Some(looked_up(words, address))),
        _ => {
            let before = words.to_vec();
            let Update { refusal, hop, cells } = update(words, &before, record)?;
            A::seen().local(refusal);
            match refusal_of(refusal) {
                None => Ok(Some(Answer::Done(reference::Update { hop, cells }))),
                Some(refusal) => Ok(Some(Answer::Refused(refusal))),
            }
        }
    }
}

/// The refusal of a number that updates have; none for 0.
fn refusal_of(number: u32) -> Option<Refusal> {
    let numbered = [
        Refusal::WordCount,
        Refusal::NotATable,
        Refusal::TooLong,
        Refusal::StrayBit,
        Refusal::HopOutOfRange,
        Refusal::NotHeld,
        Refusal::NoRoom,
        Refusal::FeedOutOfRange,
    ];
    numbered.into_iter().find(|refusal| u32::from(refusal.number()) == number)
}

/// By the layout's walk, which the library's lookups are compared with on their own.
fn looked_up<A: Family>(words: &[u32], address: A) -> Answer<A> {
    match layout::walk(words, address) {
        Err(refusal) => Answer::Refused(refusal),
        Ok(Walked { found, block }) => {
            let route = found.map(|(hop, length)| Route { prefix: Prefix::around(address, length), hop });
            Answer::Looked(Lookup { route, block })
        }
    }
}

/// The answer of a run, by its stop and what it consumed, wrote, accepted and refused, with the fields of C.
pub fn in_c((stop, consumed, written, accepted, refused): (u8, usize, usize, usize, usize)) -> Ran {
    let count = |number: usize| number as u64;
    let (consumed, written) = (count(consumed), count(written));
    Ran { refusal: 0, stop: stop.into(), consumed, written, accepted: count(accepted), refused: count(refused) }
}
