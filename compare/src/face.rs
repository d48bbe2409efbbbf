//! What only a caller in C can do: null with length 0, lengths far over any table's; and every field that is not meant
//! is 0.

use std::ptr::{null, null_mut};

use reference::feed::{kind_of, Role};
use toggleash::ffi::{self, Answer, Built, Counts, Match, Needed, Ran, Total, Update, Written};

use crate::calls::Updates;
use crate::family::Family;
use crate::guard::{begin_call, Lent, Side};
use crate::pair::{same, Same};

/// Lengths that no memory has, some of them multiples of an array's; none may be read.
const FAR: [usize; 6] = [3 << 23, 1 << 32, (3 << 32) + 6_144, 1 << 60, usize::MAX - 1_023, usize::MAX];

/// The address whose last byte this is, all others being 0.
fn last<A: Family>(byte: u8) -> A::Passed {
    A::with_byte(byte, A::LEVELS - 1).passed()
}

pub fn compare() -> Same {
    tables::<u32>()?;
    tables::<u128>()?;
    copy_fields()
}

fn tables<A: Family>() -> Same {
    nothing_lent::<A>()?;
    FAR.into_iter().try_for_each(far_lengths::<A>)?;
    // A run that checks no table takes its end.
    let ends = [
        (A::CALLS.checked, Ran { refusal: 2, ..Ran::default() }),
        (A::CALLS.local, Ran { consumed: 1, ..Ran::default() }),
    ];
    ends.iter().try_for_each(|(updates, end)| {
        refused_fields::<A>(updates, *end).map_err(|text| format!("{}, {}, {text}", A::NAME, updates.name))
    })
}

/// Refusal 1 from every call, whatever else applies, with words that lead nowhere.
fn refused_by_size<A: Family>(words: *mut u32, n: usize) -> Same {
    begin_call("a call of C with a wrong number of words");
    let (calls, one) = (A::CALLS, last::<A>(1));
    let told = |call: &str| format!("{} {call} {n}", A::NAME);
    unsafe {
        same(|| told("clear"), (calls.clear)(words, n), 1)?;
        let counts = Counts { refusal: 1, ..Counts::default() };
        same(|| told("check"), (calls.check)(words, n), counts)?;
        let answer = Answer { refusal: 1, ..Answer::default() };
        same(|| told("lookup"), (calls.lookup)(words, n, one), answer)?;
        let total = Total { refusal: 1, ..Total::default() };
        same(|| told("within"), (calls.within)(words, n, one, A::BITS + 1), total)?;
        let written = Written { refusal: 1, ..Written::default() };
        same(|| told("write out"), (calls.write_out)(words, n, null_mut(), 0), written)?;
        for updates in [calls.checked, calls.local] {
            let told = |call: &str| told(&format!("{} {call}", updates.name));
            let update = Update { refusal: 1, ..Update::default() };
            same(|| told("announce"), (updates.announce)(words, n, one, A::BITS + 1, 0, 0, 0), update)?;
            same(|| told("withdraw"), (updates.withdraw)(words, n, one, A::BITS + 1, 0), update)?;
            let ran = Ran { refusal: 1, ..Ran::default() };
            same(|| told("run"), (updates.run)(words, n, null(), 0, null_mut(), 0), ran)?;
        }
    }
    Ok(())
}

fn nothing_lent<A: Family>() -> Same {
    refused_by_size::<A>(null_mut(), 0)?;
    let mut words = Lent::copy_of(&[0; 6_144], Side::Back);
    begin_call("a call of C with null beside words");
    let (calls, first, n) = (A::CALLS, words.as_mut_ptr(), words.len());
    let lookup = vec![kind_of::<A>(Role::Lookup).expect("both families have one"); 1 + A::LEVELS as usize];
    unsafe {
        same(|| "clear".into(), (calls.clear)(first, n), 0)?;
        let written = Written { refusal: 9, ..Written::default() };
        same(|| "write out to null".into(), (calls.write_out)(first, n, null_mut(), 0), written)?;
        for run in [calls.checked.run, calls.local.run] {
            let ran = Ran { stop: 1, ..Ran::default() };
            same(|| "run null".into(), run(first, n, null(), 0, null_mut(), 0), ran)?;
            let ran = Ran { stop: 4, ..Ran::default() };
            same(|| "run to null".into(), run(first, n, lookup.as_ptr(), lookup.len(), null_mut(), 0), ran)?;
        }
    }
    Ok(())
}

/// The words end where the guard begins, so a call that believes the length faults.
fn far_lengths<A: Family>(n: usize) -> Same {
    let mut words = Lent::copy_of(&[0; 1], Side::Back);
    refused_by_size::<A>(words.as_mut_ptr(), n)
}

/// The fields of refusals by other numbers, and of a lookup that finds none, by the calls that check or by the local ones. On words
/// that are no table the run of an end alone gives `end`.
fn refused_fields<A: Family>(updates: &Updates<A::Passed>, end: Ran) -> Same {
    let mut words = Lent::copy_of(&[0; 6_144], Side::Back);
    begin_call("a refused call of C");
    let (calls, first, n) = (A::CALLS, words.as_mut_ptr(), words.len());
    let (zero, seven, half) = (last::<A>(0), last::<A>(7), A::with_byte(128, 0).passed());
    let update = |refusal| Update { refusal, ..Update::default() };
    unsafe {
        same(|| "check".into(), (calls.check)(first, n), Counts { refusal: 2, ..Counts::default() })?;
        same(|| "announce".into(), (updates.announce)(first, n, zero, 0, 1, 4, 255), update(2))?;
        same(|| "withdraw".into(), (updates.withdraw)(first, n, zero, 0, 4), update(2))?;
        for feed in [0, 5, 256 + 1, u32::MAX] {
            let got = (updates.announce)(first, n, zero, 0, 1, feed, 0);
            same(|| format!("announce by {feed}"), got, update(10))?;
            same(|| format!("withdraw by {feed}"), (updates.withdraw)(first, n, zero, 0, feed), update(10))?;
        }
        let total = |refusal, prefixes| Total { refusal, prefixes };
        same(|| "within, length".into(), (calls.within)(first, n, seven, A::BITS + 1), total(3, 0))?;
        same(|| "within, stray bit".into(), (calls.within)(first, n, seven, A::BITS - 1), total(4, 0))?;
        *first.add(3_072 + 2_304 + 1) = 512;
        same(|| "within, a total".into(), (calls.within)(first, n, zero, 0), total(2, 0))?;
        *first.add(3_072 + 2_304 + 1) = 511;
        same(|| "within, the largest total".into(), (calls.within)(first, n, zero, 0), total(0, 511))?;
        let ran = (updates.run)(first, n, [0].as_ptr(), 1, null_mut(), 0);
        same(|| "run".into(), ran, end)?;
        (calls.clear)(first, n);
        same(|| "lookup".into(), (calls.lookup)(first, n, seven), Answer::default())?;
        same(|| "withdraw none".into(), (updates.withdraw)(first, n, zero, 0, 1), update(7))?;
        let held = Update { hop: 5, cells: 256, ..update(0) };
        same(|| "announce".into(), (updates.announce)(first, n, zero, 0, 5, 2, 254), held)?;
        let again = Update { cells: 0, ..held };
        same(|| "announce again".into(), (updates.announce)(first, n, zero, 0, 5, 2, 254), again)?;
        let worse = Update { hop: 9, ..again };
        same(|| "announce a loser".into(), (updates.announce)(first, n, zero, 0, 9, 1, 255), worse)?;
        let found = Answer { found: 1, hop: 5, ..Answer::default() };
        same(|| "lookup".into(), (calls.lookup)(first, n, seven), found)?;
        let one = Update { hop: 6, cells: 1, ..held };
        same(|| "announce".into(), (updates.announce)(first, n, half, 8, 6, 3, 0), one)?;
        let beside = Answer { block: 1, ..found };
        same(|| "lookup beside a route".into(), (calls.lookup)(first, n, seven), beside)?;
        let inside = Answer { hop: 6, length: 8, block: 8, ..found };
        same(|| "lookup in a route".into(), (calls.lookup)(first, n, half), inside)?;
        same(|| "within".into(), (calls.within)(first, n, zero, 0), total(0, 2))?;
        let refusals = [(3, 1, A::BITS + 1, 0, 0), (4, 1, 0, 0, 0), (5, 0, 0, 0, 0), (10, 0, 9, 1, 0), (8, 0, 9, 1, 1)];
        for (refusal, byte, length, hop, feed) in refusals {
            let got = (updates.announce)(first, n, last::<A>(byte), length, hop, feed, 0);
            same(|| format!("announce refused {refusal}"), got, update(refusal))?;
        }
        let gone = Update { hop: 5, cells: 256 - 1, ..update(0) };
        same(|| "withdraw a winner".into(), (updates.withdraw)(first, n, zero, 0, 2), gone)?;
        let left = Answer { hop: 9, ..beside };
        same(|| "lookup of what waited".into(), (calls.lookup)(first, n, seven), left)?;
    }
    Ok(())
}

/// The calls on copies with nothing lent, and all fields of their answers for the default route alone and for no route.
fn copy_fields() -> Same {
    let mut words = Lent::copy_of(&[7; 1_032], Side::Back);
    let default: [u8; 11] = [4, 0, 0, 0, 0, 0, 0, 5, 4, 255, 0];
    begin_call("a call of C on a copy");
    let (first, n, bytes) = (words.as_mut_ptr(), words.len(), default.as_ptr());
    let needed = |refusal, words| Needed { refusal, words };
    let built = |refusal, routes| Built { refusal, routes, markers: 0 };
    let refused = Match { refusal: 2, ..Match::default() };
    let found = Match { found: 1, hop: 5, ..Match::default() };
    unsafe {
        same(|| "copy need of null".into(), ffi::toggleash_copy_need(null(), 0), needed(2, 0))?;
        same(|| "copy build from null".into(), ffi::toggleash_copy_build(null(), 0, first, n), built(2, 0))?;
        same(|| "copy build to null".into(), ffi::toggleash_copy_build(bytes, 11, null_mut(), 0), built(9, 0))?;
        same(|| "copy lookup in null".into(), ffi::toggleash_copy_lookup(null(), 0, 0), refused)?;
        same(|| "copy need".into(), ffi::toggleash_copy_need(bytes, 11), needed(0, 1_032))?;
        same(|| "copy build".into(), ffi::toggleash_copy_build(bytes, 11, first, n), built(0, 1))?;
        same(|| "copy lookup".into(), ffi::toggleash_copy_lookup(first, n, u32::MAX), found)?;
        same(|| "copy build of none".into(), ffi::toggleash_copy_build(bytes.add(10), 1, first, 1_024), built(0, 0))?;
        same(|| "copy lookup of none".into(), ffi::toggleash_copy_lookup(first, 1_024, 0), Match::default())?;
        same(|| "copy lookup in too few".into(), ffi::toggleash_copy_lookup(first, 1_023, 0), refused)
    }
}
