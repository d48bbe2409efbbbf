//! The loops around a call that looks up: they give the sum of the hops found, by which ways are seen to answer alike.

use toggleash::ffi::{Answer, Match};

extern "C" {
    pub fn plain_trusting(words: *const u32, n: usize, address: u32) -> Answer;
    pub fn plain_checking(words: *const u32, n: usize, address: u32) -> Answer;
}

type Lookup<A> = unsafe extern "C" fn(*const u32, usize, u32) -> A;

/// The sum of the hops, which the closure takes from an answer.
fn sum<A>(lookup: Lookup<A>, hop: impl Fn(A) -> u32, words: &[u32], addresses: &[u32]) -> u64 {
    // SAFETY: the words are a table or a copy, and the pointer and length are the slice's.
    addresses.iter().map(|&address| u64::from(hop(unsafe { lookup(words.as_ptr(), words.len(), address) }))).sum()
}

/// The sum over a table.
pub fn sum_of_table(lookup: Lookup<Answer>, words: &[u32], addresses: &[u32]) -> u64 {
    sum(lookup, |answer| answer.hop, words, addresses)
}

/// The sum over a copy or a compressed table.
pub fn sum_of_copy(lookup: Lookup<Match>, words: &[u32], addresses: &[u32]) -> u64 {
    sum(lookup, |answer| answer.hop, words, addresses)
}
