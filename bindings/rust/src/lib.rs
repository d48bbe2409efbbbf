//! Safe calls to Toggleash, a proved route table of IPv4 or IPv6 in 32-bit words that the caller lends. `no_std`, no
//! dependencies.
//!
//! The words are the whole state, in the machine's byte order. A table of A arrays, A from 1 to 4,096, takes
//! 3,072 × (A + 1) of them: [`words_for`] tells. Each call checks its input for itself, and answers or gives a [`Refusal`]; a
//! refused call has changed nothing.
//!
//! ```
//! use toggleash::{words_for, Candidate, Lookup, Match, Table};
//!
//! # fn main() -> Result<(), Box<dyn std::error::Error>> {
//! let mut table = Table::new(vec![0; words_for(7).unwrap()])?;
//! table.announce("10.0.0.0/8".parse()?, Candidate::via(1))?;
//! table.announce("10.1.4.0/22".parse()?, Candidate::via(2))?;
//! let found = Some(Match { hop: 2, length: 22 });
//! assert_eq!(table.lookup([10, 1, 5, 9].into())?, Lookup { found, block: 22 });
//!
//! // What holds for 10.1.8.0 holds for all that share its first 21 bits; what holds for 11.0.0.0, for its first 8.
//! let found = Some(Match { hop: 1, length: 8 });
//! assert_eq!(table.lookup([10, 1, 8, 0].into())?, Lookup { found, block: 21 });
//! assert_eq!(table.lookup([11, 0, 0, 0].into())?, Lookup { found: None, block: 8 });
//! # Ok(())
//! # }
//! ```
//!
//! A prefix holds a [`Candidate`] for each of up to four feeds, of which one wins. [`Table`] keeps words that are a table,
//! [`ListCopy`] those of a read-only copy of its winners for a line card that only looks up. [`Record`] and [`Reply`] are the
//! records of a feed and the replies to it. The calls that take slices of words, here and in [`copy`], are the same ones
//! without these types: any words can be handed to them. Of an update there are two: [`announce`], [`withdraw`] and [`run`] test
//! the whole table first; [`announce_local`], [`withdraw_local`] and [`run_local`] test what they touch, as the calls of [`Table`]
//! do, whose words are known to be a table.
//!
//! A table is of one family. For IPv6 there are [`Table6`], [`Prefix6`] and [`Record6`]; what is the same for both is said once,
//! over the trait [`Family`] of their addresses, which has the calls on words too. Copies are of IPv4.
//!
//! [`resolve`] goes on from a hop of an IPv4 table to the interface that packets leave by. [`Packed`] keeps the words of a
//! compressed table, which is made from an IPv4 table and answers its lookups in fewer words. [`shortest`] writes the shortest list
//! that forwards as an IPv4 table does. [`damp`] has a front before an IPv4 table, which holds candidates back that come and go too
//! often.
//!
//! The archives, libtoggleash.a and those beside it, are looked for where `./build` of the repository writes them, or in the
//! folder that the environment variable `TOGGLEASH_LIB_DIR` names while this crate is built.

#![no_std]
#![warn(missing_docs)]

use core::net::Ipv4Addr;

mod answers;
mod candidate;
pub mod copy;
pub mod damp;
mod family;
mod feed;
pub mod ffi;
pub mod packed;
mod prefix;
pub mod resolve;
pub mod shortest;
mod table;

pub use answers::{Counts, Lookup, Match, Ran, Refusal, Stop, Update};
pub use candidate::Candidate;
pub use copy::ListCopy;
pub use family::Family;
pub use feed::{records, replies, Record, Record6, RecordOf, Records, Replies, Reply};
pub use packed::Packed;
pub use prefix::{Prefix, Prefix6, PrefixError, PrefixOf};
pub use resolve::{Hop, Route};
pub use table::{Table, Table6, TableOf};

/// The most arrays that a table can have.
pub const MOST_ARRAYS: usize = 4_096;

/// The number of words in a table of so many arrays; none unless they are 1 to 4,096.
///
/// ```
/// assert_eq!(toggleash::words_for(1), Some(6_144));
/// assert_eq!(toggleash::words_for(4_096), Some(12_585_984));
/// assert_eq!(toggleash::words_for(0), None);
/// ```
pub fn words_for(arrays: usize) -> Option<usize> {
    (1..=MOST_ARRAYS).contains(&arrays).then(|| 3_072 * (arrays + 1))
}

/// The number of bytes in a written-out list of so many candidates of IPv4, the routes of [`Counts`]; for IPv6 it is
/// [`Record6::written_bytes`](RecordOf::written_bytes).
///
/// ```
/// assert_eq!(toggleash::written_bytes(0), 1);
/// assert_eq!(toggleash::written_bytes(3), 31);
/// ```
pub const fn written_bytes(routes: usize) -> usize {
    Record::written_bytes(routes)
}

// SAFETY of all calls in `family`, `copy`, `packed`, `damp` and `resolve`: a slice's pointer is aligned and leads to as many
// elements as its length says, alone if the slice is mutable, and the calls stay inside that. An empty slice's pointer leads
// nowhere, but with length 0 the calls follow no pointer.

/// Makes the words the table of no route, whatever they hold.
///
/// ```
/// use toggleash::{check, clear, Counts, Refusal};
///
/// let mut words = vec![7; 6_144];
/// assert_eq!(check(&words), Err(Refusal::NotATable));
/// assert_eq!(clear(&mut words), Ok(()));
/// assert_eq!(check(&words), Ok(Counts { routes: 0, arrays: 1 }));
/// assert_eq!(clear(&mut words[1..]), Err(Refusal::WordCount));
/// ```
///
/// # Errors
/// [`Refusal::WordCount`].
pub fn clear(words: &mut [u32]) -> Result<(), Refusal> {
    Ipv4Addr::clear(words)
}

/// Tests whether the words are a table, and counts its candidates and the arrays that their prefixes need.
///
/// # Errors
/// [`Refusal::WordCount`], [`Refusal::NotATable`].
pub fn check(words: &[u32]) -> Result<Counts, Refusal> {
    Ipv4Addr::check(words)
}

/// Finds the longest match of an address, and how many of its first bits that may be remembered for.
///
/// The table is not tested: on words that are none the call reads inside them and gives what its walk gives.
///
/// # Errors
/// [`Refusal::WordCount`]; [`Refusal::NotATable`] where a cell on the walk has a length over 8, no link and a block over 8,
/// or a link to an array that the words do not have, as any link has at the last of the four levels.
pub fn lookup(words: &[u32], address: Ipv4Addr) -> Result<Lookup, Refusal> {
    Ipv4Addr::lookup(words, address)
}

/// Counts the prefixes with a candidate that lie inside this one, itself included. It need not be held, and any length may be
/// given. The totals are kept in the table, so that this takes about the time of a lookup however many prefixes there are.
///
/// The table is not tested: on words that are none the call reads inside them and gives what its walk gives.
///
/// ```
/// use std::net::Ipv4Addr;
/// use toggleash::{announce, clear, within, Candidate, Refusal};
///
/// # fn main() -> Result<(), Refusal> {
/// let mut words = vec![0; 6_144];
/// clear(&mut words)?;
/// let ten = Ipv4Addr::new(10, 0, 0, 0);
/// announce(&mut words, ten, 8, Candidate { hop: 1, feed: 1, preference: 0 })?;
/// announce(&mut words, ten, 8, Candidate { hop: 2, feed: 2, preference: 0 })?;
/// announce(&mut words, ten, 7, Candidate::via(3))?;
/// assert_eq!(within(&words, Ipv4Addr::UNSPECIFIED, 0), Ok(2));
/// assert_eq!(within(&words, ten, 8), Ok(1));
/// assert_eq!(within(&words, ten, 9), Ok(0));
/// assert_eq!(within(&words, ten, 6), Err(Refusal::StrayBit));
/// # Ok(())
/// # }
/// ```
///
/// # Errors
/// In this order [`Refusal::WordCount`], [`Refusal::LengthOver`], [`Refusal::StrayBit`]; then [`Refusal::NotATable`] where
/// the walk meets a link to an array that the words do not have, or a total over 511 for each array of the words.
pub fn within(words: &[u32], address: Ipv4Addr, length: u32) -> Result<u32, Refusal> {
    Ipv4Addr::within(words, address, length)
}

/// Gives a feed this candidate for a prefix, in place of the one that it had. For a prefix that has a candidate, of any feed,
/// there is always room. Any length, hop and feed may be given; those out of their range are refused.
///
/// The whole table is tested first, which takes milliseconds at 4,096 arrays: a call for words that something else may have
/// written to. [`announce_local`] tests what it touches.
///
/// ```
/// use std::net::Ipv4Addr;
/// use toggleash::{announce, clear, Candidate, Refusal, Update};
///
/// # fn main() -> Result<(), Refusal> {
/// let mut words = vec![0; 6_144];
/// clear(&mut words)?;
/// let default = Ipv4Addr::UNSPECIFIED;
/// assert_eq!(announce(&mut words, default, 0, Candidate::via(9)), Ok(Update { hop: 9, cells: 256 }));
/// assert_eq!(announce(&mut words, default, 0, Candidate::via(8)), Ok(Update { hop: 8, cells: 256 }));
/// assert_eq!(announce(&mut words, default, 0, Candidate::via(8)), Ok(Update { hop: 8, cells: 0 }));
/// let other = Candidate { hop: 7, feed: 4, preference: 1 };
/// assert_eq!(announce(&mut words, default, 0, other), Ok(Update { hop: 7, cells: 0 }));
/// assert_eq!(announce(&mut words, default, 0, Candidate { feed: 5, ..other }), Err(Refusal::FeedOutOfRange));
/// assert_eq!(announce(&mut words, Ipv4Addr::new(10, 0, 0, 0), 9, other), Err(Refusal::NoRoom));
/// assert_eq!(announce(&mut words, Ipv4Addr::new(10, 0, 0, 0), 33, other), Err(Refusal::LengthOver));
/// # Ok(())
/// # }
/// ```
///
/// # Errors
/// In this order [`Refusal::WordCount`], [`Refusal::LengthOver`], [`Refusal::StrayBit`], [`Refusal::HopOutOfRange`],
/// [`Refusal::FeedOutOfRange`], [`Refusal::NotATable`], [`Refusal::NoRoom`].
pub fn announce(words: &mut [u32], address: Ipv4Addr, length: u32, candidate: Candidate) -> Result<Update, Refusal> {
    Ipv4Addr::announce(words, address, length, candidate)
}

/// Removes a feed's candidate for a prefix and gives the hop that it had. The whole table is tested first; [`withdraw_local`]
/// tests what it touches.
///
/// # Errors
/// In this order [`Refusal::WordCount`], [`Refusal::LengthOver`], [`Refusal::StrayBit`], [`Refusal::FeedOutOfRange`],
/// [`Refusal::NotATable`], [`Refusal::NotHeld`].
pub fn withdraw(words: &mut [u32], address: Ipv4Addr, length: u32, feed: u32) -> Result<Update, Refusal> {
    Ipv4Addr::withdraw(words, address, length, feed)
}

/// Writes the candidates as a feed of announcements, of kind 4, and an end, and gives the part of the buffer that it filled:
/// 10 bytes for each candidate and 1. The rest of the buffer stays.
///
/// ```
/// use std::net::Ipv4Addr;
/// use toggleash::{announce, clear, run, write_out, Candidate, Refusal};
///
/// # fn main() -> Result<(), Refusal> {
/// let mut words = vec![0; 6_144];
/// clear(&mut words)?;
/// announce(&mut words, Ipv4Addr::new(10, 0, 0, 0), 8, Candidate { hop: 258, feed: 3, preference: 7 })?;
/// let mut buffer = [0; 100];
/// let list = write_out(&words, &mut buffer)?;
/// assert_eq!(list, [4, 10, 0, 0, 0, 8, 1, 2, 3, 7, 0]);
///
/// // The list is a feed that fills another table with the same candidates.
/// let mut copy = vec![0; 6_144];
/// clear(&mut copy)?;
/// run(&mut copy, list, &mut [0; 5])?;
/// # Ok(())
/// # }
/// ```
///
/// # Errors
/// In this order [`Refusal::WordCount`], [`Refusal::NotATable`], [`Refusal::BufferShort`].
pub fn write_out<'a>(words: &[u32], buffer: &'a mut [u8]) -> Result<&'a mut [u8], Refusal> {
    Ipv4Addr::write_out(words, buffer)
}

/// Takes the records of a feed in order and writes a reply to each but the end. The reply bytes past
/// [`Ran::written`] stay. A refused record is replied to, and the run goes on. The table is tested once, before any record.
///
/// ```
/// use toggleash::{clear, run, Refusal, Stop};
///
/// # fn main() -> Result<(), Refusal> {
/// let mut words = vec![0; 6_144];
/// clear(&mut words)?;
/// let feed = [1, 10, 0, 0, 0, 8, 0, 1, 3, 10, 1, 5, 9, 0];
/// let mut reply = [0; 64];
/// let ran = run(&mut words, &feed, &mut reply)?;
/// assert_eq!((ran.stop, ran.consumed, ran.accepted, ran.refused), (Stop::End, 14, 1, 0));
/// assert_eq!(reply[..ran.written], [16, 0, 1, 0, 1, 17, 0, 1, 8, 8]);
/// # Ok(())
/// # }
/// ```
///
/// # Errors
/// Before any record, [`Refusal::WordCount`] or [`Refusal::NotATable`].
pub fn run(words: &mut [u32], feed: &[u8], reply: &mut [u8]) -> Result<Ran, Refusal> {
    Ipv4Addr::run(words, feed, reply)
}

/// As [`announce`], testing what it touches and no more: less than a microsecond however large the table is, where the test of
/// the whole takes milliseconds at 4,096 arrays. On a table the answer and the words are the same, and the words a table again.
/// [`Table::announce`](TableOf::announce) is this call.
///
/// Words that come from elsewhere are to be [`check`]ed once before. On words that are no table the call is safe too: where it
/// answers, it has changed nothing but the arrays on the prefix's path, those gained for it, and the header; but it does not see
/// damage elsewhere.
///
/// ```
/// use std::net::Ipv4Addr;
/// use toggleash::{announce, announce_local, check, clear, Candidate, Refusal};
///
/// # fn main() -> Result<(), Refusal> {
/// let mut words = vec![0; 9_216];
/// clear(&mut words)?;
/// announce_local(&mut words, Ipv4Addr::new(10, 0, 0, 0), 9, Candidate::via(1))?;
/// assert_eq!(check(&words)?.routes, 1);
///
/// // The tag of the array below the root: an update that goes there sees it, one in the root does not.
/// words[2 * 3_072] += 1;
/// let ten = Ipv4Addr::new(10, 0, 0, 0);
/// assert_eq!(announce_local(&mut words, ten, 9, Candidate::via(2)), Err(Refusal::NotATable));
/// assert_eq!(announce(&mut words, ten, 8, Candidate::via(2)), Err(Refusal::NotATable));
/// assert_eq!(announce_local(&mut words, ten, 8, Candidate::via(2))?.hop, 2);
/// # Ok(())
/// # }
/// ```
///
/// # Errors
/// In this order [`Refusal::WordCount`], [`Refusal::LengthOver`], [`Refusal::StrayBit`], [`Refusal::HopOutOfRange`],
/// [`Refusal::FeedOutOfRange`], [`Refusal::NotATable`] where what it touches is not as in a table, [`Refusal::NoRoom`].
pub fn announce_local(
    words: &mut [u32],
    address: Ipv4Addr,
    length: u32,
    candidate: Candidate,
) -> Result<Update, Refusal> {
    Ipv4Addr::announce_local(words, address, length, candidate)
}

/// As [`withdraw`], testing what it touches and no more, see [`announce_local`]; the arrays freed may have changed too.
///
/// # Errors
/// In this order [`Refusal::WordCount`], [`Refusal::LengthOver`], [`Refusal::StrayBit`], [`Refusal::FeedOutOfRange`],
/// [`Refusal::NotATable`] where what it touches is not as in a table, [`Refusal::NotHeld`].
pub fn withdraw_local(words: &mut [u32], address: Ipv4Addr, length: u32, feed: u32) -> Result<Update, Refusal> {
    Ipv4Addr::withdraw_local(words, address, length, feed)
}

/// As [`run`], without its test at the start: each record is answered as by its local call, or as by [`lookup`]. One that is
/// refused with [`Refusal::NotATable`] is replied to as any other refused one.
///
/// # Errors
/// Before any record, [`Refusal::WordCount`].
pub fn run_local(words: &mut [u32], feed: &[u8], reply: &mut [u8]) -> Result<Ran, Refusal> {
    Ipv4Addr::run_local(words, feed, reply)
}

fn accepted(refusal: u32) -> Result<(), Refusal> {
    match refusal {
        0 => Ok(()),
        number => Err(Refusal::from_number(number).unwrap_or_else(|| mismatch("refusal", number))),
    }
}

fn matched(found: u32, hop: u32, length: u32) -> Option<Match> {
    (found != 0).then_some(Match { hop, length })
}

fn updated(update: ffi::Update) -> Result<Update, Refusal> {
    accepted(update.refusal)?;
    Ok(Update { hop: update.hop, cells: update.cells })
}

fn ran(ran: ffi::Ran) -> Result<Ran, Refusal> {
    accepted(ran.refusal)?;
    Ok(Ran {
        stop: Stop::from_number(ran.stop).unwrap_or_else(|| mismatch("stop", ran.stop)),
        consumed: count(ran.consumed),
        written: count(ran.written),
        accepted: count(ran.accepted),
        refused: count(ran.refused),
    })
}

/// Counts are at most the length of a slice; what a compressed table needs is below 2^32, as a table has at most 4,096 arrays.
fn count(number: u64) -> usize {
    usize::try_from(number).expect("a count is at most a slice's length, or below 2^32")
}

fn mismatch(what: &str, number: u32) -> ! {
    panic!("libtoggleash.a gives {what} {number}, which this crate does not know: they are of different versions")
}
