//! The shortest list that forwards as an IPv4 table does, for a line card whose memory is small.
//!
//! The list gives every address the hop that the table gives it, and no list of fewer routes does. Its routes need not be routes of
//! the table, and the length that a lookup finds by it may be another. It is written as records of kind 1 and an end:
//! [`ListCopy::build`](crate::ListCopy::build) takes it, and so does a cleared table of as many arrays, as a feed, whole.
//!
//! The table must hold a default route, and the winning hop of each prefix must be from 1 to 32.
//!
//! ```
//! use toggleash::{copy, records, words_for, Candidate, ListCopy, Match, Prefix, Record, Table};
//!
//! # fn main() -> Result<(), Box<dyn std::error::Error>> {
//! let mut table = Table::new(vec![0; words_for(3).unwrap()])?;
//! table.announce(Prefix::DEFAULT, Candidate::via(9))?;
//! table.announce("10.0.0.0/10".parse()?, Candidate::via(1))?;
//! for prefix in ["10.64.0.0/10", "10.128.0.0/10", "10.192.0.0/10"] {
//!     table.announce(prefix.parse()?, Candidate::via(2))?;
//! }
//!
//! // 10.0.0.0/8 was not held and is used: three routes in place of five.
//! let mut scratch = vec![0; table.words().len()];
//! let mut buffer = vec![0; toggleash::shortest::written_bytes(5)];
//! let list = table.shortest(&mut scratch, &mut buffer)?;
//! let routes = [("0.0.0.0/0", 9), ("10.0.0.0/8", 2), ("10.0.0.0/10", 1)];
//! let routes = routes.map(|(prefix, hop)| Record::announce(prefix.parse().unwrap(), hop));
//! assert!(records(list).eq(routes));
//!
//! let card = ListCopy::build(list, vec![0; copy::need(list)?])?;
//! assert_eq!(card.lookup([10, 200, 0, 1].into()), Ok(Some(Match { hop: 2, length: 8 })));
//! # Ok(())
//! # }
//! ```

use crate::{accepted, count, ffi, Refusal, Table};

/// The greatest winning hop that the table may have.
pub const MOST_HOP: u32 = 32;

/// The number of bytes in a shortest list of so many routes, of which it never has more than the table has prefixes.
///
/// ```
/// assert_eq!(toggleash::shortest::written_bytes(3), 25);
/// ```
pub const fn written_bytes(routes: usize) -> usize {
    8 * routes + 1
}

/// Writes the shortest list to the front of the buffer and gives the part that it filled. The rest of the buffer stays, and all of it
/// where the call refuses.
///
/// The scratch has at least as many words as the table, whatever they hold. It is written to where the call succeeds and where it
/// refuses with [`Refusal::BufferShort`]; what it holds then has no use to a caller.
///
/// ```
/// use toggleash::{announce, clear, shortest::shortest, Candidate, Refusal};
///
/// # fn main() -> Result<(), Refusal> {
/// let (mut words, mut scratch, mut buffer) = ([0; 6_144], [0; 6_144], [7; 10]);
/// assert_eq!(shortest(&words, &mut scratch, &mut buffer), Err(Refusal::NotATable));
/// clear(&mut words)?;
/// assert_eq!(shortest(&words, &mut scratch, &mut buffer), Err(Refusal::NoDefault));
/// announce(&mut words, [0; 4].into(), 0, Candidate::via(33))?;
/// assert_eq!(shortest(&words, &mut scratch, &mut buffer), Err(Refusal::HighHop));
/// announce(&mut words, [0; 4].into(), 0, Candidate::via(32))?;
/// assert_eq!(shortest(&words, &mut scratch[1..], &mut buffer), Err(Refusal::WordCount));
/// assert_eq!(shortest(&words, &mut scratch, &mut buffer[..8]), Err(Refusal::BufferShort));
/// assert_eq!(shortest(&words, &mut scratch, &mut buffer)?, [1, 0, 0, 0, 0, 0, 0, 32, 0]);
/// assert_eq!(buffer[9], 7);
/// # Ok(())
/// # }
/// ```
///
/// # Errors
/// In this order [`Refusal::WordCount`], also for a scratch of fewer words than the table's, [`Refusal::NotATable`],
/// [`Refusal::NoDefault`], [`Refusal::HighHop`], and [`Refusal::BufferShort`] for a buffer of fewer than [`written_bytes`] of the
/// list's routes.
pub fn shortest<'a>(words: &[u32], scratch: &mut [u32], buffer: &'a mut [u8]) -> Result<&'a mut [u8], Refusal> {
    let (words, n) = (words.as_ptr(), words.len());
    let (kept, s) = (scratch.as_mut_ptr(), scratch.len());
    let (bytes, room) = (buffer.as_mut_ptr(), buffer.len());
    // SAFETY: as of all calls, see lib.rs; the three slices are of one borrow each.
    let written = unsafe { ffi::toggleash_shortest(words, n, kept, s, bytes, room) };
    accepted(written.refusal)?;
    Ok(&mut buffer[..count(written.bytes)])
}

impl<W: AsRef<[u32]>> Table<W> {
    /// Writes the shortest list that forwards as the table does, with a scratch of as many words as the table, or more: see
    /// [`shortest`](crate::shortest::shortest).
    ///
    /// # Errors
    /// In this order [`Refusal::WordCount`] for a scratch of fewer words, [`Refusal::NoDefault`], [`Refusal::HighHop`],
    /// [`Refusal::BufferShort`].
    pub fn shortest<'a>(&self, scratch: &mut [u32], buffer: &'a mut [u8]) -> Result<&'a mut [u8], Refusal> {
        shortest(self.words(), scratch, buffer)
    }
}
