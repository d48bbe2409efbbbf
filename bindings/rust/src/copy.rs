//! A read-only copy of an IPv4 route list, for a line card that only looks up.
//!
//! A copy is built from the bytes of a list that [`write_out`](crate::write_out) wrote, in words of its own, and holds the
//! winners of its candidates. The words are no table: their number is at least what [`need`] tells, and what stands in words
//! past these does not matter. A copy answers every address as the table does that the list came from, but tells no block.
//!
//! ```
//! use toggleash::{copy, words_for, Candidate, ListCopy, Match, Table};
//!
//! # fn main() -> Result<(), Box<dyn std::error::Error>> {
//! let mut table = Table::new(vec![0; words_for(7).unwrap()])?;
//! table.announce("10.0.0.0/8".parse()?, Candidate::via(1))?;
//! table.announce("10.1.4.0/22".parse()?, Candidate::via(2))?;
//!
//! let mut buffer = [0; toggleash::written_bytes(2)];
//! let list = table.write_out(&mut buffer)?;
//! let card = ListCopy::build(list, vec![0; copy::need(list)?])?;
//!
//! let address = [10, 1, 5, 9].into();
//! assert_eq!(card.lookup(address), Ok(Some(Match { hop: 2, length: 22 })));
//! assert_eq!(card.lookup(address)?, table.lookup(address)?.found);
//! # Ok(())
//! # }
//! ```

use core::fmt;
use core::net::Ipv4Addr;

use crate::{accepted, count, ffi, matched, Match, Refusal};

/// What [`build`] counts.
#[derive(Clone, Copy, Debug, PartialEq, Eq, Hash)]
pub struct Built {
    /// Routes of the list, one for each prefix, the default route included.
    pub routes: usize,
    /// Distinct entries beside the routes, which lead a search to longer ones.
    pub markers: usize,
}

/// The number of words that a copy of a written-out list needs: 8 × (routes + markers) + 1,024. Where a `usize` cannot tell it,
/// [`usize::MAX`], which no slice of words has.
///
/// ```
/// use toggleash::{copy, Refusal};
///
/// assert_eq!(copy::need(&[0]), Ok(1_024));
/// assert_eq!(copy::need(&[4, 10, 1, 2, 0, 24, 0, 1, 1, 0, 0]), Ok(8 * 2 + 1_024));
/// assert_eq!(copy::need(&[4, 10, 1, 2, 0, 24, 0, 1, 1, 0]), Err(Refusal::NotATable));
///
/// // The same route in a record of kind 1.
/// assert_eq!(copy::need(&[1, 10, 1, 2, 0, 24, 0, 1, 0]), Ok(8 * 2 + 1_024));
/// ```
///
/// # Errors
/// [`Refusal::NotATable`] exactly where the bytes, all of them, are not a list in the form that
/// [`write_out`](crate::write_out) writes, whatever arrays a table would need for it. A list of kind 1 records, one for each
/// prefix, is taken too; one of both kinds is not.
pub fn need(bytes: &[u8]) -> Result<usize, Refusal> {
    let needed = unsafe { ffi::toggleash_copy_need(bytes.as_ptr(), bytes.len()) };
    accepted(needed.refusal)?;
    Ok(usize::try_from(needed.words).unwrap_or(usize::MAX))
}

/// Makes the words a copy of a written-out list's winners, whatever they hold. Words past those needed stay.
///
/// ```
/// use toggleash::copy::{build, Built};
/// use toggleash::Refusal;
///
/// // 10.1.2.0/24, which a marker at 10.1.0.0/16 leads to.
/// let list = [4, 10, 1, 2, 0, 24, 0, 1, 1, 0, 0];
/// let mut words = [7; 1_050];
/// assert_eq!(build(&list, &mut words[..1_039]), Err(Refusal::BufferShort));
/// assert_eq!(words, [7; 1_050]);
/// assert_eq!(build(&list, &mut words), Ok(Built { routes: 1, markers: 1 }));
/// assert_eq!(words[1_040..], [7; 10]);
/// ```
///
/// # Errors
/// [`Refusal::NotATable`] as from [`need`], then [`Refusal::BufferShort`] for fewer words than are needed.
pub fn build(bytes: &[u8], words: &mut [u32]) -> Result<Built, Refusal> {
    let (words, n) = (words.as_mut_ptr(), words.len());
    let built = unsafe { ffi::toggleash_copy_build(bytes.as_ptr(), bytes.len(), words, n) };
    accepted(built.refusal)?;
    Ok(Built { routes: count(built.routes), markers: count(built.markers) })
}

/// Finds the longest match of an address in a copy.
///
/// The copy is not tested: on words that are none the call reads inside them and gives what its walk gives.
///
/// # Errors
/// [`Refusal::NotATable`] where the words are fewer than 1,024, the walk meets a hash table that does not lie inside them, or
/// it ends with a best match that no copy has.
pub fn lookup(words: &[u32], address: Ipv4Addr) -> Result<Option<Match>, Refusal> {
    let answer = unsafe { ffi::toggleash_copy_lookup(words.as_ptr(), words.len(), address.into()) };
    accepted(answer.refusal)?;
    Ok(matched(answer.found, answer.hop, answer.length))
}

/// Words that are a copy of a route list.
///
/// `W` is what the words are kept in: `Vec<u32>`, `Box<[u32]>`, an array, `&mut [u32]`, `&[u32]`.
#[derive(Clone)]
pub struct ListCopy<W> {
    words: W,
}

impl<W: AsRef<[u32]> + AsMut<[u32]>> ListCopy<W> {
    /// Makes the words a copy of a written-out list, whatever they hold, see [`build`].
    ///
    /// # Errors
    /// [`Refusal::NotATable`] for bytes that are no list, then [`Refusal::BufferShort`] for fewer words than [`need`] tells.
    pub fn build(list: &[u8], mut words: W) -> Result<ListCopy<W>, Refusal> {
        build(list, words.as_mut())?;
        Ok(ListCopy { words })
    }
}

impl<W: AsRef<[u32]>> ListCopy<W> {
    /// The copy that these words are, as they came from a build. They are not tested: no call does that for a copy.
    pub fn from_words(words: W) -> ListCopy<W> {
        ListCopy { words }
    }

    /// Its words.
    pub fn words(&self) -> &[u32] {
        self.words.as_ref()
    }

    /// What its words are kept in.
    pub fn into_words(self) -> W {
        self.words
    }

    /// The longest match of an address, or none.
    ///
    /// # Errors
    /// [`Refusal::NotATable`] only where the words are no copy, see [`lookup`].
    pub fn lookup(&self, address: Ipv4Addr) -> Result<Option<Match>, Refusal> {
        lookup(self.words(), address)
    }
}

impl<W: AsRef<[u32]>> fmt::Debug for ListCopy<W> {
    fn fmt(&self, f: &mut fmt::Formatter<'_>) -> fmt::Result {
        write!(f, "ListCopy of {} words", self.words().len())
    }
}
