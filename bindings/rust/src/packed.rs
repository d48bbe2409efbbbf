//! Compressed tables: the lookups of an IPv4 table in fewer words, for a card that only looks up.
//!
//! A compressed table is made from a [`Table`] once and is then only read. It answers every address as the table did then, hop and
//! length, but tells no block. Each array of the table has as many entries in it as its prefixes need to be told apart, 1 to 256, in
//! place of 256.
//!
//! ```
//! use toggleash::{words_for, Candidate, Match, Packed, Table};
//!
//! # fn main() -> Result<(), Box<dyn std::error::Error>> {
//! let mut table = Table::new(vec![0; words_for(7).unwrap()])?;
//! table.announce("10.0.0.0/8".parse()?, Candidate::via(1))?;
//! table.announce("10.1.0.0/20".parse()?, Candidate::via(3))?;
//! table.announce("10.1.4.0/22".parse()?, Candidate::via(2))?;
//!
//! // 256 entries, one of a link alone, and four, of four words each.
//! assert_eq!(table.packed_need(), Ok(1_024 + 4 * (256 + 1 + 4)));
//! let card = Packed::build(&table, vec![0; table.packed_need()?])?;
//!
//! let address = [10, 1, 5, 9].into();
//! assert_eq!(card.lookup(address), Ok(Some(Match { hop: 2, length: 22 })));
//! assert_eq!(card.lookup(address)?, table.lookup(address)?.found);
//! # Ok(())
//! # }
//! ```

use core::fmt;
use core::net::Ipv4Addr;

use crate::{accepted, count, ffi, matched, Match, Refusal, Table};

/// The fewest words of a compressed table: those of one without a route over 8 bits.
pub const LEAST_WORDS: usize = 2_048;

/// What [`build`] counts.
#[derive(Clone, Copy, Debug, PartialEq, Eq, Hash)]
pub struct Built {
    /// Its arrays, the first one included: as many as [`check`](crate::check) counts.
    pub arrays: u32,
    /// Its words, as [`need`] tells.
    pub words: usize,
}

/// The number of words that a table needs compressed: 1,024 and 4 for each entry, 256 of the first array.
///
/// ```
/// use toggleash::{clear, packed, Refusal};
///
/// let mut words = vec![0; 6_144];
/// assert_eq!(packed::need(&words), Err(Refusal::NotATable));
/// clear(&mut words).unwrap();
/// assert_eq!(packed::need(&words), Ok(packed::LEAST_WORDS));
/// assert_eq!(packed::need(&words[1..]), Err(Refusal::WordCount));
/// ```
///
/// # Errors
/// [`Refusal::WordCount`], [`Refusal::NotATable`].
pub fn need(words: &[u32]) -> Result<usize, Refusal> {
    let needed = unsafe { ffi::toggleash_packed_need(words.as_ptr(), words.len()) };
    accepted(needed.refusal)?;
    Ok(count(needed.words))
}

/// Makes words a compressed table of the table in other words, whatever they hold. Their first 1,024 stay, which have no use yet, and
/// those past the need.
///
/// ```
/// use toggleash::packed::{build, Built};
/// use toggleash::{announce, clear, Candidate, Refusal};
///
/// # fn main() -> Result<(), Refusal> {
/// let mut words = vec![0; 9_216];
/// clear(&mut words)?;
/// announce(&mut words, [10, 0, 0, 0].into(), 9, Candidate::via(1))?;
/// announce(&mut words, [10, 0, 0, 0].into(), 16, Candidate::via(2))?;
///
/// // Of 10.0.0.0/9 and 10.0.0.0/16 the longer has seven bits more: 128 entries.
/// let mut packed = [7; 2_562];
/// assert_eq!(build(&words, &mut packed[..2_559]), Err(Refusal::BufferShort));
/// assert_eq!(packed, [7; 2_562]);
/// assert_eq!(build(&words, &mut packed), Ok(Built { arrays: 2, words: 2_560 }));
/// assert_eq!(packed[2_560..], [7, 7]);
/// # Ok(())
/// # }
/// ```
///
/// # Errors
/// [`Refusal::WordCount`] or [`Refusal::NotATable`] as from [`need`], then [`Refusal::BufferShort`] for fewer words than are
/// needed.
pub fn build(words: &[u32], packed: &mut [u32]) -> Result<Built, Refusal> {
    let (words, n) = (words.as_ptr(), words.len());
    let built = unsafe { ffi::toggleash_packed_build(words, n, packed.as_mut_ptr(), packed.len()) };
    accepted(built.refusal)?;
    Ok(Built { arrays: built.arrays, words: count(built.words) })
}

/// Finds the longest match of an address in a compressed table.
///
/// The words are not tested: on words that are none the call reads inside them and gives what its walk gives.
///
/// # Errors
/// [`Refusal::NotATable`] where the walk meets an entry that does not lie in the words, or a mask, slot, length or array below the
/// last level that no compressed table has.
pub fn lookup(packed: &[u32], address: Ipv4Addr) -> Result<Option<Match>, Refusal> {
    let answer = unsafe { ffi::toggleash_packed_lookup(packed.as_ptr(), packed.len(), address.into()) };
    accepted(answer.refusal)?;
    Ok(matched(answer.found, answer.hop, answer.length))
}

/// Words that are a compressed table.
///
/// `W` is what the words are kept in: `Vec<u32>`, `Box<[u32]>`, an array, `&mut [u32]`, `&[u32]`. A [`Table`] and a
/// [`ListCopy`](crate::ListCopy) are other types:
///
/// ```compile_fail
/// # use toggleash::{ListCopy, Packed};
/// let card = ListCopy::build(&[0], vec![0; 1_024]).unwrap();
/// fn words(packed: &Packed<Vec<u32>>) -> usize {
///     packed.words().len()
/// }
/// words(&card);
/// ```
#[derive(Clone)]
pub struct Packed<W> {
    words: W,
}

impl<W: AsRef<[u32]> + AsMut<[u32]>> Packed<W> {
    /// Makes the words a compressed table of the table, whatever they hold, see [`build`].
    ///
    /// # Errors
    /// [`Refusal::BufferShort`] for fewer words than [`Table::packed_need`] tells.
    pub fn build<T: AsRef<[u32]>>(table: &Table<T>, mut words: W) -> Result<Packed<W>, Refusal> {
        build(table.words(), words.as_mut())?;
        Ok(Packed { words })
    }
}

impl<W: AsRef<[u32]>> Packed<W> {
    /// The compressed table that these words are, as they came from a build. They are not tested: no call does that.
    pub fn from_words(words: W) -> Packed<W> {
        Packed { words }
    }

    /// Its words.
    pub fn words(&self) -> &[u32] {
        self.words.as_ref()
    }

    /// What its words are kept in.
    pub fn into_words(self) -> W {
        self.words
    }

    /// The longest match of an address, or none.
    ///
    /// # Errors
    /// [`Refusal::NotATable`] only where the words are no compressed table, see [`lookup`].
    pub fn lookup(&self, address: Ipv4Addr) -> Result<Option<Match>, Refusal> {
        lookup(self.words(), address)
    }
}

impl<W: AsRef<[u32]>> Table<W> {
    /// The number of words that it needs compressed, for [`Packed::build`].
    ///
    /// # Errors
    /// [`Refusal::NotATable`] only where something else has changed the words.
    pub fn packed_need(&self) -> Result<usize, Refusal> {
        need(self.words())
    }
}

impl<W: AsRef<[u32]>> fmt::Debug for Packed<W> {
    fn fmt(&self, f: &mut fmt::Formatter<'_>) -> fmt::Result {
        write!(f, "Packed of {} words", self.words().len())
    }
}
