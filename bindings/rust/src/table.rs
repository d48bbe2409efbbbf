//! A table as a value that has its words, or borrows them.

use core::fmt;
use core::marker::PhantomData;
use core::net::{Ipv4Addr, Ipv6Addr};

use crate::resolve::resolve;
use crate::{Candidate, Counts, Family, Hop, Lookup, PrefixOf, Ran, Refusal, Route, Update};

/// Words that are an IPv4 table, see [`TableOf`].
pub type Table<W> = TableOf<Ipv4Addr, W>;

/// Words that are an IPv6 table, see [`TableOf`].
///
/// ```
/// use std::net::Ipv6Addr;
/// use toggleash::{words_for, Candidate, Lookup, Match, Table6};
///
/// # fn main() -> Result<(), Box<dyn std::error::Error>> {
/// let mut table = Table6::new(vec![0; words_for(7).unwrap()])?;
/// table.announce("2001:db8::/32".parse()?, Candidate::via(1))?;
/// table.announce("2001:db8:4000::/34".parse()?, Candidate::via(2))?;
/// let found = Some(Match { hop: 2, length: 34 });
/// assert_eq!(table.lookup("2001:db8:5::1".parse()?)?.found, Some(Match { hop: 1, length: 32 }));
/// assert_eq!(table.lookup("2001:db8:5000::1".parse()?)?, Lookup { found, block: 34 });
/// assert_eq!(table.lookup(Ipv6Addr::LOCALHOST)?, Lookup { found: None, block: 3 });
/// # Ok(())
/// # }
/// ```
pub type Table6<W> = TableOf<Ipv6Addr, W>;

/// Words that are a table of a family: [`Table`] for IPv4, [`Table6`] for IPv6.
///
/// `W` is what the words are kept in: `Vec<u32>`, `Box<[u32]>`, an array, `&mut [u32]`; `&[u32]` serves to look up. A
/// table can only be had of words that are cleared or tested. A table of the other family and a
/// [`ListCopy`](crate::ListCopy) are other types: words of the one cannot be handed in for the other's. The words themselves
/// do not say of which family they are: those of an IPv4 table are an IPv6 table too, and those of an IPv6 table one of IPv4
/// as long as no prefix in it is over 32 bits long.
///
/// ```compile_fail
/// # use toggleash::{copy, ListCopy, Table};
/// let card = ListCopy::build(&[0], vec![0; 1_024]).unwrap();
/// fn count(table: &Table<Vec<u32>>) -> u32 {
///     table.check().unwrap().routes
/// }
/// count(&card);
/// ```
///
/// ```compile_fail
/// # use toggleash::{Table, Table6};
/// let six = Table6::new(vec![0; 6_144]).unwrap();
/// fn count(table: &Table<Vec<u32>>) -> u32 {
///     table.check().unwrap().routes
/// }
/// count(&six);
/// ```
///
/// Updates test what they touch and no more, in less than a microsecond however large the table is: they are the local calls,
/// [`announce_local`](crate::announce_local) and its like. That loses nothing here. A `TableOf` is made by clearing words, by
/// testing them, or by cloning one; from then on the words are its own, or borrowed exclusively, nothing hands them out to be
/// written, and each call leaves a table a table. On a table a local call answers and leaves what the one that tests all of it
/// does. Should the words be changed all the same, by unsafe code or by a `W` that does not give the same words each time, the
/// calls stay inside them and stay safe; they may not notice, and [`check`](TableOf::check) does. The calls that test
/// the whole table first are those on slices, [`announce`](crate::announce), [`withdraw`](crate::withdraw) and
/// [`run`](crate::run).
///
/// ```
/// use toggleash::{words_for, Candidate, Match, Table};
///
/// # fn main() -> Result<(), Box<dyn std::error::Error>> {
/// let mut table = Table::new(vec![0; words_for(7).unwrap()])?;
/// table.announce("10.0.0.0/8".parse()?, Candidate::via(1))?;
/// table.announce("10.1.4.0/22".parse()?, Candidate::via(2))?;
/// assert_eq!(table.lookup([10, 1, 5, 9].into())?.found, Some(Match { hop: 2, length: 22 }));
///
/// // Withdraw one box and its addresses belong to the next box out.
/// table.withdraw("10.1.4.0/22".parse()?, 1)?;
/// assert_eq!(table.lookup([10, 1, 5, 9].into())?.found, Some(Match { hop: 1, length: 8 }));
/// # Ok(())
/// # }
/// ```
#[derive(Clone)]
pub struct TableOf<A, W> {
    words: W,
    family: PhantomData<A>,
}

impl<A: Family, W: AsRef<[u32]>> TableOf<A, W> {
    /// The table that these words are.
    ///
    /// # Errors
    /// [`Refusal::WordCount`]; [`Refusal::NotATable`] where they are none.
    pub fn from_words(words: W) -> Result<TableOf<A, W>, Refusal> {
        A::check(words.as_ref())?;
        Ok(TableOf { words, family: PhantomData })
    }

    /// Its words.
    pub fn words(&self) -> &[u32] {
        self.words.as_ref()
    }

    /// What its words are kept in.
    pub fn into_words(self) -> W {
        self.words
    }

    /// Counts its candidates and the arrays that their prefixes need, having tested the words.
    ///
    /// # Errors
    /// [`Refusal::NotATable`] where something else has changed the words.
    pub fn check(&self) -> Result<Counts, Refusal> {
        A::check(self.words())
    }

    /// The longest match of an address, or none, and how many of its first bits that may be remembered for.
    ///
    /// # Errors
    /// [`Refusal::NotATable`] only where something else has changed the words, see [`lookup`](crate::lookup).
    pub fn lookup(&self, address: A) -> Result<Lookup, Refusal> {
        A::lookup(self.words(), address)
    }

    /// Counts the prefixes with a candidate that lie inside this one, itself included; inside [`PrefixOf::DEFAULT`] lie
    /// all.
    ///
    /// ```
    /// use toggleash::{words_for, Candidate, Prefix, Table};
    ///
    /// # fn main() -> Result<(), Box<dyn std::error::Error>> {
    /// let mut table = Table::new(vec![0; words_for(7).unwrap()])?;
    /// table.announce("10.0.0.0/8".parse()?, Candidate::via(1))?;
    /// table.announce("10.1.4.0/22".parse()?, Candidate::via(2))?;
    /// assert_eq!(table.within(Prefix::DEFAULT), Ok(2));
    /// assert_eq!(table.within("10.1.0.0/16".parse()?), Ok(1));
    /// assert_eq!(table.within("11.0.0.0/8".parse()?), Ok(0));
    /// # Ok(())
    /// # }
    /// ```
    ///
    /// # Errors
    /// [`Refusal::NotATable`] only where something else has changed the words, see [`within`](crate::within).
    pub fn within(&self, prefix: PrefixOf<A>) -> Result<u32, Refusal> {
        A::within(self.words(), prefix.address(), prefix.length().into())
    }

    /// Writes the candidates as a feed of announcements and an end, and gives the part of the buffer that it filled.
    ///
    /// # Errors
    /// [`Refusal::BufferShort`] for a buffer of fewer bytes than
    /// [`written_bytes`](crate::RecordOf::written_bytes) of its candidates.
    pub fn write_out<'a>(&self, buffer: &'a mut [u8]) -> Result<&'a mut [u8], Refusal> {
        A::write_out(self.words(), buffer)
    }
}

impl<W: AsRef<[u32]>> Table<W> {
    /// The interface that packets for an address leave by, and the last gateway used on the way to it.
    ///
    /// # Errors
    /// In this order [`Refusal::NoEntry`] for more than 256 entries, then what is met first: see
    /// [`resolve`](crate::resolve::resolve).
    pub fn resolve(&self, entries: &[Hop], address: Ipv4Addr) -> Result<Route, Refusal> {
        resolve(self.words(), entries, address)
    }
}

impl<A: Family, W: AsRef<[u32]> + AsMut<[u32]>> TableOf<A, W> {
    /// For a front, which leaves a table a table.
    pub(crate) fn words_mut(&mut self) -> &mut [u32] {
        self.words.as_mut()
    }

    /// Makes the words the table of no route, whatever they hold.
    ///
    /// # Errors
    /// [`Refusal::WordCount`] for a number of words that [`words_for`](crate::words_for) does not give.
    pub fn new(mut words: W) -> Result<TableOf<A, W>, Refusal> {
        A::clear(words.as_mut())?;
        Ok(TableOf { words, family: PhantomData })
    }

    /// Gives a feed this candidate for a prefix, in place of the one that it had. For a prefix that has a candidate, of any
    /// feed, there is always room.
    ///
    /// # Errors
    /// [`Refusal::HopOutOfRange`], [`Refusal::FeedOutOfRange`], [`Refusal::NoRoom`]. [`Refusal::NotATable`] only where something
    /// else has changed the words.
    pub fn announce(&mut self, prefix: PrefixOf<A>, candidate: Candidate) -> Result<Update, Refusal> {
        A::announce_local(self.words.as_mut(), prefix.address(), prefix.length().into(), candidate)
    }

    /// Removes a feed's candidate for a prefix and gives the hop that it had.
    ///
    /// # Errors
    /// [`Refusal::FeedOutOfRange`], [`Refusal::NotHeld`]. [`Refusal::NotATable`] only where something else has changed the words.
    pub fn withdraw(&mut self, prefix: PrefixOf<A>, feed: u32) -> Result<Update, Refusal> {
        A::withdraw_local(self.words.as_mut(), prefix.address(), prefix.length().into(), feed)
    }

    /// Takes the records of a feed in order and writes a reply to each but the end, see [`run_local`](crate::run_local).
    ///
    /// ```
    /// use toggleash::{replies, words_for, Record, Reply, Table};
    ///
    /// # fn main() -> Result<(), Box<dyn std::error::Error>> {
    /// let mut table = Table::new(vec![0; words_for(7).unwrap()])?;
    /// let mut feed = Vec::new();
    /// feed.extend(Record::announce("10.0.0.0/8".parse()?, 1).bytes());
    /// feed.extend(Record::Lookup { address: [10, 1, 5, 9].into() }.bytes());
    /// feed.extend(Record::End.bytes());
    ///
    /// let mut reply = [0; 2 * Reply::MOST];
    /// let ran = table.run(&feed, &mut reply)?;
    /// let expected = [Reply::Done { hop: 1, cells: 1 }, Reply::Found { hop: 1, length: 8, block: 8 }];
    /// assert!(replies(&reply[..ran.written]).eq(expected));
    /// # Ok(())
    /// # }
    /// ```
    ///
    /// # Errors
    /// None, unless something else has changed the number of words.
    pub fn run(&mut self, feed: &[u8], reply: &mut [u8]) -> Result<Ran, Refusal> {
        A::run_local(self.words.as_mut(), feed, reply)
    }
}

impl<A: Family, W: AsRef<[u32]>> fmt::Debug for TableOf<A, W> {
    fn fmt(&self, f: &mut fmt::Formatter<'_>) -> fmt::Result {
        write!(f, "{} of {} words", A::TABLE, self.words().len())
    }
}
