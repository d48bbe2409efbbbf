//! A front before an IPv4 table, which calms routes that come and go.
//!
//! A front has a place for each of at most 256 candidates, a candidate being a prefix and a feed; while all are taken, others pass
//! as without a front. An accepted withdrawal adds 1,000 to the candidate's penalty, up to 12,000. Over 3,000 the candidate is held
//! back: its announcement is accepted with 0 cells and kept, a later one replaces it, and a withdrawal of it is accepted with 0
//! cells. A [`tick`](Front::tick) halves each penalty; what is kept below 750 is then announced to the table if that has room, else
//! at a later tick, and who is below 750 with nothing kept is held back no longer.
//!
//! ```
//! use toggleash::damp::{Front, Held, FRONT_WORDS};
//! use toggleash::{words_for, Candidate, Refusal, Table, Update};
//!
//! # fn main() -> Result<(), Box<dyn std::error::Error>> {
//! let mut table = Table::new(vec![0; words_for(7).unwrap()])?;
//! let mut front = Front::new([0; FRONT_WORDS])?;
//! let ten = "10.0.0.0/8".parse()?;
//! for _ in 0..4 {
//!     front.announce(&mut table, ten, Candidate::via(5))?;
//!     front.withdraw(&mut table, ten, 1)?;
//! }
//! assert_eq!(front.check(), Ok(Held { places: 1, held_back: 1 }));
//! assert_eq!(front.withdraw(&mut table, ten, 1), Err(Refusal::NotHeld));
//!
//! // 4,000, and then 2,000, 1,000 and 500 by the ticks.
//! assert_eq!(front.announce(&mut table, ten, Candidate::via(6)), Ok(Update { hop: 6, cells: 0 }));
//! assert_eq!(table.lookup([10, 0, 0, 1].into())?.found, None);
//! let back: Vec<u32> = (0..3).map(|_| front.tick(&mut table).unwrap().held_back).collect();
//! assert_eq!(back, [1, 1, 0]);
//! assert_eq!(table.lookup([10, 0, 0, 1].into())?.found.unwrap().hop, 6);
//! # Ok(())
//! # }
//! ```

use core::fmt;
use core::net::Ipv4Addr;

use crate::{accepted, ffi, ran, updated, Candidate, Prefix, Ran, Refusal, Table, Update};

/// The words of a front.
pub const FRONT_WORDS: usize = 1_024;

/// The most places that a front has.
pub const MOST_PLACES: usize = 256;

/// A tick in a feed that goes through a front: the kind alone. Its reply is [`Reply::Done`](crate::Reply::Done) with hop 0 and
/// cells 0, and counts as no update. Without a front it stops a run.
pub const TICK: u8 = 9;

/// What the check and a tick count.
#[derive(Clone, Copy, Debug, PartialEq, Eq, Hash)]
pub struct Held {
    /// Places taken.
    pub places: u32,
    /// Candidates held back, with something kept or not.
    pub held_back: u32,
}

/// Makes the words a front without a place, whatever they hold.
///
/// # Errors
/// [`Refusal::NotATable`] where they are not [`FRONT_WORDS`].
pub fn clear(front: &mut [u32]) -> Result<(), Refusal> {
    accepted(unsafe { ffi::toggleash_damp_clear(front.as_mut_ptr(), front.len()) })
}

/// Tests whether the words are a front, and counts its places and who is held back.
///
/// # Errors
/// [`Refusal::NotATable`] where they are none, by their number or content.
pub fn check(front: &[u32]) -> Result<Held, Refusal> {
    counted(unsafe { ffi::toggleash_damp_check(front.as_ptr(), front.len()) })
}

/// Announces a candidate through a front, see [`announce`](crate::announce).
///
/// # Errors
/// As without a front, where [`Refusal::NotATable`] also means that the first words are no front.
pub fn announce(
    front: &mut [u32],
    words: &mut [u32],
    address: Ipv4Addr,
    length: u32,
    candidate: Candidate,
) -> Result<Update, Refusal> {
    let Candidate { hop, feed, preference } = candidate;
    let (f, m, w, n) = (front.as_mut_ptr(), front.len(), words.as_mut_ptr(), words.len());
    updated(unsafe { ffi::toggleash_damp_announce(f, m, w, n, address.into(), length, hop, feed, preference) })
}

/// Withdraws a candidate through a front, see [`withdraw`](crate::withdraw).
///
/// # Errors
/// As without a front, where [`Refusal::NotATable`] also means that the first words are no front, and [`Refusal::NotHeld`] that
/// the candidate is held back and nothing of it kept.
pub fn withdraw(
    front: &mut [u32],
    words: &mut [u32],
    address: Ipv4Addr,
    length: u32,
    feed: u32,
) -> Result<Update, Refusal> {
    let (f, m, w, n) = (front.as_mut_ptr(), front.len(), words.as_mut_ptr(), words.len());
    updated(unsafe { ffi::toggleash_damp_withdraw(f, m, w, n, address.into(), length, feed) })
}

/// A tick of a front before a table. Counts as [`check`] does after it.
///
/// It may install routes and tells none of them: after it a card drops the blocks that it remembers, and reloads its cells.
///
/// # Errors
/// [`Refusal::WordCount`]; [`Refusal::NotATable`] where the first words are no front, or the others no table.
pub fn tick(front: &mut [u32], words: &mut [u32]) -> Result<Held, Refusal> {
    let (f, m, w, n) = (front.as_mut_ptr(), front.len(), words.as_mut_ptr(), words.len());
    counted(unsafe { ffi::toggleash_damp_tick(f, m, w, n) })
}

/// Runs a feed through a front, see [`run`](crate::run): with ticks, [`TICK`].
///
/// # Errors
/// As those of [`tick`], before any record.
pub fn run(front: &mut [u32], words: &mut [u32], feed: &[u8], reply: &mut [u8]) -> Result<Ran, Refusal> {
    let (f, m, w, n) = (front.as_mut_ptr(), front.len(), words.as_mut_ptr(), words.len());
    let (reply, room) = (reply.as_mut_ptr(), reply.len());
    ran(unsafe { ffi::toggleash_damp_run(f, m, w, n, feed.as_ptr(), feed.len(), reply, room) })
}

/// As [`announce`], testing the front's words, and of the table's only what the announcement touches. Before a table it answers and
/// leaves the same words; so words from elsewhere are checked once, and these calls are for all that follows. Of a candidate that
/// is held back the table's words are not even read.
///
/// # Errors
/// As [`announce`], where [`Refusal::NotATable`] means that the first words are no front, or that what is touched is not as in a
/// table. A refused call has changed neither.
pub fn announce_local(
    front: &mut [u32],
    words: &mut [u32],
    address: Ipv4Addr,
    length: u32,
    candidate: Candidate,
) -> Result<Update, Refusal> {
    let Candidate { hop, feed, preference } = candidate;
    let (f, m, w, n) = (front.as_mut_ptr(), front.len(), words.as_mut_ptr(), words.len());
    updated(unsafe { ffi::toggleash_damp_announce_local(f, m, w, n, address.into(), length, hop, feed, preference) })
}

/// As [`withdraw`], testing what [`announce_local`] does.
///
/// # Errors
/// As [`withdraw`], where [`Refusal::NotATable`] is as of [`announce_local`].
pub fn withdraw_local(
    front: &mut [u32],
    words: &mut [u32],
    address: Ipv4Addr,
    length: u32,
    feed: u32,
) -> Result<Update, Refusal> {
    let (f, m, w, n) = (front.as_mut_ptr(), front.len(), words.as_mut_ptr(), words.len());
    updated(unsafe { ffi::toggleash_damp_withdraw_local(f, m, w, n, address.into(), length, feed) })
}

/// As [`tick`], testing the front's words, and of the table's only what each announcement touches; one that is refused is kept.
///
/// # Errors
/// [`Refusal::WordCount`]; [`Refusal::NotATable`] where the first words are no front.
pub fn tick_local(front: &mut [u32], words: &mut [u32]) -> Result<Held, Refusal> {
    let (f, m, w, n) = (front.as_mut_ptr(), front.len(), words.as_mut_ptr(), words.len());
    counted(unsafe { ffi::toggleash_damp_tick_local(f, m, w, n) })
}

/// As [`run`], testing the front's words once, and of the table's only what each record and tick touches.
///
/// # Errors
/// As those of [`tick_local`], before any record.
pub fn run_local(front: &mut [u32], words: &mut [u32], feed: &[u8], reply: &mut [u8]) -> Result<Ran, Refusal> {
    let (f, m, w, n) = (front.as_mut_ptr(), front.len(), words.as_mut_ptr(), words.len());
    let (reply, room) = (reply.as_mut_ptr(), reply.len());
    ran(unsafe { ffi::toggleash_damp_run_local(f, m, w, n, feed.as_ptr(), feed.len(), reply, room) })
}

fn counted(front: ffi::Front) -> Result<Held, Refusal> {
    accepted(front.refusal)?;
    Ok(Held { places: front.places, held_back: front.held_back })
}

/// Words that are a front.
///
/// `W` is what the words are kept in: `[u32; FRONT_WORDS]`, `Vec<u32>`, `Box<[u32]>`, `&mut [u32]`. A front can only be had of words
/// that are cleared or tested. A front stands before one table; what it holds back is of no meaning before another.
///
/// Its calls test the front's words, and of the table's only what they touch. That is enough: a [`Table`] keeps its words to itself,
/// so that they are one for as long as it lives, and before a table the local calls are those that test all of it.
#[derive(Clone)]
pub struct Front<W> {
    words: W,
}

impl<W: AsRef<[u32]>> Front<W> {
    /// The front that these words are.
    ///
    /// # Errors
    /// [`Refusal::NotATable`] where they are none.
    pub fn from_words(words: W) -> Result<Front<W>, Refusal> {
        check(words.as_ref())?;
        Ok(Front { words })
    }

    /// Its words.
    pub fn words(&self) -> &[u32] {
        self.words.as_ref()
    }

    /// What its words are kept in.
    pub fn into_words(self) -> W {
        self.words
    }

    /// Counts its places and who is held back.
    ///
    /// # Errors
    /// [`Refusal::NotATable`] only where something else has changed the words.
    pub fn check(&self) -> Result<Held, Refusal> {
        check(self.words())
    }
}

impl<W: AsRef<[u32]> + AsMut<[u32]>> Front<W> {
    /// Makes the words a front without a place, whatever they hold.
    ///
    /// # Errors
    /// [`Refusal::NotATable`] where they are not [`FRONT_WORDS`].
    pub fn new(mut words: W) -> Result<Front<W>, Refusal> {
        clear(words.as_mut())?;
        Ok(Front { words })
    }

    /// Announces a candidate to the table, or keeps it.
    ///
    /// # Errors
    /// [`Refusal::HopOutOfRange`], [`Refusal::FeedOutOfRange`]; [`Refusal::NoRoom`] unless it is kept.
    pub fn announce<T: AsRef<[u32]> + AsMut<[u32]>>(
        &mut self,
        table: &mut Table<T>,
        prefix: Prefix,
        candidate: Candidate,
    ) -> Result<Update, Refusal> {
        announce_local(self.words.as_mut(), table.words_mut(), prefix.address(), prefix.length().into(), candidate)
    }

    /// Withdraws a candidate from the table, or what is kept of it, and gives the hop that it had.
    ///
    /// # Errors
    /// [`Refusal::FeedOutOfRange`], [`Refusal::NotHeld`].
    pub fn withdraw<T: AsRef<[u32]> + AsMut<[u32]>>(
        &mut self,
        table: &mut Table<T>,
        prefix: Prefix,
        feed: u32,
    ) -> Result<Update, Refusal> {
        withdraw_local(self.words.as_mut(), table.words_mut(), prefix.address(), prefix.length().into(), feed)
    }

    /// Halves the penalties, announces to the table what may be, and counts as [`check`](Front::check) does after it.
    ///
    /// # Errors
    /// [`Refusal::NotATable`] only where something else has changed the words.
    pub fn tick<T: AsRef<[u32]> + AsMut<[u32]>>(&mut self, table: &mut Table<T>) -> Result<Held, Refusal> {
        tick_local(self.words.as_mut(), table.words_mut())
    }

    /// Takes the records and ticks of a feed in order and writes a reply to each but the end, see [`run`](crate::run). The
    /// front is tested once.
    ///
    /// ```
    /// use toggleash::damp::{Front, FRONT_WORDS, TICK};
    /// use toggleash::{replies, words_for, Record, Reply, Table};
    ///
    /// # fn main() -> Result<(), Box<dyn std::error::Error>> {
    /// let mut table = Table::new(vec![0; words_for(7).unwrap()])?;
    /// let mut front = Front::new([0; FRONT_WORDS])?;
    /// let mut feed: Vec<u8> = Record::announce("10.0.0.0/8".parse()?, 1).bytes().collect();
    /// feed.extend([TICK, 0]);
    /// let mut reply = [0; 2 * Reply::MOST];
    /// let ran = front.run(&mut table, &feed, &mut reply)?;
    /// assert_eq!((ran.consumed, ran.accepted), (feed.len(), 1));
    /// assert!(replies(&reply).eq([Reply::Done { hop: 1, cells: 1 }, Reply::Done { hop: 0, cells: 0 }]));
    /// # Ok(())
    /// # }
    /// ```
    ///
    /// # Errors
    /// [`Refusal::NotATable`] only where something else has changed the words.
    pub fn run<T: AsRef<[u32]> + AsMut<[u32]>>(
        &mut self,
        table: &mut Table<T>,
        feed: &[u8],
        reply: &mut [u8],
    ) -> Result<Ran, Refusal> {
        run_local(self.words.as_mut(), table.words_mut(), feed, reply)
    }
}

impl<W> fmt::Debug for Front<W> {
    fn fmt(&self, f: &mut fmt::Formatter<'_>) -> fmt::Result {
        write!(f, "Front of {FRONT_WORDS} words")
    }
}
