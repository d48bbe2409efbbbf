//! What the calls answer, and why they refuse.

use core::error::Error;
use core::fmt;

/// Why a call refused. A refused call has changed nothing that was lent to it, but for the scratch of
/// [`shortest`](crate::shortest) after 9.
///
/// Where several apply, the first in this order is given: 1, 3, 4, 5, 10, 2, 7, 8 or 9. There is no 6. Those from 20 to 22 are
/// told by [`resolve`](crate::resolve) alone, 23 and 24 by [`shortest`](crate::shortest), before 9.
#[derive(Clone, Copy, Debug, PartialEq, Eq, Hash)]
#[repr(u8)]
pub enum Refusal {
    /// 1: the number of words is not a multiple of 3,072 from 6,144 to 12,585,984. From [`shortest`](crate::shortest) also: the
    /// scratch has fewer words than the table.
    WordCount = 1,
    /// 2: the words are not a table. [`lookup`](crate::lookup) does not test that; it gives 2 where a cell on its walk has a
    /// length over 8, no link and a block over 8, or a link to an array that the words do not have, as any link has at the
    /// last of the four levels, for IPv6 of the sixteen. Nor does [`within`](crate::within); it gives 2 where its walk meets
    /// a link to an array that the words do not have, or a total over 511 for each array of the words.
    ///
    /// From [`copy::need`](crate::copy::need) and [`copy::build`](crate::copy::build): the bytes are not one whole list of
    /// a table, of any room, in records of kind 4 or of kind 1 alone. From [`copy::lookup`](crate::copy::lookup): the words
    /// are fewer than 1,024, its walk meets a hash table that does not lie inside them, or it ends with a best match that no
    /// copy has. From [`packed::lookup`](crate::packed::lookup): its walk meets an entry outside the words, or a number that no
    /// compressed table has.
    NotATable = 2,
    /// 3: the length is over 32, or of a prefix of IPv6 over 128.
    LengthOver = 3,
    /// 4: a bit of the address after the length is set.
    StrayBit = 4,
    /// 5: the hop is 0 or over 65,535.
    HopOutOfRange = 5,
    /// 7: the feed has no candidate for the prefix.
    NotHeld = 7,
    /// 8: the prefix has no candidate, and the list with it needs more arrays than the words have.
    NoRoom = 8,
    /// 9: the buffer is too short for the written list; from [`copy::build`](crate::copy::build) and
    /// [`packed::build`](crate::packed::build): the words are fewer than the copy or the compressed table needs.
    BufferShort = 9,
    /// 10: the feed is not 1 to 4.
    FeedOutOfRange = 10,
    /// 20: no route matches the address, or a gateway.
    NoRoute = 20,
    /// 21: more than 256 entries; or a hop met has no entry, or one out of range.
    NoEntry = 21,
    /// 22: no interface after four lookups.
    NoInterface = 22,
    /// 23: the table has no default route.
    NoDefault = 23,
    /// 24: the winning hop of a prefix is over 32.
    HighHop = 24,
}

impl Refusal {
    /// What [`Refusal::LengthOver`] is for IPv4.
    #[allow(non_upper_case_globals)]
    pub const LengthOver32: Refusal = Refusal::LengthOver;

    const ALL: [Refusal; 14] = [
        Refusal::WordCount,
        Refusal::NotATable,
        Refusal::LengthOver,
        Refusal::StrayBit,
        Refusal::HopOutOfRange,
        Refusal::NotHeld,
        Refusal::NoRoom,
        Refusal::BufferShort,
        Refusal::FeedOutOfRange,
        Refusal::NoRoute,
        Refusal::NoEntry,
        Refusal::NoInterface,
        Refusal::NoDefault,
        Refusal::HighHop,
    ];

    /// The number, from 1 to 10 or 20 to 24, that replies and the calls of C give.
    pub fn number(self) -> u8 {
        self as u8
    }

    /// The refusal of this number.
    ///
    /// ```
    /// use toggleash::Refusal;
    ///
    /// assert_eq!(Refusal::from_number(8), Some(Refusal::NoRoom));
    /// assert_eq!(Refusal::from_number(6), None);
    /// ```
    pub fn from_number(number: u32) -> Option<Refusal> {
        Refusal::ALL.into_iter().find(|refusal| u32::from(refusal.number()) == number)
    }
}

impl fmt::Display for Refusal {
    fn fmt(&self, f: &mut fmt::Formatter<'_>) -> fmt::Result {
        let reason = match self {
            Refusal::WordCount => {
                "the number of words is not a multiple of 3,072 from 6,144 to 12,585,984, or the scratch has fewer"
            }
            Refusal::NotATable => "the words are not a table, a copy or a compressed table, or the bytes not a list",
            Refusal::LengthOver => "the length is over 32, or of a prefix of IPv6 over 128",
            Refusal::StrayBit => "a bit after the length is set",
            Refusal::HopOutOfRange => "the hop is 0 or over 65,535",
            Refusal::NotHeld => "the feed has no candidate for the prefix",
            Refusal::NoRoom => "the table has no room for the prefix",
            Refusal::BufferShort => {
                "the buffer is too short for the written list, or the words for the copy or the compressed table"
            }
            Refusal::FeedOutOfRange => "the feed is not 1 to 4",
            Refusal::NoRoute => "no route matches",
            Refusal::NoEntry => "more than 256 entries, or a hop without an entry, or with one out of range",
            Refusal::NoInterface => "no interface after four lookups",
            Refusal::NoDefault => "the table has no default route",
            Refusal::HighHop => "a winning hop is over 32",
        };
        write!(f, "refused {}: {reason}", self.number())
    }
}

impl Error for Refusal {}

/// What [`check`](crate::check) counts.
#[derive(Clone, Copy, Debug, PartialEq, Eq, Hash)]
pub struct Counts {
    /// Candidates held.
    pub routes: u32,
    /// Arrays that their prefixes need, the first one included.
    pub arrays: u32,
}

/// What [`lookup`](crate::lookup) answers.
#[derive(Clone, Copy, Debug, PartialEq, Eq, Hash)]
pub struct Lookup {
    /// The longest match, if any route matches.
    pub found: Option<Match>,
    /// How many of the address's first bits the answer may be remembered for, from 0 to 32, or for IPv6 to 128: while
    /// the table stays as it is, all addresses that share them get the same route, or all get none. It is the smallest such
    /// number.
    pub block: u32,
}

/// The longest match that [`lookup`](crate::lookup) or [`copy::lookup`](crate::copy::lookup) finds.
#[derive(Clone, Copy, Debug, PartialEq, Eq, Hash)]
pub struct Match {
    /// The route's hop, from 1 to 65,535.
    pub hop: u32,
    /// The route's length, from 0 to 32, or for IPv6 to 128.
    pub length: u32,
}

/// What an accepted update reports.
#[derive(Clone, Copy, Debug, PartialEq, Eq, Hash)]
pub struct Update {
    /// The hop announced, or the one that the withdrawn candidate had, whichever wins.
    pub hop: u32,
    /// The cells of the prefix's array that it covers and no longer prefix of that array does, from 0 to 256; 0 where the
    /// prefix has the same winning hop as before.
    pub cells: u32,
}

/// Why a run ended.
#[derive(Clone, Copy, Debug, PartialEq, Eq, Hash)]
#[repr(u8)]
pub enum Stop {
    /// 0: an end record, which is consumed.
    End = 0,
    /// 1: no byte was left.
    NoByteLeft = 1,
    /// 2: the next record's kind is none of the family: for IPv4 not 0 to 5, for IPv6 not 0 and not 6 to 8.
    UnknownKind = 2,
    /// 3: the next record's body is short.
    BodyShort = 3,
    /// 4: fewer than 5 reply bytes were free.
    ReplyFull = 4,
}

impl Stop {
    /// The number of the stop.
    pub fn number(self) -> u8 {
        self as u8
    }

    /// The stop of this number.
    pub fn from_number(number: u32) -> Option<Stop> {
        let all = [Stop::End, Stop::NoByteLeft, Stop::UnknownKind, Stop::BodyShort, Stop::ReplyFull];
        all.into_iter().find(|stop| u32::from(stop.number()) == number)
    }
}

impl fmt::Display for Stop {
    fn fmt(&self, f: &mut fmt::Formatter<'_>) -> fmt::Result {
        let reason = match self {
            Stop::End => "end",
            Stop::NoByteLeft => "no byte left",
            Stop::UnknownKind => "the next record's kind is not 0 to 5, or for IPv6 not 0 and not 6 to 8",
            Stop::BodyShort => "the next record's body is short",
            Stop::ReplyFull => "fewer than 5 reply bytes are free",
        };
        write!(f, "stopped {}: {reason}", self.number())
    }
}

/// What a run did.
#[derive(Clone, Copy, Debug, PartialEq, Eq, Hash)]
pub struct Ran {
    /// Why it ended.
    pub stop: Stop,
    /// Feed bytes taken; a record that stops the run is not, the end is.
    pub consumed: usize,
    /// Reply bytes written.
    pub written: usize,
    /// Updates accepted.
    pub accepted: usize,
    /// Records refused.
    pub refused: usize,
}
