//! The bytes of feeds and of replies: docs/FEED.md in the repository says what they are.

use core::marker::PhantomData;
use core::net::{Ipv4Addr, Ipv6Addr};

use crate::{Family, PrefixOf, Refusal, Stop};

/// A record of an IPv4 feed, see [`RecordOf`].
pub type Record = RecordOf<Ipv4Addr>;

/// A record of an IPv6 feed, see [`RecordOf`].
///
/// ```
/// use toggleash::{Prefix6, Record6, Stop};
///
/// let lookup = Record6::Lookup { address: "2001:db8::1".parse().unwrap() };
/// let feed: Vec<u8> = lookup.bytes().chain(Record6::End.bytes()).collect();
/// assert_eq!(feed, [8, 0x20, 0x01, 0x0d, 0xb8, 0, 0, 0, 0, 0, 0, 0, 0, 0, 0, 0, 1, 0]);
/// assert_eq!(Record6::decode(&feed), Ok((lookup, &feed[17..])));
/// assert_eq!(Record6::decode(&[3, 10, 1, 5, 9]), Err(Stop::UnknownKind));
///
/// // There is no kind for feed 1 alone: an announcement names its feed and preference.
/// let announce = Record6::announce(Prefix6::DEFAULT, 258);
/// assert!(announce.bytes().eq(Record6::announce_for(Prefix6::DEFAULT, 258, 1, 0).bytes()));
/// ```
pub type Record6 = RecordOf<Ipv6Addr>;

/// A record of a feed of a family: [`Record`] for IPv4, [`Record6`] for IPv6.
///
/// Any address, length, hop and feed can be sent; those that no candidate has are replied to by a [`Refusal`].
///
/// ```
/// use toggleash::{Prefix, Record, Stop};
///
/// let announce = Record::announce(Prefix::DEFAULT, 258);
/// let feed: Vec<u8> = announce.bytes().chain(Record::End.bytes()).collect();
/// assert_eq!(feed, [1, 0, 0, 0, 0, 0, 1, 2, 0]);
/// assert_eq!(Record::decode(&feed), Ok((announce, &feed[8..])));
/// assert_eq!(Record::decode(&feed[..7]), Err(Stop::BodyShort));
/// ```
#[derive(Clone, Copy, Debug, PartialEq, Eq, Hash)]
pub enum RecordOf<A> {
    /// Kind 0: the end.
    End,
    /// Kind 1: what kind 4 is for feed 1 with preference 0. An IPv6 feed has no such kind: its bytes there are those of
    /// [`AnnounceFor`](RecordOf::AnnounceFor), and they are read as that.
    Announce {
        /// The prefix's address.
        address: A,
        /// The prefix's length.
        length: u8,
        /// The candidate's hop.
        hop: u16,
    },
    /// Kind 2: what kind 5 is for feed 1. An IPv6 feed has no such kind: its bytes there are those of
    /// [`WithdrawFor`](RecordOf::WithdrawFor), and they are read as that.
    Withdraw {
        /// The prefix's address.
        address: A,
        /// The prefix's length.
        length: u8,
    },
    /// Kind 3, or 8 for IPv6: find the longest match of an address.
    Lookup {
        /// The address.
        address: A,
    },
    /// Kind 4, or 6 for IPv6: give a feed this candidate for a prefix, in place of the one that it had.
    AnnounceFor {
        /// The prefix's address.
        address: A,
        /// The prefix's length.
        length: u8,
        /// The candidate's hop.
        hop: u16,
        /// The feed's number.
        feed: u8,
        /// The candidate's preference.
        preference: u8,
    },
    /// Kind 5, or 7 for IPv6: remove a feed's candidate for a prefix.
    WithdrawFor {
        /// The prefix's address.
        address: A,
        /// The prefix's length.
        length: u8,
        /// The feed's number.
        feed: u8,
    },
}

/// The bytes of a record beside its address, at most: kind, length, hop, feed and preference.
const BESIDE: usize = 6;

impl<A: Family> RecordOf<A> {
    /// The bytes of the longest record: 10, or 22 for IPv6.
    pub const MOST: usize = A::BYTES + BESIDE;

    /// The bytes of a written-out list of so many candidates, the routes of [`Counts`](crate::Counts).
    ///
    /// ```
    /// use toggleash::{Record, Record6};
    ///
    /// assert_eq!((Record::written_bytes(3), Record6::written_bytes(3)), (31, 67));
    /// ```
    pub const fn written_bytes(candidates: usize) -> usize {
        Self::MOST * candidates + 1
    }

    /// An announcement by feed 1 with preference 0.
    pub fn announce(prefix: PrefixOf<A>, hop: u16) -> RecordOf<A> {
        RecordOf::Announce { address: prefix.address(), length: prefix.length(), hop }
    }

    /// A withdrawal by feed 1.
    pub fn withdraw(prefix: PrefixOf<A>) -> RecordOf<A> {
        RecordOf::Withdraw { address: prefix.address(), length: prefix.length() }
    }

    /// An announcement by a feed.
    pub fn announce_for(prefix: PrefixOf<A>, hop: u16, feed: u8, preference: u8) -> RecordOf<A> {
        RecordOf::AnnounceFor { address: prefix.address(), length: prefix.length(), hop, feed, preference }
    }

    /// A withdrawal by a feed.
    pub fn withdraw_for(prefix: PrefixOf<A>, feed: u8) -> RecordOf<A> {
        RecordOf::WithdrawFor { address: prefix.address(), length: prefix.length(), feed }
    }

    /// The record's bytes: its kind and its body, the high byte of a number first.
    pub fn bytes(self) -> impl ExactSizeIterator<Item = u8> + Clone {
        match self {
            RecordOf::End => front([0; Record6::MOST], 1),
            RecordOf::Announce { address, length, hop } => {
                let [high, low] = hop.to_be_bytes();
                match A::ANNOUNCE {
                    Some(kind) => record(kind, address, [length, high, low]),
                    None => record(A::ANNOUNCE_FOR, address, [length, high, low, 1, 0]),
                }
            }
            RecordOf::Withdraw { address, length } => match A::WITHDRAW {
                Some(kind) => record(kind, address, [length]),
                None => record(A::WITHDRAW_FOR, address, [length, 1]),
            },
            RecordOf::Lookup { address } => record(A::LOOKUP, address, []),
            RecordOf::AnnounceFor { address, length, hop, feed, preference } => {
                let [high, low] = hop.to_be_bytes();
                record(A::ANNOUNCE_FOR, address, [length, high, low, feed, preference])
            }
            RecordOf::WithdrawFor { address, length, feed } => record(A::WITHDRAW_FOR, address, [length, feed]),
        }
    }

    /// The first record of a feed, and the bytes after it.
    ///
    /// # Errors
    /// The stop of a run that comes here, but for its reply bytes: [`Stop::NoByteLeft`], [`Stop::UnknownKind`] or
    /// [`Stop::BodyShort`].
    pub fn decode(feed: &[u8]) -> Result<(RecordOf<A>, &[u8]), Stop> {
        let (&kind, rest) = feed.split_first().ok_or(Stop::NoByteLeft)?;
        match kind {
            0 => Ok((RecordOf::End, rest)),
            _ if A::ANNOUNCE == Some(kind) => body(rest).map(|(address, [length, high, low], rest)| {
                (RecordOf::Announce { address, length, hop: u16::from_be_bytes([high, low]) }, rest)
            }),
            _ if A::WITHDRAW == Some(kind) => {
                body(rest).map(|(address, [length], rest)| (RecordOf::Withdraw { address, length }, rest))
            }
            _ if A::LOOKUP == kind => body(rest).map(|(address, [], rest)| (RecordOf::Lookup { address }, rest)),
            _ if A::ANNOUNCE_FOR == kind => body(rest).map(|(address, [length, high, low, feed, preference], rest)| {
                let hop = u16::from_be_bytes([high, low]);
                (RecordOf::AnnounceFor { address, length, hop, feed, preference }, rest)
            }),
            _ if A::WITHDRAW_FOR == kind => body(rest)
                .map(|(address, [length, feed], rest)| (RecordOf::WithdrawFor { address, length, feed }, rest)),
            _ => Err(Stop::UnknownKind),
        }
    }

    /// The records of a feed up to its stop, an end not given.
    ///
    /// ```
    /// use toggleash::{Prefix6, Record6, Stop};
    ///
    /// let feed: Vec<u8> = Record6::announce_for(Prefix6::DEFAULT, 1, 4, 0).bytes().chain([3]).collect();
    /// let mut records = Record6::all(&feed);
    /// assert_eq!(records.next(), Some(Record6::announce_for(Prefix6::DEFAULT, 1, 4, 0)));
    /// assert_eq!((records.next(), records.stop()), (None, Some(Stop::UnknownKind)));
    /// ```
    pub fn all(feed: &[u8]) -> Records<'_, A> {
        Records { rest: feed, stop: None, family: PhantomData }
    }
}

/// The records of an IPv4 feed up to its stop, an end not given.
///
/// ```
/// use toggleash::{records, Prefix, Record, Stop};
///
/// let mut records = records(&[1, 10, 0, 0, 0, 8, 0, 1, 0, 99]);
/// assert_eq!(records.next(), Some(Record::announce("10.0.0.0/8".parse().unwrap(), 1)));
/// assert_eq!(records.next(), None);
/// assert_eq!(records.stop(), Some(Stop::End));
/// ```
pub fn records(feed: &[u8]) -> Records<'_> {
    Record::all(feed)
}

/// What [`records`] gives, and [`RecordOf::all`] for a family.
#[derive(Clone, Debug)]
pub struct Records<'a, A = Ipv4Addr> {
    rest: &'a [u8],
    stop: Option<Stop>,
    family: PhantomData<A>,
}

impl<A> Records<'_, A> {
    /// Why the records ended; none while there may be more.
    pub fn stop(&self) -> Option<Stop> {
        self.stop
    }
}

impl<A: Family> Iterator for Records<'_, A> {
    type Item = RecordOf<A>;

    fn next(&mut self) -> Option<RecordOf<A>> {
        if self.stop.is_some() {
            return None;
        }
        match RecordOf::decode(self.rest) {
            Ok((RecordOf::End, _)) => self.stop = Some(Stop::End),
            Ok((record, rest)) => {
                self.rest = rest;
                return Some(record);
            }
            Err(stop) => self.stop = Some(stop),
        }
        None
    }
}

/// A reply of a run to one record.
///
/// ```
/// use toggleash::{Refusal, Reply};
///
/// let bytes = [17, 0, 2, 22, 24, 19, 7];
/// let (reply, rest) = Reply::decode(&bytes).unwrap();
/// assert_eq!(reply, Reply::Found { hop: 2, length: 22, block: 24 });
/// assert_eq!(Reply::decode(rest), Some((Reply::Refused(Refusal::NotHeld), &[][..])));
/// assert!(reply.bytes().eq([17, 0, 2, 22, 24]));
/// ```
#[derive(Clone, Copy, Debug, PartialEq, Eq, Hash)]
pub enum Reply {
    /// Kind 16: an update was accepted.
    Done {
        /// The hop announced, or the one that the withdrawn candidate had, whichever wins.
        hop: u16,
        /// The cells of the prefix's array that it covers and no longer prefix of that array does; 0 where the prefix has
        /// the same winning hop as before.
        cells: u16,
    },
    /// Kind 17: a route matches.
    Found {
        /// The hop of the longest match.
        hop: u16,
        /// Its length.
        length: u8,
        /// How many of the address's first bits the answer may be remembered for, see [`Lookup`](crate::Lookup).
        block: u8,
    },
    /// Kind 18: no route matches.
    None {
        /// How many of the address's first bits the answer may be remembered for, see [`Lookup`](crate::Lookup).
        block: u8,
    },
    /// Kind 19: the record was refused.
    Refused(Refusal),
}

impl Reply {
    /// The bytes of the longest reply: so many for each record are always enough.
    pub const MOST: usize = 5;

    /// The reply's bytes: its kind and its body, the high byte of a number first.
    pub fn bytes(self) -> impl ExactSizeIterator<Item = u8> + Clone {
        match self {
            Reply::Done { hop, cells } => {
                let ([high, low], [more, less]) = (hop.to_be_bytes(), cells.to_be_bytes());
                front([16, high, low, more, less], 5)
            }
            Reply::Found { hop, length, block } => {
                let [high, low] = hop.to_be_bytes();
                front([17, high, low, length, block], 5)
            }
            Reply::None { block } => front([18, block, 0, 0, 0], 2),
            Reply::Refused(refusal) => front([19, refusal.number(), 0, 0, 0], 2),
        }
    }

    /// The first reply of these bytes, and those after it; none where they do not begin with a whole one.
    pub fn decode(bytes: &[u8]) -> Option<(Reply, &[u8])> {
        let (kind, rest) = bytes.split_first()?;
        match kind {
            16 => take(rest).map(|([high, low, more, less], rest)| {
                let (hop, cells) = (u16::from_be_bytes([high, low]), u16::from_be_bytes([more, less]));
                (Reply::Done { hop, cells }, rest)
            }),
            17 => take(rest).map(|([high, low, length, block], rest)| {
                (Reply::Found { hop: u16::from_be_bytes([high, low]), length, block }, rest)
            }),
            18 => take(rest).map(|([block], rest)| (Reply::None { block }, rest)),
            19 => {
                let ([number], rest) = take(rest)?;
                Some((Reply::Refused(Refusal::from_number(number.into())?), rest))
            }
            _ => None,
        }
    }
}

/// The replies that a run wrote: those of the bytes before [`Ran::written`](crate::Ran::written), up to what is no reply.
///
/// ```
/// use toggleash::{replies, Reply};
///
/// assert!(replies(&[18, 8, 16, 0, 1, 0, 4]).eq([Reply::None { block: 8 }, Reply::Done { hop: 1, cells: 4 }]));
/// ```
pub fn replies(bytes: &[u8]) -> Replies<'_> {
    Replies { rest: bytes }
}

/// What [`replies`] gives.
#[derive(Clone, Debug)]
pub struct Replies<'a> {
    rest: &'a [u8],
}

impl<'a> Replies<'a> {
    /// The bytes not read yet: none after the last reply of a run.
    pub fn rest(&self) -> &'a [u8] {
        self.rest
    }
}

impl Iterator for Replies<'_> {
    type Item = Reply;

    fn next(&mut self) -> Option<Reply> {
        let (reply, rest) = Reply::decode(self.rest)?;
        self.rest = rest;
        Some(reply)
    }
}

/// A record's kind and body: an address, then N bytes.
fn record<A: Family, const N: usize>(kind: u8, address: A, rest: [u8; N]) -> Front<{ Record6::MOST }> {
    let mut bytes = [0; Record6::MOST];
    let (to, end) = (1 + A::BYTES, 1 + A::BYTES + N);
    bytes[0] = kind;
    bytes[1..to].copy_from_slice(&address.bits().to_be_bytes()[..A::BYTES]);
    bytes[to..end].copy_from_slice(&rest);
    front(bytes, end)
}

/// A record's body, of N bytes after its address, and the bytes after it.
fn body<A: Family, const N: usize>(bytes: &[u8]) -> Result<(A, [u8; N], &[u8]), Stop> {
    let (address, rest) = A::read(bytes).ok_or(Stop::BodyShort)?;
    let (body, rest) = take(rest).ok_or(Stop::BodyShort)?;
    Ok((address, body, rest))
}

/// The first bytes of N.
type Front<const N: usize> = core::iter::Take<core::array::IntoIter<u8, N>>;

fn front<const N: usize>(bytes: [u8; N], count: usize) -> Front<N> {
    bytes.into_iter().take(count)
}

/// The first bytes and the rest; none where they are too few.
fn take<const N: usize>(bytes: &[u8]) -> Option<([u8; N], &[u8])> {
    bytes.split_first_chunk().map(|(first, rest)| (*first, rest))
}
