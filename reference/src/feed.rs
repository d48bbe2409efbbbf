//! Feeds, replies and the run.

use crate::address::Address;
use crate::memory::{Lookup, Memory, Update};
use crate::refusal::Refusal;

/// The free reply bytes that every record but end asks for, whatever its reply takes.
pub(crate) const REPLY_ROOM: usize = 5;

/// What the records of a kind ask for, and whether they name their feed.
#[derive(Clone, Copy, Debug, PartialEq, Eq)]
pub enum Role {
    Announce,
    Withdraw,
    Lookup,
    AnnounceFor,
    WithdrawFor,
}

impl Role {
    /// The bytes of a body after its address.
    fn rest(self) -> usize {
        match self {
            Role::Lookup => 0,
            Role::Withdraw => 1,
            Role::WithdrawFor => 2,
            Role::Announce => 3,
            Role::AnnounceFor => 5,
        }
    }
}

/// One record of a feed: what it asks for, which two kinds of IPv4 say in two ways each.
#[derive(Clone, Copy, Debug, PartialEq, Eq)]
pub enum Record<A = u32> {
    End,
    Announce { address: A, length: u32, hop: u32, feed: u32, preference: u8 },
    Withdraw { address: A, length: u32, feed: u32 },
    Lookup { address: A },
}

/// What a record but end is answered.
#[derive(Clone, Copy, Debug, PartialEq, Eq)]
pub enum Answer<A = u32> {
    Done(Update),
    Looked(Lookup<A>),
    Refused(Refusal),
}

/// Why a run ended.
#[derive(Clone, Copy, Debug, PartialEq, Eq)]
#[repr(u8)]
pub enum Stop {
    End = 0,
    NoByteLeft = 1,
    UnknownKind = 2,
    BodyShort = 3,
    ReplyFull = 4,
}

/// The answer of a run.
#[derive(Clone, Copy, Debug, PartialEq, Eq)]
pub struct Ran {
    pub stop: Stop,
    pub consumed: usize,
    pub written: usize,
    pub accepted: usize,
    pub refused: usize,
}

/// The kind of a family's records with this role, if it has one.
pub fn kind_of<A: Address>(role: Role) -> Option<u8> {
    A::KINDS.iter().find(|kind| kind.1 == role).map(|kind| kind.0)
}

/// The first record and its size, or the stop that the feed itself gives.
pub(crate) fn first_record<A: Address>(feed: &[u8]) -> Result<(Record<A>, usize), Stop> {
    let (&first, body) = feed.split_first().ok_or(Stop::NoByteLeft)?;
    if first == 0 {
        return Ok((Record::End, 1));
    }
    let &(_, role) = A::KINDS.iter().find(|kind| kind.0 == first).ok_or(Stop::UnknownKind)?;
    let size = A::LEVELS as usize + role.rest();
    let body = body.get(..size).ok_or(Stop::BodyShort)?;
    Ok((record(role, body), 1 + size))
}

/// The record that a body is. One that names no feed is of feed 1, and announces with preference 0.
fn record<A: Address>(role: Role, body: &[u8]) -> Record<A> {
    let (address, rest) = body.split_at(A::LEVELS as usize);
    let address = A::of_bytes(address);
    let number = |at: usize| u32::from(rest[at]);
    let hop = || 256 * number(1) + number(2);
    match role {
        Role::Announce => Record::Announce { address, length: number(0), hop: hop(), feed: 1, preference: 0 },
        Role::AnnounceFor => {
            Record::Announce { address, length: number(0), hop: hop(), feed: number(3), preference: rest[4] }
        }
        Role::Withdraw => Record::Withdraw { address, length: number(0), feed: 1 },
        Role::WithdrawFor => Record::Withdraw { address, length: number(0), feed: number(1) },
        Role::Lookup => Record::Lookup { address },
    }
}

impl<A: Address> Answer<A> {
    /// The reply as bytes.
    pub fn encoding(self) -> Vec<u8> {
        let two = |number: u32| (number as u16).to_be_bytes();
        match self {
            Answer::Done(update) => [&[16][..], &two(update.hop), &two(update.cells)].concat(),
            Answer::Looked(Lookup { route: Some(route), block }) => {
                [&[17][..], &two(route.hop), &[route.prefix.length as u8, block as u8]].concat()
            }
            Answer::Looked(Lookup { route: None, block }) => vec![18, block as u8],
            Answer::Refused(refusal) => vec![19, refusal.number()],
        }
    }
}

impl<A: Address> Memory<A> {
    /// What one record does; end does nothing.
    fn take(&mut self, record: Record<A>) -> Option<Answer<A>> {
        let done = |result: Result<Update, Refusal>| result.map_or_else(Answer::Refused, Answer::Done);
        match record {
            Record::End => None,
            Record::Announce { address, length, hop, feed, preference } => {
                Some(done(self.announce(address, length, hop, feed, preference)))
            }
            Record::Withdraw { address, length, feed } => Some(done(self.withdraw(address, length, feed))),
            Record::Lookup { address } => Some(self.lookup(address).map_or_else(Answer::Refused, Answer::Looked)),
        }
    }

    /// Takes the records of a feed in order and replies to each.
    pub fn run(&mut self, feed: &[u8], reply: &mut [u8]) -> Result<Ran, Refusal> {
        self.run_and_tell(feed, reply, |_, _| ())
    }

    /// A run that also tells each record with its answer.
    pub fn run_and_tell(
        &mut self,
        feed: &[u8],
        reply: &mut [u8],
        mut tell: impl FnMut(Record<A>, Answer<A>),
    ) -> Result<Ran, Refusal> {
        self.list()?;
        Ok(run_by(feed, reply, |record| self.take(record).inspect(|&answer| tell(record, answer))))
    }
}

/// A run whose records are answered by the function, which has no answer to an end.
pub fn run_by<A: Address>(feed: &[u8], reply: &mut [u8], mut take: impl FnMut(Record<A>) -> Option<Answer<A>>) -> Ran {
    let mut ran = Ran { stop: Stop::End, consumed: 0, written: 0, accepted: 0, refused: 0 };
    loop {
        let (record, size) = match first_record(&feed[ran.consumed..]) {
            Ok(first) => first,
            Err(stop) => return Ran { stop, ..ran },
        };
        if record != Record::End && reply.len() - ran.written < REPLY_ROOM {
            return Ran { stop: Stop::ReplyFull, ..ran };
        }
        ran.consumed += size;
        let Some(answer) = take(record) else { return ran };
        let bytes = answer.encoding();
        reply[ran.written..ran.written + bytes.len()].copy_from_slice(&bytes);
        ran.written += bytes.len();
        ran.accepted += usize::from(matches!(answer, Answer::Done(_)));
        ran.refused += usize::from(matches!(answer, Answer::Refused(_)));
    }
}
