//! Candidates, what feeds have announced for prefixes, in the order of writing out, and which of them win.

use crate::address::Address;
use crate::feed::{kind_of, Role};
use crate::list::{Prefix, Route, RouteList};

/// The feeds that may announce; there is no feed 0.
pub const FEEDS: u32 = 4;

/// What one feed has announced for a prefix.
#[derive(Clone, Copy, Debug, PartialEq, Eq)]
pub struct Candidate<A = u32> {
    pub prefix: Prefix<A>,
    /// From 1 to 4.
    pub feed: u32,
    pub preference: u8,
    pub hop: u32,
}

impl<A: Copy> Candidate<A> {
    /// Its place in the order of writing out, by which it is known.
    fn place(&self) -> (Prefix<A>, u32) {
        (self.prefix, self.feed)
    }

    /// Of a prefix's candidates the one with the lowest rank wins.
    fn rank(&self) -> (u8, u32) {
        (self.preference, self.feed)
    }
}

/// Candidates in the order of writing out, each prefix and feed at most once, and the winners beside them.
#[derive(Clone, Debug, Default, PartialEq, Eq)]
pub struct CandidateList<A = u32> {
    candidates: Vec<Candidate<A>>,
    winners: RouteList<A>,
}

impl<A: Address> CandidateList<A> {
    pub fn candidates(&self) -> &[Candidate<A>] {
        &self.candidates
    }

    /// A route for each prefix that has a candidate, by the hop of the one that wins.
    pub fn winners(&self) -> &RouteList<A> {
        &self.winners
    }

    fn find(&self, prefix: Prefix<A>, feed: u32) -> Result<usize, usize> {
        self.candidates.binary_search_by_key(&(prefix, feed), Candidate::place)
    }

    /// The feed's candidate for the prefix.
    pub fn held(&self, prefix: Prefix<A>, feed: u32) -> Option<Candidate<A>> {
        let at = self.find(prefix, feed).ok()?;
        Some(self.candidates[at])
    }

    /// All candidates of the prefix.
    pub fn of(&self, prefix: Prefix<A>) -> &[Candidate<A>] {
        let first = self.candidates.partition_point(|candidate| candidate.prefix < prefix);
        let rest = &self.candidates[first..];
        &rest[..rest.partition_point(|candidate| candidate.prefix == prefix)]
    }

    /// Holds the candidate, in place of the one that its feed had for its prefix.
    pub fn set(&mut self, candidate: Candidate<A>) {
        match self.find(candidate.prefix, candidate.feed) {
            Ok(at) => self.candidates[at] = candidate,
            Err(at) => self.candidates.insert(at, candidate),
        }
        self.settle(candidate.prefix);
    }

    /// Removes the feed's candidate for the prefix and gives it.
    pub fn remove(&mut self, prefix: Prefix<A>, feed: u32) -> Option<Candidate<A>> {
        let at = self.find(prefix, feed).ok()?;
        let removed = self.candidates.remove(at);
        self.settle(prefix);
        Some(removed)
    }

    /// The prefix's route among the winners becomes what its candidates make it.
    fn settle(&mut self, prefix: Prefix<A>) {
        match self.of(prefix).iter().min_by_key(|candidate| candidate.rank()).map(|winner| winner.hop) {
            Some(hop) => self.winners.set(prefix, hop),
            None => self.winners.remove(prefix),
        };
    }
}

/// In any order; of two by one feed for one prefix the later one counts.
impl<A: Address> From<Vec<Candidate<A>>> for CandidateList<A> {
    fn from(mut candidates: Vec<Candidate<A>>) -> Self {
        // What comes in order is added at the end, which costs little.
        candidates.sort_by_key(Candidate::place);
        let mut list = CandidateList::default();
        candidates.into_iter().for_each(|candidate| list.set(candidate));
        list
    }
}

/// Each route as what feed 1 has announced with preference 0.
impl<A: Address> From<&RouteList<A>> for CandidateList<A> {
    fn from(list: &RouteList<A>) -> Self {
        let candidate = |route: &Route<A>| Candidate { prefix: route.prefix, feed: 1, preference: 0, hop: route.hop };
        list.routes().iter().map(candidate).collect::<Vec<_>>().into()
    }
}

impl<A: Address> CandidateList<A> {
    /// The list as a feed of announcements that name their feeds, and an end.
    pub fn encoding(&self) -> Vec<u8> {
        let kind = kind_of::<A>(Role::AnnounceFor).expect("both families have one");
        let mut bytes = Vec::with_capacity(self.encoded_size());
        for candidate in &self.candidates {
            bytes.push(kind);
            bytes.extend(candidate.prefix.address.bytes());
            bytes.push(candidate.prefix.length as u8);
            bytes.extend((candidate.hop as u16).to_be_bytes());
            bytes.extend([candidate.feed as u8, candidate.preference]);
        }
        bytes.push(0);
        bytes
    }

    /// The bytes of that: 10 a candidate for IPv4, 22 for IPv6, and the end.
    pub fn encoded_size(&self) -> usize {
        (A::LEVELS as usize + 6) * self.candidates.len() + 1
    }
}
