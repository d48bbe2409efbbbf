//! Which bytes are one whole written-out list, of any room, and the routes of it.

use crate::candidates::{Candidate, CandidateList, FEEDS};
use crate::list::{Prefix, Route, RouteList};
use crate::refusal::Refusal;

/// The routes that the bytes list: those of kind 1 records, or the winners of kind 4 records. Bytes of both kinds are
/// neither.
pub fn listed(bytes: &[u8]) -> Result<RouteList, Refusal> {
    let candidates = || candidates(bytes).map(|list| list.winners().clone());
    routes(bytes).or_else(candidates).ok_or(Refusal::NotATable)
}

/// The list of kind 1 records that the bytes are. They are what it encodes to, so records out of order or doubled, and
/// bytes short or past the end, show when it is encoded again.
fn routes(bytes: &[u8]) -> Option<RouteList> {
    let mut list = RouteList::default();
    for record in bytes.chunks_exact(8) {
        let &[1, a, b, c, d, length, high, low] = record else { return None };
        let Route { prefix, hop } = route([a, b, c, d], length, [high, low])?;
        list.set(prefix, hop);
    }
    (list.encoding() == bytes).then_some(list)
}

/// The list of kind 4 records that the bytes are, in the same way.
fn candidates(bytes: &[u8]) -> Option<CandidateList> {
    let mut list = CandidateList::default();
    for record in bytes.chunks_exact(10) {
        let &[4, a, b, c, d, length, high, low, feed, preference] = record else { return None };
        let Route { prefix, hop } = route([a, b, c, d], length, [high, low])?;
        let feed = Some(u32::from(feed)).filter(|feed| (1..=FEEDS).contains(feed))?;
        list.set(Candidate { prefix, feed, preference, hop });
    }
    (list.encoding() == bytes).then_some(list)
}

/// The route of these bytes, if they are one.
fn route(address: [u8; 4], length: u8, hop: [u8; 2]) -> Option<Route> {
    let (address, length) = (u32::from_be_bytes(address), Some(length).filter(|&length| length <= 32)?);
    let (prefix, hop) = (Prefix::around(address, length.into()), u16::from_be_bytes(hop).into());
    (prefix.address == address && hop != 0).then_some(Route { prefix, hop })
}
