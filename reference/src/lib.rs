//! A plain implementation of the rules that docs/FEED.md and docs/COPY.md give, written from the rules alone, to compare the
//! proved one with.
//!
//! Candidates and routes are plain sorted lists. All is over any [`Address`], of IPv4 or of IPv6, but copies, resolving, compressed
//! tables, the shortest list and fronts, which are of IPv4. Nothing here knows the words of a table but [`layout`], which reads
//! docs/LAYOUT.md, nor those of a front but [`front::read`] and [`front::lay`], which read it too, nor those of a copy but [`copy`],
//! which reads docs/COPY.md, nor those of a compressed table but [`packed`], which reads docs/PACKED.md.

pub mod address;
pub mod candidates;
pub mod copy;
pub mod feed;
pub mod front;
pub mod layout;
pub mod list;
pub mod memory;
pub mod packed;
pub mod program;
pub mod refusal;
pub mod resolve;
pub mod rfc5952;
pub mod shortest;

pub use address::Address;
pub use candidates::{Candidate, CandidateList, FEEDS};
pub use feed::Ran;
pub use list::{Prefix, Route, RouteList};
pub use memory::{Counts, Lookup, Memory, Update};
pub use refusal::Refusal;
