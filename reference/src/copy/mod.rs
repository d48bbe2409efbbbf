//! A reading of docs/COPY.md: which bytes are a list and of which routes, what their copy needs, when words are a copy of
//! them, and what the lookup's walk gives on any words.

mod listed;
mod marks;
mod stands;
mod walk;
mod way;

pub use listed::listed;
pub use marks::markers;
pub use stands::{header, kept, stands};
pub use walk::walk;
pub use way::turns;

use crate::list::RouteList;
use crate::refusal::Refusal;

/// The words before the first table.
pub const HEADER: usize = 1024;

/// What a build counts.
#[derive(Clone, Copy, Debug, PartialEq, Eq)]
pub struct Built {
    pub routes: usize,
    pub markers: usize,
}

impl Built {
    pub fn of(list: &RouteList) -> Built {
        Built { routes: list.routes().len(), markers: markers(list).len() }
    }

    /// The words that the copy needs.
    pub fn need(self) -> usize {
        8 * (self.routes + self.markers) + HEADER
    }
}

/// The words that a copy of the bytes needs.
pub fn need(bytes: &[u8]) -> Result<usize, Refusal> {
    Ok(Built::of(&listed(bytes)?).need())
}

/// What a build from the bytes into so many words answers.
pub fn build(bytes: &[u8], words: usize) -> Result<Built, Refusal> {
    let built = Built::of(&listed(bytes)?);
    match words < built.need() {
        true => Err(Refusal::BufferShort),
        false => Ok(built),
    }
}
