//! From hop to interface: which interface the packets for an address leave by.
//!
//! A run of at most 256 entries says for each hop, the first for hop 1, an interface from 1 to 64, or a gateway to be looked up
//! in turn. The address is looked up, the entry of its hop is taken, and its gateway looked up, until an entry has an interface: at
//! most four lookups in all.
//!
//! ```
//! use toggleash::{words_for, Candidate, Hop, Refusal, Route, Table};
//!
//! # fn main() -> Result<(), Box<dyn std::error::Error>> {
//! let mut table = Table::new(vec![0; words_for(7).unwrap()])?;
//! table.announce("0.0.0.0/0".parse()?, Candidate::via(1))?;
//! table.announce("10.0.0.0/8".parse()?, Candidate::via(2))?;
//! table.announce("192.0.2.0/24".parse()?, Candidate::via(3))?;
//!
//! // Hop 1 is at the end of interface 1, hop 3 of interface 5; hop 2 is the gateway 192.0.2.9.
//! let entries = [Hop::at(1), Hop::by([192, 0, 2, 9].into()), Hop::at(5)];
//! assert_eq!(table.resolve(&entries, [8, 8, 8, 8].into()), Ok(Route { interface: 1, gateway: None }));
//! let route = Route { interface: 5, gateway: Some([192, 0, 2, 9].into()) };
//! assert_eq!(table.resolve(&entries, [10, 1, 5, 9].into()), Ok(route));
//! assert_eq!(table.resolve(&entries[..2], [10, 1, 5, 9].into()), Err(Refusal::NoEntry));
//! # Ok(())
//! # }
//! ```

use core::net::Ipv4Addr;

use crate::{accepted, ffi, Refusal};

/// The entry of a hop: an interface from 1 to 64, or 0 and a gateway. Beside an interface the gateway has no meaning.
#[repr(C)]
#[derive(Clone, Copy, Debug, PartialEq, Eq, Hash)]
pub struct Hop {
    /// From 1 to 64, or 0 for the gateway.
    pub interface: u32,
    /// Its address as a number, high byte first.
    pub gateway: u32,
}

impl Hop {
    /// A hop at the end of an interface.
    pub const fn at(interface: u32) -> Hop {
        Hop { interface, gateway: 0 }
    }

    /// A hop that is a gateway, to be looked up in turn.
    pub const fn by(gateway: Ipv4Addr) -> Hop {
        Hop { interface: 0, gateway: u32::from_be_bytes(gateway.octets()) }
    }
}

/// What resolving answers.
#[derive(Clone, Copy, Debug, PartialEq, Eq, Hash)]
pub struct Route {
    /// From 1 to 64.
    pub interface: u32,
    /// The last gateway used, none where the address's own hop has the interface.
    pub gateway: Option<Ipv4Addr>,
}

/// Resolves an address in words that may be a table or not: like [`lookup`](crate::lookup) it does not test them.
///
/// # Errors
/// [`Refusal::WordCount`]; then [`Refusal::NoEntry`] for more than 256 entries; then what is met first on the way:
/// [`Refusal::NotATable`] as a lookup gives it, [`Refusal::NoRoute`], [`Refusal::NoEntry`], or after the fourth lookup
/// [`Refusal::NoInterface`].
pub fn resolve(words: &[u32], entries: &[Hop], address: Ipv4Addr) -> Result<Route, Refusal> {
    let (entries, count) = (entries.as_ptr(), entries.len());
    let route = unsafe { ffi::toggleash_resolve(words.as_ptr(), words.len(), entries, count, address.into()) };
    accepted(route.refusal)?;
    let gateway = (route.has_gateway != 0).then_some(route.gateway.into());
    Ok(Route { interface: route.interface, gateway })
}
