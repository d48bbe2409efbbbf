//! From hop to interface: the address looked up, the entry of its hop taken, its gateway looked up in turn.

use crate::refusal::Refusal;

/// The most entries of a run, the greatest interface, and the most lookups.
pub const MOST_ENTRIES: usize = 256;
pub const MOST_INTERFACE: u32 = 64;
pub const MOST_LOOKUPS: usize = 4;

/// An entry: an interface, or 0 and a gateway.
#[derive(Clone, Copy, Debug, PartialEq, Eq)]
pub struct Entry {
    pub interface: u32,
    pub gateway: u32,
}

/// What resolving answers.
#[derive(Clone, Copy, Debug, PartialEq, Eq)]
pub struct Reached {
    pub interface: u32,
    /// The last one used.
    pub gateway: Option<u32>,
}

/// Resolves an address where `hop` tells the hop of an address, if any. `fits` says that the number of words is right.
pub fn resolve(
    fits: bool,
    hop: impl Fn(u32) -> Result<Option<u32>, Refusal>,
    entries: &[Entry],
    address: u32,
) -> Result<Reached, Refusal> {
    if !fits {
        return Err(Refusal::WordCount);
    }
    if entries.len() > MOST_ENTRIES {
        return Err(Refusal::NoEntry);
    }
    let mut gateways = Vec::new();
    for _ in 0..MOST_LOOKUPS {
        let asked = gateways.last().copied().unwrap_or(address);
        let hop = hop(asked)?.ok_or(Refusal::NoRoute)?;
        let at = (hop as usize).checked_sub(1).ok_or(Refusal::NoEntry)?;
        match entries.get(at) {
            Some(Entry { interface: 0, gateway }) => gateways.push(*gateway),
            Some(&Entry { interface: interface @ 1..=MOST_INTERFACE, .. }) => {
                return Ok(Reached { interface, gateway: gateways.last().copied() });
            }
            _ => return Err(Refusal::NoEntry),
        }
    }
    Err(Refusal::NoInterface)
}
