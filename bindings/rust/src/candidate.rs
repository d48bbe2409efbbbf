//! What a feed announces for a prefix.

/// A hop that a feed announces for a prefix, with a preference.
///
/// A prefix holds up to four, one for each feed 1 to 4. The one with the lowest preference wins, at equal preference that of
/// the lowest feed. The winners are the routes that lookups and copies know. Any hop and feed may be given; those out of their
/// range are refused.
///
/// ```
/// use toggleash::{words_for, Candidate, Match, Table, Update};
///
/// # fn main() -> Result<(), Box<dyn std::error::Error>> {
/// let mut table = Table::new(vec![0; words_for(7).unwrap()])?;
/// let prefix = "10.0.0.0/8".parse()?;
/// table.announce(prefix, Candidate { hop: 5, feed: 1, preference: 10 })?;
/// table.announce(prefix, Candidate { hop: 6, feed: 2, preference: 5 })?;
/// assert_eq!(table.lookup([10, 1, 5, 9].into())?.found, Some(Match { hop: 6, length: 8 }));
///
/// // A loser changes nothing for the card. The winner withdrawn, the other one is there.
/// let worse = table.announce(prefix, Candidate { hop: 7, feed: 3, preference: 255 })?;
/// assert_eq!(worse, Update { hop: 7, cells: 0 });
/// table.withdraw(prefix, 2)?;
/// assert_eq!(table.lookup([10, 1, 5, 9].into())?.found, Some(Match { hop: 5, length: 8 }));
/// # Ok(())
/// # }
/// ```
#[derive(Clone, Copy, Debug, PartialEq, Eq, Hash)]
pub struct Candidate {
    /// From 1 to 65,535.
    pub hop: u32,
    /// From 1 to 4.
    pub feed: u32,
    /// The lowest wins.
    pub preference: u8,
}

impl Candidate {
    /// The one of feed 1 with preference 0, which is what a record of kind 1 announces: for a caller that hears each prefix
    /// from one side alone.
    pub const fn via(hop: u32) -> Candidate {
        Candidate { hop, feed: 1, preference: 0 }
    }
}
