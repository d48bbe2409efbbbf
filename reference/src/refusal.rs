//! The refusals with their numbers.

/// Why a call refused.
#[derive(Clone, Copy, Debug, PartialEq, Eq)]
#[repr(u8)]
pub enum Refusal {
    /// The number of words is not a multiple of 3,072 from 6,144 to 12,585,984.
    WordCount = 1,
    /// The words are not a table, or the bytes not a list.
    NotATable = 2,
    /// The length is over an address's bits.
    TooLong = 3,
    /// A bit after the length is set.
    StrayBit = 4,
    /// The hop is 0 or over 65,535.
    HopOutOfRange = 5,
    /// The feed has no candidate for the prefix.
    NotHeld = 7,
    /// The prefix has no candidate, and the list with it needs more arrays than there are.
    NoRoom = 8,
    /// The buffer is too short for the written list, or the words are fewer than the copy needs.
    BufferShort = 9,
    /// The feed's number is not 1 to 4.
    FeedOutOfRange = 10,
    /// No route matches, in resolving.
    NoRoute = 20,
    /// More than 256 entries, or none for a hop, or one out of range.
    NoEntry = 21,
    /// No interface after four lookups.
    NoInterface = 22,
    /// No default route, for the shortest list.
    NoDefault = 23,
    /// A winning hop over 32, for the shortest list.
    HighHop = 24,
}

impl Refusal {
    /// Its number in replies and answers.
    pub fn number(self) -> u8 {
        self as u8
    }
}
