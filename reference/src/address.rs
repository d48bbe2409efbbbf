//! What the rules ask of an address. Two families differ in nothing else.

use std::fmt::{Debug, Display};
use std::hash::Hash;
use std::net::Ipv4Addr;
use std::ops::{BitAnd, BitOr, Not};

use crate::feed::Role;
use crate::rfc5952;

/// An address as a number, whose order is that of writing out.
pub trait Address:
    Copy + Debug + Default + Ord + Hash + BitAnd<Output = Self> + BitOr<Output = Self> + Not<Output = Self>
{
    /// The longest length of a prefix.
    const BITS: u32;

    /// The levels, one for each byte.
    const LEVELS: u32 = Self::BITS / 8;

    /// The kinds of a feed's records, but for the end, which both families have.
    const KINDS: &'static [(u8, Role)];

    /// The arrays of the table that the family's program has.
    const PROGRAM_ARRAYS: usize;

    /// The bits that a prefix of this length fixes.
    fn mask(length: u32) -> Self;

    /// The byte that names the cell on this level, the first on level 0.
    fn byte(self, level: u32) -> usize;

    /// The address after this one, if it is not the last.
    fn next(self) -> Option<Self>;

    /// The bytes, as records have them: from level 0 on.
    fn bytes(self) -> Vec<u8>;

    /// The address of these bytes, of which there must be one for each level.
    fn of_bytes(bytes: &[u8]) -> Self;

    /// The address that has this byte on this level, and is 0 on all others.
    fn with_byte(byte: u8, level: u32) -> Self;

    /// As the program prints it.
    fn text(self) -> impl Display;
}

macro_rules! address {
    ($number:ty, $kinds:expr, $arrays:expr, $text:expr) => {
        impl Address for $number {
            const BITS: u32 = <$number>::BITS;
            const KINDS: &'static [(u8, Role)] = &$kinds;
            const PROGRAM_ARRAYS: usize = $arrays;

            // A shift by all bits is not a number, so length 0 is a case of its own.
            fn mask(length: u32) -> Self {
                match length {
                    0 => 0,
                    _ => <$number>::MAX << (Self::BITS - length),
                }
            }

            fn byte(self, level: u32) -> usize {
                self.to_be_bytes()[level as usize].into()
            }

            fn next(self) -> Option<Self> {
                self.checked_add(1)
            }

            fn bytes(self) -> Vec<u8> {
                self.to_be_bytes().to_vec()
            }

            fn of_bytes(bytes: &[u8]) -> Self {
                Self::from_be_bytes(bytes.try_into().expect("a byte for each level"))
            }

            fn with_byte(byte: u8, level: u32) -> Self {
                Self::from(byte) << (Self::BITS - 8 * (level + 1))
            }

            fn text(self) -> impl Display {
                $text(self)
            }
        }
    };
}

// IPv4 and IPv6.
address!(
    u32,
    [(1, Role::Announce), (2, Role::Withdraw), (3, Role::Lookup), (4, Role::AnnounceFor), (5, Role::WithdrawFor),],
    3,
    Ipv4Addr::from
);
address!(u128, [(6, Role::AnnounceFor), (7, Role::WithdrawFor), (8, Role::Lookup)], 17, rfc5952::text);
