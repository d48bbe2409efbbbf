//! Prefixes: an address and a length, as text and as a value.

use core::error::Error;
use core::fmt;
use core::net::{Ipv4Addr, Ipv6Addr};
use core::str::FromStr;

use crate::{Family, Refusal};

/// A prefix of IPv4, see [`PrefixOf`].
pub type Prefix = PrefixOf<Ipv4Addr>;

/// A prefix of IPv6, see [`PrefixOf`]. As text its address is in the form of RFC 5952.
///
/// ```
/// use toggleash::{Prefix6, PrefixError, Refusal};
///
/// # fn main() -> Result<(), PrefixError> {
/// let prefix: Prefix6 = "2001:0DB8:0:0::/32".parse()?;
/// assert_eq!(prefix.to_string(), "2001:db8::/32");
/// assert!(prefix.matches("2001:db8:ffff::1".parse().unwrap()));
/// assert_eq!("::/129".parse::<Prefix6>(), Err(PrefixError::Refused(Refusal::LengthOver)));
/// # Ok(())
/// # }
/// ```
pub type Prefix6 = PrefixOf<Ipv6Addr>;

/// An address of a family and a length from 0 to 32, or for IPv6 to 128, all bits after the length being 0.
///
/// Its order is that of writing out: lower address first, at equal address shorter length first.
///
/// ```
/// use toggleash::Prefix;
///
/// # fn main() -> Result<(), toggleash::PrefixError> {
/// let wide: Prefix = "10.0.0.0/8".parse()?;
/// let narrow: Prefix = "10.1.4.0/22".parse()?;
/// assert!(wide < narrow);
/// assert!(narrow.matches([10, 1, 5, 9].into()));
/// assert_eq!(narrow.to_string(), "10.1.4.0/22");
/// # Ok(())
/// # }
/// ```
#[derive(Clone, Copy, Debug, PartialEq, Eq, PartialOrd, Ord, Hash)]
pub struct PrefixOf<A> {
    address: A,
    length: u8,
}

impl<A: Family> PrefixOf<A> {
    /// The prefix of the default route: 0.0.0.0/0, or ::/0.
    pub const DEFAULT: PrefixOf<A> = PrefixOf { address: A::ZERO, length: 0 };

    /// The prefix of an address and a length.
    ///
    /// ```
    /// use toggleash::{Prefix, Refusal};
    ///
    /// assert_eq!(Prefix::new([0, 0, 0, 0].into(), 0), Ok(Prefix::DEFAULT));
    /// assert_eq!(Prefix::new([10, 0, 0, 1].into(), 33), Err(Refusal::LengthOver));
    /// assert_eq!(Prefix::new([10, 0, 0, 1].into(), 24), Err(Refusal::StrayBit));
    /// ```
    ///
    /// # Errors
    /// In this order [`Refusal::LengthOver`], [`Refusal::StrayBit`].
    pub fn new(address: A, length: u32) -> Result<PrefixOf<A>, Refusal> {
        let fits = |length: &u8| *length <= A::MOST_LENGTH;
        let length = u8::try_from(length).ok().filter(fits).ok_or(Refusal::LengthOver)?;
        match address.bits() & after(length) {
            0 => Ok(PrefixOf { address, length }),
            _ => Err(Refusal::StrayBit),
        }
    }

    /// Its address, all bits after the length being 0.
    pub fn address(self) -> A {
        self.address
    }

    /// Its length, from 0 to 32, or for IPv6 to 128.
    pub fn length(self) -> u8 {
        self.length
    }

    /// Whether the first bits of the address, as many as the length says, are those of the prefix.
    pub fn matches(self, address: A) -> bool {
        address.bits() & !after(self.length) == self.address.bits()
    }
}

/// The bits after a length of at most 128, of which an IPv4 address has the highest 32.
fn after(length: u8) -> u128 {
    u128::MAX.checked_shr(length.into()).unwrap_or(0)
}

impl<A: Family> fmt::Display for PrefixOf<A> {
    fn fmt(&self, f: &mut fmt::Formatter<'_>) -> fmt::Result {
        write!(f, "{}/{}", self.address, self.length)
    }
}

/// Why a text is no prefix.
#[derive(Clone, Copy, Debug, PartialEq, Eq, Hash)]
pub enum PrefixError {
    /// It has not the form address/length: for IPv4 a.b.c.d/length, in decimal numbers without needless zeros; for IPv6 an
    /// address in any form that [`Ipv6Addr`] reads, and the length so.
    Form,
    /// It has, and no route has this address and length: [`Refusal::LengthOver`] or [`Refusal::StrayBit`].
    Refused(Refusal),
}

impl fmt::Display for PrefixError {
    fn fmt(&self, f: &mut fmt::Formatter<'_>) -> fmt::Result {
        match self {
            PrefixError::Form => write!(f, "not a prefix of the form address/length"),
            PrefixError::Refused(refusal) => refusal.fmt(f),
        }
    }
}

impl Error for PrefixError {}

impl<A: Family> FromStr for PrefixOf<A> {
    type Err = PrefixError;

    fn from_str(text: &str) -> Result<PrefixOf<A>, PrefixError> {
        let (address, length) = text.split_once('/').ok_or(PrefixError::Form)?;
        let address = address.parse().map_err(|_| PrefixError::Form)?;
        let needless = length.len() > 1 && length.starts_with('0');
        if length.is_empty() || needless || !length.bytes().all(|byte| byte.is_ascii_digit()) {
            return Err(PrefixError::Form);
        }
        // Digits alone: what is no u32 is too large for one.
        PrefixOf::new(address, length.parse().unwrap_or(u32::MAX)).map_err(PrefixError::Refused)
    }
}
