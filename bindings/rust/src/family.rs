//! The two families: what a table's addresses are, and the calls for them.

use core::fmt::{Debug, Display};
use core::hash::Hash;
use core::net::{Ipv4Addr, Ipv6Addr};
use core::str::FromStr;

use crate::{accepted, count, ffi, matched, ran, updated, Candidate, Counts, Lookup, Ran, Refusal, Update};

/// The family of a table, by what its addresses are: [`Ipv4Addr`] or [`Ipv6Addr`].
///
/// Its functions are the calls on words, which need not be a table of the family. Those of IPv4 stand in this crate's root
/// too, where it is told what each does. Those of IPv6 do the same with lengths to 128 and sixteen levels, and with feeds of
/// kinds 0 and 6 to 8: a list that they write out has records of kind 6, of 22 bytes.
///
/// ```
/// use std::net::{Ipv4Addr, Ipv6Addr};
/// use toggleash::{words_for, Candidate, Family, Refusal};
///
/// /// A table that has a default route alone.
/// fn default_alone<A: Family>(zero: A) -> Result<Vec<u32>, Refusal> {
///     let mut words = vec![0; words_for(1).unwrap()];
///     A::clear(&mut words)?;
///     A::announce(&mut words, zero, 0, Candidate::via(7))?;
///     Ok(words)
/// }
///
/// # fn main() -> Result<(), Refusal> {
/// let four = default_alone(Ipv4Addr::UNSPECIFIED)?;
/// assert_eq!(Ipv4Addr::lookup(&four, Ipv4Addr::LOCALHOST)?.found.unwrap().hop, 7);
/// let six = default_alone(Ipv6Addr::UNSPECIFIED)?;
/// assert_eq!(Ipv6Addr::lookup(&six, Ipv6Addr::LOCALHOST)?.found.unwrap().hop, 7);
/// assert_eq!(Ipv6Addr::within(&six, Ipv6Addr::LOCALHOST, 129), Err(Refusal::LengthOver));
/// # Ok(())
/// # }
/// ```
pub trait Family: Copy + Ord + Hash + Debug + Display + FromStr + Send + Sync + 'static + Address {
    /// The length of the longest prefix: 32 or 128.
    const MOST_LENGTH: u8 = (8 * Self::BYTES) as u8;

    /// See [`clear`](crate::clear).
    ///
    /// # Errors
    /// As there.
    fn clear(words: &mut [u32]) -> Result<(), Refusal> {
        accepted(unsafe { (Self::CALLS.clear)(words.as_mut_ptr(), words.len()) })
    }

    /// See [`check`](crate::check).
    ///
    /// # Errors
    /// As there.
    fn check(words: &[u32]) -> Result<Counts, Refusal> {
        let counts = unsafe { (Self::CALLS.check)(words.as_ptr(), words.len()) };
        accepted(counts.refusal)?;
        Ok(Counts { routes: counts.routes, arrays: counts.arrays })
    }

    /// See [`lookup`](crate::lookup).
    ///
    /// # Errors
    /// As there.
    fn lookup(words: &[u32], address: Self) -> Result<Lookup, Refusal> {
        let answer = unsafe { (Self::CALLS.lookup)(words.as_ptr(), words.len(), address.passed()) };
        accepted(answer.refusal)?;
        Ok(Lookup { found: matched(answer.found, answer.hop, answer.length), block: answer.block })
    }

    /// See [`within`](crate::within).
    ///
    /// # Errors
    /// As there.
    fn within(words: &[u32], address: Self, length: u32) -> Result<u32, Refusal> {
        let total = unsafe { (Self::CALLS.within)(words.as_ptr(), words.len(), address.passed(), length) };
        accepted(total.refusal)?;
        Ok(total.prefixes)
    }

    /// See [`announce`](crate::announce).
    ///
    /// # Errors
    /// As there.
    fn announce(words: &mut [u32], address: Self, length: u32, candidate: Candidate) -> Result<Update, Refusal> {
        let (words, n) = (words.as_mut_ptr(), words.len());
        let Candidate { hop, feed, preference } = candidate;
        updated(unsafe { (Self::CALLS.announce)(words, n, address.passed(), length, hop, feed, preference) })
    }

    /// See [`withdraw`](crate::withdraw).
    ///
    /// # Errors
    /// As there.
    fn withdraw(words: &mut [u32], address: Self, length: u32, feed: u32) -> Result<Update, Refusal> {
        let (words, n) = (words.as_mut_ptr(), words.len());
        updated(unsafe { (Self::CALLS.withdraw)(words, n, address.passed(), length, feed) })
    }

    /// See [`write_out`](crate::write_out).
    ///
    /// # Errors
    /// As there.
    fn write_out<'a>(words: &[u32], buffer: &'a mut [u8]) -> Result<&'a mut [u8], Refusal> {
        let (room, bytes) = (buffer.len(), buffer.as_mut_ptr());
        let written = unsafe { (Self::CALLS.write_out)(words.as_ptr(), words.len(), bytes, room) };
        accepted(written.refusal)?;
        Ok(&mut buffer[..count(written.bytes)])
    }

    /// See [`run`](crate::run).
    ///
    /// # Errors
    /// As there.
    fn run(words: &mut [u32], feed: &[u8], reply: &mut [u8]) -> Result<Ran, Refusal> {
        let (words, n) = (words.as_mut_ptr(), words.len());
        let (bytes, room) = (reply.as_mut_ptr(), reply.len());
        ran(unsafe { (Self::CALLS.run)(words, n, feed.as_ptr(), feed.len(), bytes, room) })
    }

    /// See [`announce_local`](crate::announce_local).
    ///
    /// # Errors
    /// As there.
    fn announce_local(words: &mut [u32], address: Self, length: u32, candidate: Candidate) -> Result<Update, Refusal> {
        let (words, n) = (words.as_mut_ptr(), words.len());
        let Candidate { hop, feed, preference } = candidate;
        updated(unsafe { (Self::CALLS.announce_local)(words, n, address.passed(), length, hop, feed, preference) })
    }

    /// See [`withdraw_local`](crate::withdraw_local).
    ///
    /// # Errors
    /// As there.
    fn withdraw_local(words: &mut [u32], address: Self, length: u32, feed: u32) -> Result<Update, Refusal> {
        let (words, n) = (words.as_mut_ptr(), words.len());
        updated(unsafe { (Self::CALLS.withdraw_local)(words, n, address.passed(), length, feed) })
    }

    /// See [`run_local`](crate::run_local).
    ///
    /// # Errors
    /// As there.
    fn run_local(words: &mut [u32], feed: &[u8], reply: &mut [u8]) -> Result<Ran, Refusal> {
        let (words, n) = (words.as_mut_ptr(), words.len());
        let (bytes, room) = (reply.as_mut_ptr(), reply.len());
        ran(unsafe { (Self::CALLS.run_local)(words, n, feed.as_ptr(), feed.len(), bytes, room) })
    }
}

impl Family for Ipv4Addr {}
impl Family for Ipv6Addr {}

// SAFETY of the calls above: see the crate's root. Each is of a family's own, and takes addresses as that family passes them.

/// The calls of a family as C sees them, where an address is passed as a `P`.
#[allow(missing_docs)]
pub struct Calls<P> {
    pub clear: unsafe extern "C" fn(*mut u32, usize) -> u32,
    pub check: unsafe extern "C" fn(*const u32, usize) -> ffi::Counts,
    pub lookup: unsafe extern "C" fn(*const u32, usize, P) -> ffi::Answer,
    pub within: unsafe extern "C" fn(*const u32, usize, P, u32) -> ffi::Total,
    pub announce: unsafe extern "C" fn(*mut u32, usize, P, u32, u32, u32, u8) -> ffi::Update,
    pub withdraw: unsafe extern "C" fn(*mut u32, usize, P, u32, u32) -> ffi::Update,
    pub write_out: unsafe extern "C" fn(*const u32, usize, *mut u8, usize) -> ffi::Written,
    pub run: unsafe extern "C" fn(*mut u32, usize, *const u8, usize, *mut u8, usize) -> ffi::Ran,
    pub announce_local: unsafe extern "C" fn(*mut u32, usize, P, u32, u32, u32, u8) -> ffi::Update,
    pub withdraw_local: unsafe extern "C" fn(*mut u32, usize, P, u32, u32) -> ffi::Update,
    pub run_local: unsafe extern "C" fn(*mut u32, usize, *const u8, usize, *mut u8, usize) -> ffi::Ran,
}

/// What tells the families apart. This module is private, so that no other crate can add a family.
#[allow(missing_docs)]
pub trait Address: Sized + 'static {
    type Passed;
    const CALLS: Calls<Self::Passed>;
    /// The name of its tables' type.
    const TABLE: &'static str;
    const ZERO: Self;
    /// The bytes of an address.
    const BYTES: usize;
    /// The kinds of its records; those of feed 1 alone where it has such.
    const ANNOUNCE: Option<u8>;
    const WITHDRAW: Option<u8>;
    const LOOKUP: u8;
    const ANNOUNCE_FOR: u8;
    const WITHDRAW_FOR: u8;

    fn passed(self) -> Self::Passed;
    /// Its bits from the highest of 128 on.
    fn bits(self) -> u128;
    /// The address at the front of these bytes, and the rest.
    fn read(bytes: &[u8]) -> Option<(Self, &[u8])>;
}

impl Address for Ipv4Addr {
    type Passed = u32;
    const CALLS: Calls<u32> = Calls {
        clear: ffi::toggleash_clear,
        check: ffi::toggleash_check,
        lookup: ffi::toggleash_lookup,
        within: ffi::toggleash_within,
        announce: ffi::toggleash_announce,
        withdraw: ffi::toggleash_withdraw,
        write_out: ffi::toggleash_write_out,
        run: ffi::toggleash_run,
        announce_local: ffi::toggleash_announce_local,
        withdraw_local: ffi::toggleash_withdraw_local,
        run_local: ffi::toggleash_run_local,
    };
    const TABLE: &'static str = "Table";
    const ZERO: Ipv4Addr = Ipv4Addr::UNSPECIFIED;
    const BYTES: usize = 4;
    const ANNOUNCE: Option<u8> = Some(1);
    const WITHDRAW: Option<u8> = Some(2);
    const LOOKUP: u8 = 3;
    const ANNOUNCE_FOR: u8 = 4;
    const WITHDRAW_FOR: u8 = 5;

    fn passed(self) -> u32 {
        self.into()
    }

    fn bits(self) -> u128 {
        u128::from(u32::from(self)) << 96
    }

    fn read(bytes: &[u8]) -> Option<(Ipv4Addr, &[u8])> {
        bytes.split_first_chunk::<4>().map(|(address, rest)| ((*address).into(), rest))
    }
}

impl Address for Ipv6Addr {
    type Passed = ffi::Ipv6;
    const CALLS: Calls<ffi::Ipv6> = Calls {
        clear: ffi::toggleash_v6_clear,
        check: ffi::toggleash_v6_check,
        lookup: ffi::toggleash_v6_lookup,
        within: ffi::toggleash_v6_within,
        announce: ffi::toggleash_v6_announce,
        withdraw: ffi::toggleash_v6_withdraw,
        write_out: ffi::toggleash_v6_write_out,
        run: ffi::toggleash_v6_run,
        announce_local: ffi::toggleash_v6_announce_local,
        withdraw_local: ffi::toggleash_v6_withdraw_local,
        run_local: ffi::toggleash_v6_run_local,
    };
    const TABLE: &'static str = "Table6";
    const ZERO: Ipv6Addr = Ipv6Addr::UNSPECIFIED;
    const BYTES: usize = 16;
    const ANNOUNCE: Option<u8> = None;
    const WITHDRAW: Option<u8> = None;
    const ANNOUNCE_FOR: u8 = 6;
    const WITHDRAW_FOR: u8 = 7;
    const LOOKUP: u8 = 8;

    fn passed(self) -> ffi::Ipv6 {
        ffi::Ipv6 { bytes: self.octets() }
    }

    fn bits(self) -> u128 {
        self.into()
    }

    fn read(bytes: &[u8]) -> Option<(Ipv6Addr, &[u8])> {
        bytes.split_first_chunk::<16>().map(|(address, rest)| ((*address).into(), rest))
    }
}
