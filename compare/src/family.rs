//! What the comparison asks of a family beside what the rules ask: the library's calls, addresses and lengths as its networks
//! have them, and where its counts are kept.

use std::net::{Ipv4Addr, Ipv6Addr};

use reference::Address;
use toggleash::ffi;

use crate::calls::{self, Calls};
use crate::random::Random;
use crate::tally::{Counts, Seen, Tally};

/// A family, by its addresses as numbers.
pub trait Family: Address {
    /// An address as the library takes it.
    type Sent: toggleash::Family + From<Self>;
    /// An address as C passes it.
    type Passed: Copy;

    const CALLS: Calls<Self::Passed>;

    const NAME: &'static str;

    /// The cells looked up in an array that no damage was done to. Those of all arrays would be too many where ways are long.
    const CELLS: usize;

    fn passed(self) -> Self::Passed;

    /// Any address, mostly one of a network that there can be.
    fn any(random: &mut Random) -> Self;

    /// A length, mostly as networks have it or at the border of a level, where mistakes live.
    fn length(random: &mut Random) -> u32;

    /// The arrays of a room. Mostly few: each update reads every word of its table.
    fn arrays(random: &mut Random) -> usize;

    /// What was met.
    fn seen() -> &'static Seen;

    /// What was compared.
    fn counts(tally: &mut Tally) -> &mut Counts;

    /// An address that shares its first bits, any number of them, with this one.
    fn near(self, random: &mut Random) -> Self {
        let mask = Self::mask(random.below(Self::BITS as usize + 1) as u32);
        self & mask | Self::any(random) & !mask
    }
}

impl Family for u32 {
    type Sent = Ipv4Addr;
    type Passed = u32;

    const CALLS: Calls<u32> = calls::FOUR;
    const NAME: &'static str = "IPv4";
    const CELLS: usize = 256;

    fn passed(self) -> u32 {
        self
    }

    fn any(random: &mut Random) -> u32 {
        random.word()
    }

    fn length(random: &mut Random) -> u32 {
        match random.chance(50) {
            true => random.pick(&[0, 1, 7, 8, 9, 10, 15, 16, 17, 23, 24, 25, 26, 31, 32]),
            false => random.below(33) as u32,
        }
    }

    fn arrays(random: &mut Random) -> usize {
        match random.below(100) {
            0..=59 => random.within(1..=8),
            60..=84 => random.within(9..=40),
            85..=95 => random.within(41..=130),
            _ => random.within(131..=700),
        }
    }

    fn seen() -> &'static Seen {
        static SEEN: Seen = Seen::new();
        &SEEN
    }

    fn counts(tally: &mut Tally) -> &mut Counts {
        &mut tally.four
    }
}

/// Lengths that networks of IPv6 have.
const NETWORKS: [u32; 20] = [16, 19, 20, 24, 26, 28, 29, 30, 32, 32, 36, 40, 44, 47, 48, 48, 56, 60, 64, 64];
/// The borders of the first levels, of some between, and of the last.
const BORDERS: [u32; 20] = [0, 1, 3, 7, 8, 9, 15, 17, 25, 31, 33, 65, 72, 73, 112, 113, 119, 120, 121, 127];

impl Family for u128 {
    type Sent = Ipv6Addr;
    type Passed = ffi::Ipv6;

    const CALLS: Calls<ffi::Ipv6> = calls::SIX;
    const NAME: &'static str = "IPv6";
    const CELLS: usize = 16;

    fn passed(self) -> ffi::Ipv6 {
        ffi::Ipv6 { bytes: self.to_be_bytes() }
    }

    /// Mostly of 2000::/3; in some as many groups of 16 bits are 0 as are not.
    fn any(random: &mut Random) -> u128 {
        let any = u128::from(random.number()) << 64 | u128::from(random.number());
        let group = |random: &mut Random| if random.chance(50) { 0xFFFF } else { 0 };
        match random.below(10) {
            0..=5 => any >> 3 | 1 << 125,
            6 | 7 => any & (0..8).fold(0, |mask, _| mask << 16 | group(random)),
            _ => any,
        }
    }

    fn length(random: &mut Random) -> u32 {
        match random.below(100) {
            0..=64 => random.pick(&NETWORKS),
            65..=79 => 128,
            80..=91 => random.pick(&BORDERS),
            _ => random.below(129) as u32,
        }
    }

    /// A way to one address has sixteen.
    fn arrays(random: &mut Random) -> usize {
        match random.below(100) {
            0..=24 => random.within(1..=15),
            25..=79 => random.within(16..=60),
            80..=95 => random.within(61..=130),
            _ => random.within(131..=400),
        }
    }

    fn seen() -> &'static Seen {
        static SEEN: Seen = Seen::new();
        &SEEN
    }

    fn counts(tally: &mut Tally) -> &mut Counts {
        &mut tally.six
    }
}
