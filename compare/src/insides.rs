//! Prefixes to count inside: held ones, shorter and longer ones, those of any addresses, and some that are none.

use reference::Prefix;

use crate::family::Family;
use crate::random::Random;

/// The prefix, one that it lies in, and one that lies in it.
pub fn around<A: Family>(random: &mut Random, prefix: Prefix<A>) -> [Prefix<A>; 3] {
    let Prefix { address, length } = prefix;
    let shorter = Prefix::around(address, random.below(length as usize + 1) as u32);
    // Any address inside, or one that leaves the prefix's own late.
    let (any, near) = (A::any(random), address.near(random));
    let inner = random.pick(&[any, near]) & !A::mask(length) | address;
    [prefix, shorter, Prefix::around(inner, random.within(length as usize..=A::BITS as usize) as u32)]
}

/// A prefix that holds the address, now and then with a bit after its length or a length that none has.
pub fn holding<A: Family>(random: &mut Random, address: A) -> Prefix<A> {
    let length = random.below(A::BITS as usize + 1) as u32;
    let any = random.word();
    match random.below(30) {
        0 => Prefix { address, length },
        1 => Prefix {
            address,
            length: random.pick(&[A::BITS + 1, 2 * A::BITS, 256, 256 + length, 1 << 31, u32::MAX, any]),
        },
        _ => Prefix::around(address, length),
    }
}
