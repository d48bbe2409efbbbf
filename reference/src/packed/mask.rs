//! Prefixes of one array, the masks without collision, and what stands at an index.

/// A prefix of an array: the bits that it has, and their values, 0 after them.
#[derive(Clone, Copy, Debug, PartialEq, Eq)]
pub struct Bits {
    pub value: u8,
    pub has: u8,
}

impl Bits {
    /// Slot 2^d + x has d bits of value x.
    pub fn of_slot(slot: usize) -> Bits {
        let d = slot.ilog2();
        let x = slot - (1 << d);
        Bits { value: (x << (8 - d)) as u8, has: !(255_usize >> d) as u8 }
    }

    /// Whether the byte has the prefix.
    pub fn matches(self, byte: u8) -> bool {
        byte & self.has == self.value
    }

    /// The bits in which the two differ, of those that both have.
    fn parted(self, other: Bits) -> u8 {
        (self.value ^ other.value) & self.has & other.has
    }

    /// The two properties: where they differ, the mask has such a bit; where one goes on from the other, it has every bit that the
    /// longer has more.
    pub fn apart(self, other: Bits, mask: u8) -> bool {
        let more = self.has ^ other.has;
        match self.parted(other) {
            0 => mask & more == more,
            parted => mask & parted != 0,
        }
    }
}

/// The mask of these slots' prefixes: of all masks under which any two are apart the one with the fewest set bits, of these
/// the lowest.
pub fn mask(slots: &[usize]) -> u8 {
    let prefixes: Vec<Bits> = slots.iter().map(|&slot| Bits::of_slot(slot)).collect();
    let free = |mask: &u8| {
        let mut pairs =
            prefixes.iter().enumerate().flat_map(|(at, one)| prefixes[..at].iter().map(move |two| (one, two)));
        pairs.all(|(one, two)| one.apart(*two, *mask))
    };
    let mut masks: Vec<u8> = (0..=255).collect();
    masks.sort_by_key(|&mask| (mask.count_ones(), mask));
    masks.into_iter().find(free).expect("under the mask of all bits any two are apart")
}

/// The bits of the byte at the set bits of the mask, as a number.
pub fn index(mask: u8, byte: u8) -> usize {
    let places = (0..8).rev().filter(|place| mask >> place & 1 == 1);
    places.fold(0, |index, place| 2 * index + usize::from(byte >> place & 1))
}

/// The slot of the longest prefix that the byte may have, as far as the mask tells: the same for all bytes of one index.
pub fn entry(slots: &[usize], mask: u8, byte: u8) -> Option<usize> {
    let may = |slot: &usize| {
        let Bits { value, has } = Bits::of_slot(*slot);
        (byte ^ value) & has & mask == 0
    };
    slots.iter().copied().filter(may).max_by_key(|slot| slot.ilog2())
}
