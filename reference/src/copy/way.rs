//! The way of a search over the lengths: from 16 by 8, 4, 2 and 1, longer after a hit and shorter after a miss; a hit
//! at 31 tries 32.

/// A look on the way: at which length, and how far the next one is, 0 after the last move.
#[derive(Clone, Copy)]
pub struct Look {
    pub length: u32,
    step: u32,
}

impl Look {
    pub const FIRST: Look = Look { length: 16, step: 8 };

    /// Where the way goes from here.
    pub fn next(self, hit: bool) -> Option<Look> {
        let step = self.step / 2;
        match (self.step, hit, self.length) {
            (0, true, 31) => Some(Look { length: 32, step }),
            (0, ..) => None,
            (_, true, _) => Some(Look { length: self.length + self.step, step }),
            (_, false, _) => Some(Look { length: self.length - self.step, step }),
        }
    }
}

/// The lengths at which the way to this one turns longer.
pub fn turns(length: u32) -> Vec<u32> {
    let mut turns = Vec::new();
    let mut way = Some(Look::FIRST);
    while let Some(look) = way.filter(|look| look.length != length) {
        let longer = look.length < length;
        if longer {
            turns.push(look.length);
        }
        way = look.next(longer);
    }
    turns
}
