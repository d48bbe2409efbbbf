//! The parts of the comparison: random input, guarded memory, and each call made on the library and on the list.

pub mod calls;
pub mod copies;
pub mod damage;
pub mod damps;
pub mod damps_local;
pub mod face;
pub mod family;
pub mod feeds;
pub mod flapping;
pub mod foreign;
pub mod guard;
pub mod insides;
pub mod lists;
pub mod locals;
pub mod made_up;
pub mod packs;
pub mod packs_damaged;
pub mod pair;
pub mod programs;
pub mod random;
pub mod resolves;
pub mod rooms;
pub mod shorts;
pub mod tally;
pub mod unlisted;
