//! The calls of the families as C has them, with every field of their answers.

use toggleash::ffi::{self, Answer, Counts, Ipv6, Ran, Total, Update, Written};

/// An address passes as a `P`.
pub struct Calls<P> {
    pub clear: unsafe extern "C" fn(*mut u32, usize) -> u32,
    pub check: unsafe extern "C" fn(*const u32, usize) -> Counts,
    pub lookup: unsafe extern "C" fn(*const u32, usize, P) -> Answer,
    pub within: unsafe extern "C" fn(*const u32, usize, P, u32) -> Total,
    pub checked: Updates<P>,
    pub local: Updates<P>,
    pub write_out: unsafe extern "C" fn(*const u32, usize, *mut u8, usize) -> Written,
}

/// The calls that update a table: those that check all of it first, or those that test what they touch.
pub struct Updates<P> {
    pub name: &'static str,
    pub announce: unsafe extern "C" fn(*mut u32, usize, P, u32, u32, u32, u8) -> Update,
    pub withdraw: unsafe extern "C" fn(*mut u32, usize, P, u32, u32) -> Update,
    pub run: unsafe extern "C" fn(*mut u32, usize, *const u8, usize, *mut u8, usize) -> Ran,
}

pub const FOUR: Calls<u32> = Calls {
    clear: ffi::toggleash_clear,
    check: ffi::toggleash_check,
    lookup: ffi::toggleash_lookup,
    within: ffi::toggleash_within,
    checked: Updates {
        name: "checked",
        announce: ffi::toggleash_announce,
        withdraw: ffi::toggleash_withdraw,
        run: ffi::toggleash_run,
    },
    local: Updates {
        name: "local",
        announce: ffi::toggleash_announce_local,
        withdraw: ffi::toggleash_withdraw_local,
        run: ffi::toggleash_run_local,
    },
    write_out: ffi::toggleash_write_out,
};

pub const SIX: Calls<Ipv6> = Calls {
    clear: ffi::toggleash_v6_clear,
    check: ffi::toggleash_v6_check,
    lookup: ffi::toggleash_v6_lookup,
    within: ffi::toggleash_v6_within,
    checked: Updates {
        name: "checked",
        announce: ffi::toggleash_v6_announce,
        withdraw: ffi::toggleash_v6_withdraw,
        run: ffi::toggleash_v6_run,
    },
    local: Updates {
        name: "local",
        announce: ffi::toggleash_v6_announce_local,
        withdraw: ffi::toggleash_v6_withdraw_local,
        run: ffi::toggleash_v6_run_local,
    },
    write_out: ffi::toggleash_v6_write_out,
};
