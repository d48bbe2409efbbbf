//! The calls as C sees them; bindings/c/toggleash.h says what each takes and gives.

#![allow(missing_docs)]

pub use crate::resolve::Hop;

/// An IPv6 address, by value and in network order.
#[repr(C)]
#[derive(Clone, Copy, Debug, Default, PartialEq, Eq)]
pub struct Ipv6 {
    pub bytes: [u8; 16],
}

#[repr(C)]
#[derive(Clone, Copy, Debug, Default, PartialEq, Eq)]
pub struct Counts {
    pub refusal: u32,
    pub routes: u32,
    pub arrays: u32,
}

#[repr(C)]
#[derive(Clone, Copy, Debug, Default, PartialEq, Eq)]
pub struct Answer {
    pub refusal: u32,
    pub found: u32,
    pub hop: u32,
    pub length: u32,
    pub block: u32,
}

#[repr(C)]
#[derive(Clone, Copy, Debug, Default, PartialEq, Eq)]
pub struct Total {
    pub refusal: u32,
    pub prefixes: u32,
}

#[repr(C)]
#[derive(Clone, Copy, Debug, Default, PartialEq, Eq)]
pub struct Match {
    pub refusal: u32,
    pub found: u32,
    pub hop: u32,
    pub length: u32,
}

#[repr(C)]
#[derive(Clone, Copy, Debug, Default, PartialEq, Eq)]
pub struct Update {
    pub refusal: u32,
    pub hop: u32,
    pub cells: u32,
}

#[repr(C)]
#[derive(Clone, Copy, Debug, Default, PartialEq, Eq)]
pub struct Written {
    pub refusal: u32,
    pub bytes: u64,
}

#[repr(C)]
#[derive(Clone, Copy, Debug, Default, PartialEq, Eq)]
pub struct Ran {
    pub refusal: u32,
    pub stop: u32,
    pub consumed: u64,
    pub written: u64,
    pub accepted: u64,
    pub refused: u64,
}

#[repr(C)]
#[derive(Clone, Copy, Debug, Default, PartialEq, Eq)]
pub struct Needed {
    pub refusal: u32,
    pub words: u64,
}

#[repr(C)]
#[derive(Clone, Copy, Debug, Default, PartialEq, Eq)]
pub struct Built {
    pub refusal: u32,
    pub routes: u64,
    pub markers: u64,
}

#[repr(C)]
#[derive(Clone, Copy, Debug, Default, PartialEq, Eq)]
pub struct Route {
    pub refusal: u32,
    pub interface: u32,
    pub has_gateway: u32,
    pub gateway: u32,
}

#[repr(C)]
#[derive(Clone, Copy, Debug, Default, PartialEq, Eq)]
pub struct Packed {
    pub refusal: u32,
    pub arrays: u32,
    pub words: u64,
}

#[repr(C)]
#[derive(Clone, Copy, Debug, Default, PartialEq, Eq)]
pub struct Front {
    pub refusal: u32,
    pub places: u32,
    pub held_back: u32,
}

/// Kept in each program, so that an archive of another version does not link.
#[used]
static VERSION: unsafe extern "C" fn() -> u32 = toggleash_version_6;
#[used]
static RESOLVE_VERSION: unsafe extern "C" fn() -> u32 = toggleash_resolve_version_6;
#[used]
static PACKED_VERSION: unsafe extern "C" fn() -> u32 = toggleash_packed_version_6;
#[used]
static SHORTEST_VERSION: unsafe extern "C" fn() -> u32 = toggleash_shortest_version_6;
#[used]
static DAMP_VERSION: unsafe extern "C" fn() -> u32 = toggleash_damp_version_6;

extern "C" {
    pub fn toggleash_version_6() -> u32;
    pub fn toggleash_clear(words: *mut u32, n: usize) -> u32;
    pub fn toggleash_check(words: *const u32, n: usize) -> Counts;
    pub fn toggleash_lookup(words: *const u32, n: usize, address: u32) -> Answer;
    pub fn toggleash_within(words: *const u32, n: usize, address: u32, length: u32) -> Total;
    pub fn toggleash_announce(
        words: *mut u32,
        n: usize,
        address: u32,
        length: u32,
        hop: u32,
        feed: u32,
        preference: u8,
    ) -> Update;
    pub fn toggleash_withdraw(words: *mut u32, n: usize, address: u32, length: u32, feed: u32) -> Update;
    pub fn toggleash_write_out(words: *const u32, n: usize, buffer: *mut u8, room: usize) -> Written;
    pub fn toggleash_run(
        words: *mut u32,
        n: usize,
        feed: *const u8,
        feed_len: usize,
        reply: *mut u8,
        reply_len: usize,
    ) -> Ran;
    pub fn toggleash_announce_local(
        words: *mut u32,
        n: usize,
        address: u32,
        length: u32,
        hop: u32,
        feed: u32,
        preference: u8,
    ) -> Update;
    pub fn toggleash_withdraw_local(words: *mut u32, n: usize, address: u32, length: u32, feed: u32) -> Update;
    pub fn toggleash_run_local(
        words: *mut u32,
        n: usize,
        feed: *const u8,
        feed_len: usize,
        reply: *mut u8,
        reply_len: usize,
    ) -> Ran;
    pub fn toggleash_v6_clear(words: *mut u32, n: usize) -> u32;
    pub fn toggleash_v6_check(words: *const u32, n: usize) -> Counts;
    pub fn toggleash_v6_lookup(words: *const u32, n: usize, address: Ipv6) -> Answer;
    pub fn toggleash_v6_within(words: *const u32, n: usize, address: Ipv6, length: u32) -> Total;
    pub fn toggleash_v6_announce(
        words: *mut u32,
        n: usize,
        address: Ipv6,
        length: u32,
        hop: u32,
        feed: u32,
        preference: u8,
    ) -> Update;
    pub fn toggleash_v6_withdraw(words: *mut u32, n: usize, address: Ipv6, length: u32, feed: u32) -> Update;
    pub fn toggleash_v6_write_out(words: *const u32, n: usize, buffer: *mut u8, room: usize) -> Written;
    pub fn toggleash_v6_run(
        words: *mut u32,
        n: usize,
        feed: *const u8,
        feed_len: usize,
        reply: *mut u8,
        reply_len: usize,
    ) -> Ran;
    pub fn toggleash_v6_announce_local(
        words: *mut u32,
        n: usize,
        address: Ipv6,
        length: u32,
        hop: u32,
        feed: u32,
        preference: u8,
    ) -> Update;
    pub fn toggleash_v6_withdraw_local(words: *mut u32, n: usize, address: Ipv6, length: u32, feed: u32) -> Update;
    pub fn toggleash_v6_run_local(
        words: *mut u32,
        n: usize,
        feed: *const u8,
        feed_len: usize,
        reply: *mut u8,
        reply_len: usize,
    ) -> Ran;
    pub fn toggleash_copy_need(bytes: *const u8, bytes_len: usize) -> Needed;
    pub fn toggleash_copy_build(bytes: *const u8, bytes_len: usize, words: *mut u32, n: usize) -> Built;
    pub fn toggleash_copy_lookup(words: *const u32, n: usize, address: u32) -> Match;
}

// of libtoggleash_resolve.a; bindings/c/toggleash_resolve.h says what it takes and gives
extern "C" {
    pub fn toggleash_resolve_version_6() -> u32;
    pub fn toggleash_resolve(words: *const u32, n: usize, entries: *const Hop, count: usize, address: u32) -> Route;
}

// of libtoggleash_packed.a; bindings/c/toggleash_packed.h says what they take and give
extern "C" {
    pub fn toggleash_packed_version_6() -> u32;
    pub fn toggleash_packed_need(words: *const u32, n: usize) -> Needed;
    pub fn toggleash_packed_build(words: *const u32, n: usize, packed: *mut u32, m: usize) -> Packed;
    pub fn toggleash_packed_lookup(packed: *const u32, m: usize, address: u32) -> Match;
}

// of libtoggleash_shortest.a; bindings/c/toggleash_shortest.h says what it takes and gives
extern "C" {
    pub fn toggleash_shortest_version_6() -> u32;
    pub fn toggleash_shortest(
        words: *const u32,
        n: usize,
        scratch: *mut u32,
        s: usize,
        buffer: *mut u8,
        room: usize,
    ) -> Written;
}

// of libtoggleash_damp.a; bindings/c/toggleash_damp.h says what they take and give
extern "C" {
    pub fn toggleash_damp_version_6() -> u32;
    pub fn toggleash_damp_clear(front: *mut u32, m: usize) -> u32;
    pub fn toggleash_damp_check(front: *const u32, m: usize) -> Front;
    pub fn toggleash_damp_announce(
        front: *mut u32,
        m: usize,
        words: *mut u32,
        n: usize,
        address: u32,
        length: u32,
        hop: u32,
        feed: u32,
        preference: u8,
    ) -> Update;
    pub fn toggleash_damp_withdraw(
        front: *mut u32,
        m: usize,
        words: *mut u32,
        n: usize,
        address: u32,
        length: u32,
        feed: u32,
    ) -> Update;
    pub fn toggleash_damp_tick(front: *mut u32, m: usize, words: *mut u32, n: usize) -> Front;
    pub fn toggleash_damp_run(
        front: *mut u32,
        m: usize,
        words: *mut u32,
        n: usize,
        feed: *const u8,
        feed_len: usize,
        reply: *mut u8,
        reply_len: usize,
    ) -> Ran;
    pub fn toggleash_damp_announce_local(
        front: *mut u32,
        m: usize,
        words: *mut u32,
        n: usize,
        address: u32,
        length: u32,
        hop: u32,
        feed: u32,
        preference: u8,
    ) -> Update;
    pub fn toggleash_damp_withdraw_local(
        front: *mut u32,
        m: usize,
        words: *mut u32,
        n: usize,
        address: u32,
        length: u32,
        feed: u32,
    ) -> Update;
    pub fn toggleash_damp_tick_local(front: *mut u32, m: usize, words: *mut u32, n: usize) -> Front;
    pub fn toggleash_damp_run_local(
        front: *mut u32,
        m: usize,
        words: *mut u32,
        n: usize,
        feed: *const u8,
        feed_len: usize,
        reply: *mut u8,
        reply_len: usize,
    ) -> Ran;
}
