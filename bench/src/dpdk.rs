//! DPDK's two tables, loaded where `bench/run` could build the calls to them.

use std::ffi::{c_char, c_int, c_void, CStr};
use std::mem::transmute_copy;

use reference::RouteList;

use crate::fib::Fib;
use crate::lpm::Lpm;

const RTLD_NOW: c_int = 2;
const LIBRARY: &CStr = c"target/c/libdpdk_tables.so";

extern "C" {
    fn dlopen(file: *const c_char, mode: c_int) -> *mut c_void;
    fn dlsym(library: *mut c_void, name: *const c_char) -> *mut c_void;
}

/// One table of each, as the C files have no more.
pub struct Dpdk {
    pub lpm: Lpm,
    pub fib: Fib,
}

impl Dpdk {
    /// None where it is not installed or cannot start.
    pub fn open(routes: u32, groups: u32) -> Option<Dpdk> {
        // SAFETY: the name ends with a zero byte, and what the library does when it is loaded is nothing.
        let library = unsafe { dlopen(LIBRARY.as_ptr(), RTLD_NOW) };
        if library.is_null() {
            return None;
        }
        let library = Library(library);
        Some(Dpdk { lpm: Lpm::open(&library, routes, groups)?, fib: Fib::open(&library, routes, groups)? })
    }

    /// Both hold this list and no other.
    pub fn fill(&self, list: &RouteList) {
        self.lpm.clear();
        self.lpm.announce_all(list.routes());
        self.fib.clear();
        self.fib.announce_all(list.routes());
    }
}

/// The library that `bench/run` builds, which stays loaded.
pub struct Library(*mut c_void);

impl Library {
    /// # Safety
    /// The library has a function of that name and type.
    pub unsafe fn symbol<F>(&self, name: &CStr) -> F {
        let address = dlsym(self.0, name.as_ptr());
        assert!(!address.is_null(), "{name:?} is not in {LIBRARY:?}");
        transmute_copy(&address)
    }
}
