//! DPDK's rte_fib.

use std::ffi::c_int;

use reference::Route;

use crate::dpdk::Library;

/// The most addresses that a lookup of fib.c takes at once.
pub const AT_ONCE: u32 = 32;

pub struct Fib {
    add: extern "C" fn(u32, u8, u32) -> c_int,
    clear: extern "C" fn() -> c_int,
    sum: extern "C" fn(*const u32, usize, u32) -> u64,
}

impl Fib {
    /// None where it cannot start.
    pub fn open(library: &Library, routes: u32, groups: u32) -> Option<Fib> {
        // SAFETY: the names and types are those of fib.c, from which the library is built.
        unsafe {
            let open: extern "C" fn(u32, u32) -> c_int = library.symbol(c"fib_open");
            (open(routes, groups) == 0).then(|| Fib {
                add: library.symbol(c"fib_add"),
                clear: library.symbol(c"fib_clear"),
                sum: library.symbol(c"fib_sum"),
            })
        }
    }

    pub fn clear(&self) {
        assert_eq!((self.clear)(), 0, "rte_fib_create");
    }

    /// Gives the number of routes.
    pub fn announce_all(&self, routes: &[Route]) -> u64 {
        for route in routes {
            let status = (self.add)(route.prefix.address, route.prefix.length as u8, route.hop);
            assert_eq!(status, 0, "rte_fib_add {route:?}");
        }
        routes.len() as u64
    }

    /// The sum of the hops found, by one address a call or by several.
    pub fn sum(&self, addresses: &[u32], at_once: u32) -> u64 {
        assert!((1..=AT_ONCE).contains(&at_once));
        (self.sum)(addresses.as_ptr(), addresses.len(), at_once)
    }
}
