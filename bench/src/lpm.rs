//! DPDK's rte_lpm.

use std::ffi::c_int;

use reference::{Route, RouteList};

use crate::dpdk::Library;

pub struct Lpm {
    add: extern "C" fn(u32, u8, u32) -> c_int,
    delete: extern "C" fn(u32, u8) -> c_int,
    clear: extern "C" fn(),
    sum: extern "C" fn(*const u32, usize) -> u64,
}

impl Lpm {
    /// None where it cannot start.
    pub fn open(library: &Library, rules: u32, groups: u32) -> Option<Lpm> {
        // SAFETY: the names and types are those of lpm.c, from which the library is built.
        unsafe {
            let open: extern "C" fn(u32, u32) -> c_int = library.symbol(c"lpm_open");
            (open(rules, groups) == 0).then(|| Lpm {
                add: library.symbol(c"lpm_add"),
                delete: library.symbol(c"lpm_delete"),
                clear: library.symbol(c"lpm_clear"),
                sum: library.symbol(c"lpm_sum"),
            })
        }
    }

    pub fn clear(&self) {
        (self.clear)();
    }

    /// Holds this list and no other.
    pub fn fill(&self, list: &RouteList) {
        self.clear();
        self.announce_all(list.routes());
    }

    /// Gives the number of routes.
    pub fn announce_all(&self, routes: &[Route]) -> u64 {
        routes.iter().for_each(|route| self.announce(route));
        routes.len() as u64
    }

    fn announce(&self, route: &Route) {
        let status = (self.add)(route.prefix.address, route.prefix.length as u8, route.hop);
        assert_eq!(status, 0, "rte_lpm_add {route:?}");
    }

    fn withdraw(&self, route: &Route) {
        let status = (self.delete)(route.prefix.address, route.prefix.length as u8);
        assert_eq!(status, 0, "rte_lpm_delete {route:?}");
    }

    /// Takes the routes out and puts them back; gives the number of updates.
    pub fn flap(&self, routes: &[Route]) -> u64 {
        for route in routes {
            self.withdraw(route);
            self.announce(route);
        }
        2 * routes.len() as u64
    }

    /// The sum of the hops found.
    pub fn sum(&self, addresses: &[u32]) -> u64 {
        (self.sum)(addresses.as_ptr(), addresses.len())
    }
}
