//! A list in each way that looks it up: the library's three engines, and what they are measured against.

use reference::RouteList;
use toggleash::{ffi, packed};

use crate::boxed::Boxed;
use crate::clock::{measure, Way};
use crate::dpdk::Dpdk;
use crate::fib::AT_ONCE;
use crate::huge::{self, Huge};
use crate::lists::Load;
use crate::sums::{plain_checking, plain_trusting, sum_of_copy, sum_of_table};
use crate::trie::Trie;
use crate::{copies, table, title, Scale};

pub const TABLE: &str = "toggleash_lookup";
pub const COPY: &str = "toggleash_copy_lookup";
pub const PACKED: &str = "toggleash_packed_lookup";
pub const BOXES: &str = "Rust trie of one bit a step, boxes";
pub const LPM: &str = "DPDK's rte_lpm_lookup, inline";
/// Its lookup is made for many addresses.
pub const FIB: &str = "DPDK's rte_fib_lookup_bulk, 32 at once";

pub struct Engines<'a> {
    load: &'a Load,
    words: Vec<u32>,
    huge: Option<Huge>,
    copy: Vec<u32>,
    packed: Vec<u32>,
    others: Others<'a>,
}

/// What holds a list of any number of arrays: the tries, and DPDK's tables.
pub struct Others<'a> {
    trie: Trie,
    boxed: Boxed,
    dpdk: Option<&'a Dpdk>,
}

/// What was measured, by name.
pub struct Times(Vec<(&'static str, f64)>);

impl Times {
    /// Nanoseconds of one lookup. None where the way took no part.
    pub fn of(&self, name: &str) -> Option<f64> {
        self.0.iter().find(|way| way.0 == name).map(|way| way.1)
    }
}

impl Engines<'_> {
    /// In a table of so many arrays.
    pub fn new<'a>(load: &'a Load, arrays: usize, dpdk: Option<&'a Dpdk>) -> Engines<'a> {
        let words = table(&load.candidates, arrays);
        let mut packed = vec![0; packed::need(&words).expect("a table")];
        packed::build(&words, &mut packed).expect("words enough");
        let (huge, copy) = (Huge::of(&words), copies::words(&load.candidates));
        Engines { load, words, huge, copy, packed, others: Others::new(&load.list, dpdk) }
    }

    /// How much of the two tables is in huge pages: by themselves, and where they were asked for.
    pub fn tell_pages(&self) {
        let huge = |words: &[u32]| huge::given(words).map_or("?".into(), |size| size.to_string());
        let asked = self.huge.as_deref().map_or("not to be had".into(), |words| huge(words) + " kB");
        let (whole, plain) = (size_of_val(&self.words[..]) / 1_024, huge(&self.words));
        println!("a table of {whole} kB, in huge pages: {plain} kB, where asked for {asked}");
    }

    /// Every way.
    pub fn lookups(&self, scale: &Scale, name: &str, addresses: &[u32]) -> Times {
        let mut ways = self.library(addresses);
        if let Some(words) = self.huge.as_deref() {
            let huge = || sum_of_table(ffi::toggleash_lookup, words, addresses);
            ways.insert(1, Way::new("toggleash_lookup, huge pages", huge));
        }
        ways.extend([
            Way::new("C loop with the same refusals", || sum_of_table(plain_checking, &self.words, addresses)),
            Way::new("C loop that trusts the words", || sum_of_table(plain_trusting, &self.words, addresses)),
        ]);
        ways.extend(self.others.ways(addresses));
        self.measure(scale, name, addresses.len(), ways)
    }

    /// The three engines, the trie with boxes and rte_lpm.
    pub fn few_lookups(&self, scale: &Scale, name: &str, addresses: &[u32]) -> Times {
        let mut ways = self.library(addresses);
        ways.push(Way::new(BOXES, || self.others.boxed.sum(addresses)));
        if let Some(Dpdk { lpm, .. }) = self.others.dpdk {
            ways.push(Way::new(LPM, || lpm.sum(addresses)));
        }
        self.measure(scale, name, addresses.len(), ways)
    }

    fn library<'a>(&'a self, addresses: &'a [u32]) -> Vec<Way<'a>> {
        vec![
            Way::new(TABLE, || sum_of_table(ffi::toggleash_lookup, &self.words, addresses)),
            Way::new(COPY, || sum_of_copy(ffi::toggleash_copy_lookup, &self.copy, addresses)),
            Way::new(PACKED, || sum_of_copy(ffi::toggleash_packed_lookup, &self.packed, addresses)),
        ]
    }

    fn measure(&self, scale: &Scale, name: &str, count: usize, ways: Vec<Way>) -> Times {
        let names: Vec<&'static str> = ways.iter().map(Way::name).collect();
        let medians = measure(&title("lookup", self.load, name), scale.rounds, count, ways);
        Times(names.into_iter().zip(medians).collect())
    }
}

impl Others<'_> {
    /// DPDK's tables are there once and hold the list of the last call.
    pub fn new<'a>(list: &RouteList, dpdk: Option<&'a Dpdk>) -> Others<'a> {
        if let Some(dpdk) = dpdk {
            dpdk.fill(list);
        }
        Others { trie: Trie::new(list), boxed: Boxed::new(list), dpdk }
    }

    pub fn ways<'a>(&'a self, addresses: &'a [u32]) -> Vec<Way<'a>> {
        let mut ways = vec![
            Way::new("Rust trie of one bit a step, one vector", || self.trie.sum(addresses)),
            Way::new(BOXES, || self.boxed.sum(addresses)),
        ];
        if let Some(Dpdk { lpm, fib }) = self.dpdk {
            ways.extend([
                Way::new(LPM, || lpm.sum(addresses)),
                Way::new("DPDK's rte_fib_lookup_bulk, one at a time", || fib.sum(addresses, 1)),
                Way::new(FIB, || fib.sum(addresses, AT_ONCE)),
            ]);
        }
        ways
    }
}
