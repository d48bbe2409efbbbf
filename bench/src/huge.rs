//! Words in memory for which the kernel was asked to use huge pages, and how many it gave.

use std::ffi::{c_int, c_long, c_void};
use std::fs;
use std::ops::Deref;
use std::ptr::null_mut;
use std::slice;

const HUGE_PAGE: usize = 2 << 20;
const READ_AND_WRITE: c_int = 3;
const PRIVATE_AND_ANONYMOUS: c_int = 0x22;
const MADV_HUGEPAGE: c_int = 14;

extern "C" {
    fn mmap(start: *mut c_void, bytes: usize, may: c_int, how: c_int, file: c_int, at: c_long) -> *mut c_void;
    fn munmap(start: *mut c_void, bytes: usize) -> c_int;
    fn madvise(start: *mut c_void, bytes: usize, advice: c_int) -> c_int;
}

/// Words at the start of a huge page.
pub struct Huge {
    mapped: *mut c_void,
    bytes: usize,
    start: *const u32,
    words: usize,
}

impl Huge {
    /// The same words. None where there is no memory, or no such advice.
    pub fn of(words: &[u32]) -> Option<Huge> {
        let whole = size_of_val(words).next_multiple_of(HUGE_PAGE);
        let bytes = whole + HUGE_PAGE;
        // SAFETY: the kernel picks where, and gives so many bytes, which hold one more page than is needed so that a whole
        // number of them starts at one. What is written and read stays inside, and the mapping ends with the value alone.
        unsafe {
            let mapped = mmap(null_mut(), bytes, READ_AND_WRITE, PRIVATE_AND_ANONYMOUS, -1, 0);
            if mapped as isize == -1 {
                return None;
            }
            let start = mapped.byte_add(mapped.addr().wrapping_neg() % HUGE_PAGE);
            // Asked before the first write, which is when the kernel gives pages.
            let advised = madvise(start, whole, MADV_HUGEPAGE) == 0;
            let huge = Huge { mapped, bytes, start: start.cast(), words: words.len() };
            start.cast::<u32>().copy_from_nonoverlapping(words.as_ptr(), words.len());
            advised.then_some(huge)
        }
    }
}

impl Deref for Huge {
    type Target = [u32];

    fn deref(&self) -> &[u32] {
        // SAFETY: so many words were written there.
        unsafe { slice::from_raw_parts(self.start, self.words) }
    }
}

impl Drop for Huge {
    fn drop(&mut self) {
        // SAFETY: what was mapped, of which no slice outlives the value.
        unsafe { munmap(self.mapped, self.bytes) };
    }
}

/// The kilobytes in huge pages of the kernel's mapping that holds the words; it may hold more than them.
pub fn given(words: &[u32]) -> Option<usize> {
    let (at, maps) = (words.as_ptr().addr(), fs::read_to_string("/proc/self/smaps").ok()?);
    let mut inside = false;
    for line in maps.lines() {
        let mut parts = line.split_whitespace();
        match parts.next()?.strip_suffix(':') {
            None => inside = range(line)?.contains(&at),
            Some("AnonHugePages") if inside => return parts.next()?.parse().ok(),
            Some(_) => (),
        }
    }
    None
}

/// The addresses of a mapping, whose first line starts with them.
fn range(line: &str) -> Option<std::ops::Range<usize>> {
    let (start, rest) = line.split_once('-')?;
    let (end, _) = rest.split_once(' ')?;
    Some(usize::from_str_radix(start, 16).ok()?..usize::from_str_radix(end, 16).ok()?)
}
