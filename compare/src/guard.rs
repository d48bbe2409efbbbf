//! Lent memory between two pages that must not be touched: a read or write one element past either end is a fault,
//! which ends the comparison with the call and case that it happened in.

use std::ops::{Deref, DerefMut};
use std::sync::atomic::{AtomicPtr, AtomicU64, AtomicUsize, Ordering::Relaxed};
use std::{ptr, slice};

const PAGE: usize = 4096;
const PROT_NONE: i32 = 0;
const PROT_READ: i32 = 1;
const PROT_READ_WRITE: i32 = 3;
const MAP_PRIVATE_ANONYMOUS: i32 = 0x22;
const SIGBUS: i32 = 7;
const SIGSEGV: i32 = 11;

extern "C" {
    fn mmap(address: *mut u8, length: usize, protection: i32, flags: i32, file: i32, offset: i64) -> *mut u8;
    fn mprotect(address: *mut u8, length: usize, protection: i32) -> i32;
    fn munmap(address: *mut u8, length: usize) -> i32;
    fn signal(number: i32, handler: extern "C" fn(i32)) -> usize;
    fn write(file: i32, bytes: *const u8, length: usize) -> isize;
    fn _exit(status: i32) -> !;
}

/// At which end the lent elements touch a guard. Only whole pages touch both.
#[derive(Clone, Copy, Debug)]
pub enum Side {
    Front,
    Back,
}

/// Elements of plain numbers between two guards.
pub struct Lent<T> {
    map: *mut u8,
    pages: usize,
    first: *mut T,
    count: usize,
}

impl<T: Copy> Lent<T> {
    /// A guarded copy of the elements.
    pub fn copy_of(elements: &[T], side: Side) -> Lent<T> {
        let bytes = size_of_val(elements);
        let pages = bytes.div_ceil(PAGE);
        let map = unsafe { mmap(ptr::null_mut(), (pages + 2) * PAGE, PROT_NONE, MAP_PRIVATE_ANONYMOUS, -1, 0) };
        assert!(map as isize != -1, "no memory for {bytes} bytes");
        let skipped = match side {
            Side::Front => 0,
            Side::Back => pages * PAGE - bytes,
        };
        // SAFETY: the element's place is inside the map, which is aligned to a page; so are the bytes skipped, as a
        // page holds a whole number of elements.
        let first = unsafe { map.add(PAGE + skipped) }.cast::<T>();
        let mut lent = Lent { map, pages, first, count: elements.len() };
        lent.protect(PROT_READ_WRITE);
        lent.copy_from_slice(elements);
        lent
    }

    fn protect(&self, protection: i32) {
        // The length 0 of no pages is an error to some kernels.
        if self.pages > 0 {
            let status = unsafe { mprotect(self.map.add(PAGE), self.pages * PAGE, protection) };
            assert_eq!(status, 0, "mprotect");
        }
    }

    /// Makes a call while a write to the elements is a fault too.
    pub fn sealed<R>(&self, call: impl FnOnce(&[T]) -> R) -> R {
        self.protect(PROT_READ);
        let result = call(self);
        self.protect(PROT_READ_WRITE);
        result
    }
}

impl<T> Deref for Lent<T> {
    type Target = [T];

    fn deref(&self) -> &[T] {
        // SAFETY: the map holds so many elements from there, all set when it was made.
        unsafe { slice::from_raw_parts(self.first, self.count) }
    }
}

impl<T> DerefMut for Lent<T> {
    fn deref_mut(&mut self) -> &mut [T] {
        // SAFETY: as above, and the map is this value's own.
        unsafe { slice::from_raw_parts_mut(self.first, self.count) }
    }
}

impl<T> Drop for Lent<T> {
    fn drop(&mut self) {
        unsafe { munmap(self.map, (self.pages + 2) * PAGE) };
    }
}

/// A text that a signal handler may read.
struct Note {
    first: AtomicPtr<u8>,
    length: AtomicUsize,
}

impl Note {
    const fn new() -> Note {
        Note { first: AtomicPtr::new(ptr::null_mut()), length: AtomicUsize::new(0) }
    }

    fn set(&self, text: &'static str) {
        self.length.store(0, Relaxed);
        self.first.store(text.as_ptr().cast_mut(), Relaxed);
        self.length.store(text.len(), Relaxed);
    }

    fn say(&self) {
        unsafe { write(2, self.first.load(Relaxed), self.length.load(Relaxed)) };
    }
}

static PART: Note = Note::new();
static CALL: Note = Note::new();
static CASE: AtomicU64 = AtomicU64::new(0);

/// Notes which case begins, for the message of a fault.
pub fn begin_case(part: &'static str, case: u64) {
    PART.set(part);
    CASE.store(case, Relaxed);
}

/// Notes which call is made, for the message of a fault.
pub fn begin_call(name: &'static str) {
    CALL.set(name);
}

/// From here on a fault says where it happened and exits with status 1.
pub fn watch() {
    unsafe {
        signal(SIGSEGV, fault);
        signal(SIGBUS, fault);
    }
}

/// Only what a signal handler may do: no allocation, no lock.
extern "C" fn fault(_: i32) {
    let say = |text: &[u8]| unsafe { write(2, text.as_ptr(), text.len()) };
    say(b"fault: memory beside the lent, or lent for reading only, was touched by ");
    CALL.say();
    say(b" in ");
    PART.say();
    say(b" case ");
    let case = CASE.load(Relaxed);
    let places = case.checked_ilog10().unwrap_or(0);
    for place in (0..=places).rev() {
        say(&[b'0' + (case / 10_u64.pow(place) % 10) as u8]);
    }
    say(b"\n");
    unsafe { _exit(1) }
}
