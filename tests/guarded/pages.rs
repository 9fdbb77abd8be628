//! Memory for one slice, between guards: pages that nobody may read or write.

use std::mem::size_of_val;
use std::ptr;
use std::sync::atomic::AtomicU64;

const PAGE: usize = 4_096;
/// As far as a length of four bytes leads, so that a wild one cannot lead past a guard.
const GUARD_WIDTH: usize = 1 << 32;

// Linux on x86-64, for which the library is built.
const NOTHING: i32 = 0;
const READ: i32 = 1;
const WRITE: i32 = 2;
const SHARED: i32 = 0x01;
const PRIVATE: i32 = 0x02;
const ANONYMOUS: i32 = 0x20;
const NO_RESERVE: i32 = 0x4000;

extern "C" {
    fn mmap(at: *mut u8, length: usize, access: i32, flags: i32, file: i32, offset: i64)
        -> *mut u8;
    fn mprotect(at: *mut u8, length: usize, access: i32) -> i32;
}

fn mapped(length: usize, access: i32, flags: i32) -> *mut u8 {
    let at = unsafe { mmap(ptr::null_mut(), length, access, flags | ANONYMOUS, -1, 0) };
    assert_ne!(at as isize, -1, "{length} bytes are mapped");
    at
}

/// Numbers that a parent reads after its child has ended, however it ended.
pub fn shared_numbers() -> &'static [AtomicU64; 3] {
    let at = mapped(PAGE, READ | WRITE, SHARED);
    unsafe { &*at.cast() }
}

/// The guard that a slice touches.
#[derive(Clone, Copy, PartialEq, Eq, Debug)]
pub enum Guard {
    Before,
    Behind,
}

pub const GUARDS: [Guard; 2] = [Guard::Before, Guard::Behind];

pub struct Pages {
    first: *mut u8,
    bytes: usize,
    sealed: bool,
}

impl Pages {
    /// For slices of at most so many bytes.
    pub fn new(most: usize) -> Pages {
        let bytes = (most + PAGE - 1) / PAGE * PAGE;
        let guarded = GUARD_WIDTH + bytes + GUARD_WIDTH;
        let before = mapped(guarded, NOTHING, PRIVATE | NO_RESERVE);
        let mut pages = Pages {
            first: before.wrapping_add(GUARD_WIDTH),
            bytes,
            sealed: true,
        };
        pages.open();
        pages
    }

    fn allow(&self, access: i32) {
        let done = unsafe { mprotect(self.first, self.bytes, access) };
        assert_eq!(done, 0, "the pages are protected");
    }

    fn open(&mut self) {
        if self.sealed {
            self.allow(READ | WRITE);
            self.sealed = false;
        }
    }

    /// Copies a slice in, so that nothing is between it and the guard.
    pub fn place<T: Copy>(&mut self, slice: &[T], guard: Guard) -> *mut T {
        self.open();
        let free = self.bytes.checked_sub(size_of_val(slice));
        let free = free.expect("a slice that fits");
        let from = if guard == Guard::Before { 0 } else { free };
        let at: *mut T = self.first.wrapping_add(from).cast();
        unsafe { ptr::copy_nonoverlapping(slice.as_ptr(), at, slice.len()) };
        at
    }

    /// Nobody may write until the next slice is placed.
    pub fn seal(&mut self) {
        self.allow(READ);
        self.sealed = true;
    }
}
