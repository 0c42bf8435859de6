//! Buffers between fences: pages that may not be touched, so that a read or a write outside a buffer ends the test.

use std::ffi::c_void;
use std::{ptr, slice};

extern "C" {
    fn mmap(at: *mut c_void, len: usize, protection: i32, flags: i32, file: i32, offset: i64) -> *mut c_void;
    fn mprotect(at: *mut c_void, len: usize, protection: i32) -> i32;
}

/// Bytes of the part that may be touched, and of the fence on each side: a multiple of every page size in use.
const ROOM: usize = 1 << 16;
const NOT_TOUCHED: i32 = 0;
const READ_AND_WRITTEN: i32 = 3;
const PRIVATE_AND_ANONYMOUS: i32 = 0x22;

/// Elements beside a buffer, away from the fence, that must stay.
const GUARDS: usize = 8;

/// An element of a buffer.
pub trait Element: Copy + PartialEq + std::fmt::Debug {
    /// What the guards hold.
    const GUARD: Self;
}

impl Element for u8 {
    const GUARD: u8 = 0xA5;
}

impl Element for u32 {
    const GUARD: u32 = 0xA5A5_A5A5;
}

impl Element for u64 {
    const GUARD: u64 = 0xA5A5_A5A5_A5A5_A5A5;
}

/// One buffer, which lies at the left or at the right fence. The memory is never given back.
pub struct Fenced<T> {
    base: *mut T,
    start: usize,
    was: Vec<T>,
}

impl<T: Element> Fenced<T> {
    pub fn new() -> Fenced<T> {
        // SAFETY: a new mapping of three parts, the middle of which is made accessible.
        let base = unsafe {
            let area = mmap(ptr::null_mut(), 3 * ROOM, NOT_TOUCHED, PRIVATE_AND_ANONYMOUS, -1, 0);
            assert!(area as isize != -1, "no memory");
            let base = area.cast::<u8>().add(ROOM);
            assert_eq!(mprotect(base.cast(), ROOM, READ_AND_WRITTEN), 0);
            base.cast::<T>()
        };
        Fenced { base, start: 0, was: Vec::new() }
    }

    /// How many elements there can be.
    fn most() -> usize {
        ROOM / size_of::<T>()
    }

    /// Makes the buffer hold these elements, at the right fence or at the left one.
    pub fn put(&mut self, content: Vec<T>, right: bool) {
        assert!(content.len() + GUARDS <= Self::most());
        self.start = if right { Self::most() - content.len() } else { 0 };
        self.was = content;
        let (start, len) = (self.start, self.was.len());
        let (from, to) = (start.saturating_sub(GUARDS), (start + len + GUARDS).min(Self::most()));
        self.area()[from..to].fill(T::GUARD);
        let content = self.was.clone();
        self.area()[start..][..len].copy_from_slice(&content);
    }

    /// All that may be touched.
    fn area(&mut self) -> &mut [T] {
        // SAFETY: the mapping lives as long as the process, is aligned to pages and borrowed through self alone.
        unsafe { slice::from_raw_parts_mut(self.base, Self::most()) }
    }

    /// The buffer.
    pub fn lent(&mut self) -> &mut [T] {
        let (start, len) = (self.start, self.was.len());
        &mut self.area()[start..][..len]
    }

    /// What was put.
    pub fn was(&self) -> &[T] {
        &self.was
    }

    /// Checks that the guards stayed, and gives the buffer as it is now.
    pub fn now(&self) -> &[T] {
        let (start, len) = (self.start, self.was.len());
        let (from, to) = (start.saturating_sub(GUARDS), (start + len + GUARDS).min(Self::most()));
        // SAFETY: as for `area`, borrowed for reading.
        let area = unsafe { slice::from_raw_parts(self.base, Self::most()) };
        let mut beside = area[from..start].iter().chain(&area[start + len..to]);
        assert!(beside.all(|element| *element == T::GUARD), "a guard was overwritten");
        &area[start..][..len]
    }
}
