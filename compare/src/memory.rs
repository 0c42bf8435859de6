//! Memory for sizes that are only said.
//!
//! The crate asks for as many zeros as the size of a 2.3 frame says, up to 4 GiB, and leaves them untouched where the tag has
//! fewer bytes. Mapping so much anew each time costs more than all the rest, so that untouched regions are lent again and again.
//! Everything else comes from the system's allocator.
use std::alloc::{GlobalAlloc, Layout, System};
use std::ptr::null_mut;
use std::sync::atomic::{AtomicBool, AtomicPtr, Ordering};

/// An allocator with some large regions.
pub struct Memory([Region; 8]);

struct Region {
    base: AtomicPtr<u8>,
    lent: AtomicBool,
}

/// As much as a 2.3 frame can ask for.
const LARGE: usize = 4 << 30;
/// Up to here the system's allocator serves.
const SMALL: usize = 1 << 20;
/// Bytes of a region that are looked at when it comes back.
const LOOKED: usize = 64;

impl Memory {
    /// No region yet.
    pub const fn new() -> Memory {
        Memory([const { Region { base: AtomicPtr::new(null_mut()), lent: AtomicBool::new(false) } }; 8])
    }

    // a region that nobody has, made if need be
    fn lend(&self) -> Option<*mut u8> {
        let region = self.0.iter().find(|region| !region.lent.swap(true, Ordering::AcqRel))?;
        let mut base = region.base.load(Ordering::Acquire);
        if base.is_null() {
            // SAFETY: the layout's size is not 0
            base = unsafe { System.alloc_zeroed(Layout::from_size_align(LARGE, 16).ok()?) };
            region.base.store(base, Ordering::Release);
        }
        // without memory for it the place stays empty and lent
        (!base.is_null()).then_some(base)
    }

    fn of(&self, block: *mut u8) -> Option<&Region> {
        self.0.iter().find(|region| region.base.load(Ordering::Acquire) == block)
    }
}

fn is_large(layout: Layout) -> bool {
    layout.size() > SMALL && layout.size() <= LARGE && layout.align() <= 16
}

// SAFETY: a block is the system's own, or a region of `LARGE` zeros from the system that one owner has at a time. A region comes back to be
// lent again only while its front is still zeros: its one user fills it from the front or not at all. It is never given back.
unsafe impl GlobalAlloc for Memory {
    unsafe fn alloc(&self, layout: Layout) -> *mut u8 {
        System.alloc(layout)
    }

    unsafe fn alloc_zeroed(&self, layout: Layout) -> *mut u8 {
        match is_large(layout).then(|| self.lend()).flatten() {
            Some(block) => block,
            None => System.alloc_zeroed(layout),
        }
    }

    unsafe fn dealloc(&self, block: *mut u8, layout: Layout) {
        match is_large(layout).then(|| self.of(block)).flatten() {
            Some(region) => {
                let front = std::slice::from_raw_parts(block, LOOKED);
                let touched = front.iter().any(|byte| *byte != 0);
                region.lent.store(touched, Ordering::Release);
            }
            None => System.dealloc(block, layout),
        }
    }

    unsafe fn realloc(&self, block: *mut u8, layout: Layout, size: usize) -> *mut u8 {
        if !is_large(layout) || self.of(block).is_none() {
            return System.realloc(block, layout, size);
        }
        let other = System.alloc(Layout::from_size_align_unchecked(size, layout.align()));
        if !other.is_null() {
            std::ptr::copy_nonoverlapping(block, other, size.min(layout.size()));
            self.dealloc(block, layout);
        }
        other
    }
}
