//! Where a sheet that is measured stands in memory: one of many bytes in huge pages, where the system gives them to a program that asks. In pages of 4,096 bytes
//! each row with a page of data stands in another one, and finding them adds half of the time or more.

use std::alloc::{alloc, dealloc, handle_alloc_error, Layout};
use std::ffi::{c_int, c_void};
use std::ops::Deref;

/// From so many bytes on.
const MANY: usize = 4 << 20;

/// A huge page's bytes.
const HUGE: usize = 2 << 20;

extern "C" {
    fn madvise(start: *mut c_void, length: usize, advice: c_int) -> c_int;
}

/// The pages are given back, so that those that come when they are filled are new.
const MADV_DONTNEED: c_int = 4;
const MADV_HUGEPAGE: c_int = 14;

/// A sheet's bytes.
pub struct Sheet {
    start: *mut u8,
    length: usize,
    layout: Layout,
}

impl Sheet {
    /// A copy of the bytes, of which there are some.
    pub fn of(bytes: &[u8]) -> Sheet {
        assert!(!bytes.is_empty());
        let is_many = bytes.len() >= MANY;
        let align = if is_many { HUGE } else { 16 };
        let layout = Layout::from_size_align(bytes.len(), align).expect("a layout").pad_to_align();
        // SAFETY: the layout has bytes, at least those that are copied. What advice is given of are whole huge pages that no one else has and that hold nothing
        // yet; where it is not taken, the pages are as others.
        unsafe {
            let start = alloc(layout);
            if start.is_null() {
                handle_alloc_error(layout);
            }
            if is_many {
                madvise(start.cast(), layout.size(), MADV_DONTNEED);
                madvise(start.cast(), layout.size(), MADV_HUGEPAGE);
            }
            start.copy_from_nonoverlapping(bytes.as_ptr(), bytes.len());
            Sheet { start, length: bytes.len(), layout }
        }
    }
}

impl Deref for Sheet {
    type Target = [u8];

    fn deref(&self) -> &[u8] {
        // SAFETY: `of` has filled as many bytes, and they live as long as self.
        unsafe { std::slice::from_raw_parts(self.start, self.length) }
    }
}

impl Drop for Sheet {
    fn drop(&mut self) {
        // SAFETY: `of` has allocated them with this layout.
        unsafe { dealloc(self.start, self.layout) }
    }
}
