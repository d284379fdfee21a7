//! An allocator that notes what the thread at hand asks for.

use std::alloc::{GlobalAlloc, Layout, System};
use std::cell::RefCell;

thread_local! {
    /// The bytes of each allocation that this thread makes, while it is counted.
    static MADE: RefCell<Option<Vec<usize>>> = const { RefCell::new(None) };
}

struct Counting;

// SAFETY: every call is handed on to the system's allocator as it is.
unsafe impl GlobalAlloc for Counting {
    unsafe fn alloc(&self, layout: Layout) -> *mut u8 {
        count(layout.size());
        // SAFETY: the caller keeps to the promises of `alloc`.
        unsafe { System.alloc(layout) }
    }

    unsafe fn alloc_zeroed(&self, layout: Layout) -> *mut u8 {
        count(layout.size());
        // SAFETY: the caller keeps to the promises of `alloc_zeroed`.
        unsafe { System.alloc_zeroed(layout) }
    }

    unsafe fn realloc(&self, pointer: *mut u8, layout: Layout, size: usize) -> *mut u8 {
        count(size);
        // SAFETY: the caller keeps to the promises of `realloc`.
        unsafe { System.realloc(pointer, layout, size) }
    }

    unsafe fn dealloc(&self, pointer: *mut u8, layout: Layout) {
        // SAFETY: the caller keeps to the promises of `dealloc`.
        unsafe { System.dealloc(pointer, layout) }
    }
}

#[global_allocator]
static ALLOCATOR: Counting = Counting;

/// The list of sizes has room for as many as are counted here, so that noting one allocates nothing.
fn count(bytes: usize) {
    MADE.with(|made| {
        if let Some(made) = made.borrow_mut().as_mut() {
            assert!(made.len() < made.capacity());
            made.push(bytes);
        }
    });
}

/// What a call gives, and the bytes of each allocation that it makes.
pub fn counted<T>(call: impl FnOnce() -> T) -> (T, Vec<usize>) {
    let room = Vec::with_capacity(64);
    MADE.with(|made| *made.borrow_mut() = Some(room));
    let answer = call();
    (answer, MADE.with(|made| made.borrow_mut().take().unwrap()))
}
