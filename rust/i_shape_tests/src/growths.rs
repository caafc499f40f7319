//! An allocator that refuses one growth of the memory of a test. It counts those of the test's own thread.
#![allow(unsafe_code)]

use std::alloc::{GlobalAlloc, Layout, System};
use std::cell::Cell;
use std::ptr;

#[global_allocator]
static ALLOCATOR: Refusing = Refusing;

struct Refusing;

thread_local! {
    /// How many growths there are up to the one to refuse; 0 where none is left to refuse.
    static LEFT: Cell<usize> = const { Cell::new(0) };
    static IS_REFUSED: Cell<bool> = const { Cell::new(false) };
}

/// From here on refuses the growth of this number, counted from 1. With 0 it refuses none.
pub fn refuse(growth: usize) {
    LEFT.set(growth);
}

/// Whether a growth was refused since this was asked last.
pub fn was_refused() -> bool {
    IS_REFUSED.replace(false)
}

/// Counts a growth, and returns whether it is the one to refuse.
fn is_refused() -> bool {
    let left = LEFT.get();
    LEFT.set(left.saturating_sub(1));
    if left == 1 {
        IS_REFUSED.set(true);
    }
    left == 1
}

// SAFETY: each call is the system's with the same arguments, or returns null.
unsafe impl GlobalAlloc for Refusing {
    unsafe fn alloc(&self, layout: Layout) -> *mut u8 {
        if is_refused() {
            return ptr::null_mut();
        }
        unsafe { System.alloc(layout) }
    }

    unsafe fn dealloc(&self, memory: *mut u8, layout: Layout) {
        unsafe { System.dealloc(memory, layout) }
    }

    unsafe fn realloc(&self, memory: *mut u8, layout: Layout, size: usize) -> *mut u8 {
        if is_refused() {
            return ptr::null_mut();
        }
        unsafe { System.realloc(memory, layout, size) }
    }
}
