//! An allocator that counts the bytes that it has given, as they were asked for.

use std::alloc::{GlobalAlloc, Layout, System};
use std::sync::atomic::{AtomicUsize, Ordering};

pub struct Counted;

static GIVEN: AtomicUsize = AtomicUsize::new(0);

// SAFETY: the system's allocator does the work, and is called with what is given here.
unsafe impl GlobalAlloc for Counted {
    unsafe fn alloc(&self, layout: Layout) -> *mut u8 {
        GIVEN.fetch_add(layout.size(), Ordering::Relaxed);
        System.alloc(layout)
    }
    unsafe fn dealloc(&self, block: *mut u8, layout: Layout) {
        GIVEN.fetch_sub(layout.size(), Ordering::Relaxed);
        System.dealloc(block, layout)
    }
}

/// The bytes that are given now.
fn given() -> usize {
    GIVEN.load(Ordering::Relaxed)
}

/// The bytes that `make` took and that what it made keeps, shared by `count`.
pub fn bytes<T>(count: usize, make: impl FnOnce() -> T) -> f64 {
    let before = given();
    let made = make();
    let kept = given() - before;
    drop(made);
    kept as f64 / count as f64
}

/// As `bytes`, where the list itself, in which the caller keeps what it made, is not counted.
pub fn bytes_of_each<T>(count: usize, make: impl FnMut(usize) -> T) -> f64 {
    let mut list = Vec::with_capacity(count);
    let before = given();
    list.extend((0..count).map(make));
    (given() - before) as f64 / count as f64
}
