//! A session's bytes are zero when its box is given back, however it was moved and dropped.
#![deny(unsafe_op_in_unsafe_fn)]

use conguraha::{Direction, Mode, Session, Session32};
use std::alloc::{GlobalAlloc, Layout, System};
use std::cell::Cell;
use std::slice;

/// Counts what the test's thread gives back of a session's size: zero bytes, and other bytes.
struct Watching;

thread_local! {
    static WATCHED: Cell<bool> = const { Cell::new(false) };
    static WIPED: Cell<usize> = const { Cell::new(0) };
    static LEFT: Cell<usize> = const { Cell::new(0) };
}

fn watch(memory: *mut u8, layout: Layout) {
    let is_session = (layout.size(), layout.align()) == (Session32::BYTES, 8);
    if !is_session || !WATCHED.with(Cell::get) {
        return;
    }
    // SAFETY: it is still the program's, and a session wrote each of its bytes.
    let bytes = unsafe { slice::from_raw_parts(memory, layout.size()) };
    let wiped = bytes.iter().all(|&byte| byte == 0);
    let count = if wiped { &WIPED } else { &LEFT };
    count.with(|count| count.set(count.get() + 1));
}

// SAFETY: the system's allocator does it all.
unsafe impl GlobalAlloc for Watching {
    unsafe fn alloc(&self, layout: Layout) -> *mut u8 {
        unsafe { System.alloc(layout) }
    }

    unsafe fn dealloc(&self, memory: *mut u8, layout: Layout) {
        watch(memory, layout);
        unsafe { System.dealloc(memory, layout) }
    }
}

#[global_allocator]
static ALLOCATOR: Watching = Watching;

fn opened() -> Session {
    Session::open(Mode::Ofb, Direction::Encrypt, 128, &[7; 32], &[9; 16]).expect("an opening")
}

#[test]
fn a_dropped_session_is_wiped() {
    WATCHED.with(|watched| watched.set(true));
    drop(opened());
    let fed = opened().feed(&[1; 16], &mut [0; 16]).map(|fed| fed.session);
    let moved = vec![fed.expect("a feed"), opened().clone()];
    drop(moved);
    assert!(opened().feed(&[1; 16], &mut []).is_err());
    WATCHED.with(|watched| watched.set(false));
    assert_eq!((WIPED.with(Cell::get), LEFT.with(Cell::get)), (5, 0));
}
