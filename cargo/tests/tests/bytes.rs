//! The bytes that a filter, boundaries and an arena report, beside those of the allocator. A
//! program of its own, since the allocator is one per program.

use arena::{Arena, Slot};
use boundaries::Boundaries;
use rattle_std::alloc::Global;
use std::alloc::{GlobalAlloc, Layout, System};
use std::cell::Cell;
use stepmap::Filter;

thread_local! {
    // How many bytes this thread has allocated and not freed, and the most in one allocation. It
    // also frees what another has allocated.
    static HELD: Cell<isize> = const { Cell::new(0) };
    static LARGEST: Cell<usize> = const { Cell::new(0) };
}

struct Counting;

// SAFETY: each call is passed to the system's allocator.
unsafe impl GlobalAlloc for Counting {
    unsafe fn alloc(&self, layout: Layout) -> *mut u8 {
        HELD.set(HELD.get() + layout.size() as isize);
        LARGEST.set(LARGEST.get().max(layout.size()));
        unsafe { System.alloc(layout) }
    }

    unsafe fn dealloc(&self, pointer: *mut u8, layout: Layout) {
        HELD.set(HELD.get() - layout.size() as isize);
        unsafe { System.dealloc(pointer, layout) }
    }
}

#[global_allocator]
static ALLOCATOR: Counting = Counting;

/// Returns the bytes that the allocator gave since it had given that many.
fn given_since(before: isize) -> usize {
    (HELD.get() - before).try_into().expect("some were given")
}

/// The slots of a chunk whose keys have at most 32 bytes.
const SLOTS: usize = 512;

/// The bytes of a slot besides its header and its key: a length of 2, and a name of 4.
const SLOT_BYTES: usize = 2 + size_of::<Slot>();

#[test]
fn a_filter_reports_the_bytes_of_its_cells() {
    let before = HELD.get();
    let mut filter = Filter::new(Global).expect("memory is ample");
    for count in [0, 257, 1_000, 100_000] {
        // More cells are for a filter that is useful.
        filter.write_key(7, 1);
        filter.reserve(count).expect("memory is ample");
        assert_eq!(filter.bytes_held(), given_since(before));
        assert!(filter.bytes_held() >= 24 * count);
    }
}

#[test]
fn boundaries_report_the_bytes_of_their_nodes() {
    let mut keys = Arena::new(Global);
    keys.place((), &[]).expect("memory is ample");
    LARGEST.set(0);
    let boundaries = Boundaries::new(Global, 7).expect("memory is ample");
    // There is one node, and one key as in `keys`. All nodes of a chunk are one allocation.
    let node = boundaries.bytes_held() - keys.bytes_held(0) - SLOT_BYTES;
    assert_eq!(LARGEST.get(), SLOTS * node);
}

#[test]
fn an_arena_reports_the_bytes_of_its_slots() {
    let before = HELD.get();
    let mut arena = Arena::<()>::new(Global);
    assert_eq!(arena.bytes_held(0), 0);
    for chunks in [1, 10, 100] {
        while arena.live() < chunks * SLOTS {
            arena.place((), b"key").expect("memory is ample");
        }
        let (reported, given) = (arena.bytes_held(0), given_since(before));
        assert_eq!(reported, chunks * SLOTS * (32 + SLOT_BYTES));
        assert!(reported <= given && given * 4 <= reported * 5, "{reported} {given}");
    }
}
