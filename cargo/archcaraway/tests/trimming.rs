//! How many bytes a set frees when it is trimmed and how many it reports, beside those of the
//! allocator, and that a refused allocation changes nothing.

use archcaraway::{Batch, BatchBuilder, ConflictSet, Core, MAX_LIMIT, TrimError, Txn, Verdict};
use std::alloc::{GlobalAlloc, Layout, System};
use std::cell::Cell;
use std::ptr;

thread_local! {
    // How many bytes this thread has allocated and not freed.
    static HELD: Cell<isize> = const { Cell::new(0) };
    // How many allocations of this thread succeed before the rest fail.
    static LEFT: Cell<usize> = const { Cell::new(usize::MAX) };
}

struct Counting;

fn is_refused() -> bool {
    let left = LEFT.get();
    LEFT.set(left.saturating_sub(1));
    left == 0
}

// SAFETY: each call is passed to the system's allocator, or returns null, which means that it
// failed.
unsafe impl GlobalAlloc for Counting {
    unsafe fn alloc(&self, layout: Layout) -> *mut u8 {
        if is_refused() {
            return ptr::null_mut();
        }
        HELD.set(HELD.get() + layout.size() as isize);
        unsafe { System.alloc(layout) }
    }

    unsafe fn dealloc(&self, pointer: *mut u8, layout: Layout) {
        HELD.set(HELD.get() - layout.size() as isize);
        unsafe { System.dealloc(pointer, layout) }
    }

    unsafe fn realloc(&self, pointer: *mut u8, layout: Layout, size: usize) -> *mut u8 {
        if is_refused() {
            return ptr::null_mut();
        }
        HELD.set(HELD.get() + size as isize - layout.size() as isize);
        unsafe { System.realloc(pointer, layout, size) }
    }
}

#[global_allocator]
static ALLOCATOR: Counting = Counting;

const WINDOW: i64 = 100;
const BATCHES: i64 = 50;
const WRITES: usize = 1_000;

fn key(number: usize) -> String {
    format!("{number:0100}")
}

fn batch<'a>(version: i64, txns: impl IntoIterator<Item = Txn<'a>>) -> Batch {
    let mut builder = BatchBuilder::new(version - 1, version);
    for txn in txns {
        builder.add(&txn).expect("it is within the limits");
    }
    builder.build().expect("it is within the limits")
}

/// Makes a set that had 100,001 boundaries and has few.
fn swept() -> ConflictSet {
    let mut set = ConflictSet::new(WINDOW, MAX_LIMIT).expect("the numbers are right");
    for number in 0..BATCHES {
        let first = number as usize * WRITES;
        let keys: Vec<_> = (first..first + WRITES).map(key).collect();
        let txns = keys.iter().map(|key| Txn::at(0).write_key(key));
        set.resolve(&batch(number, txns)).expect("memory is ample");
    }
    assert_eq!(set.boundaries(), 2 * BATCHES as usize * WRITES + 1);
    let mut version = 2 * WINDOW;
    while set.boundaries() > 9 {
        set.resolve(&batch(version, [Txn::at(version - 1).write_key("k")]))
            .expect("memory is ample");
        version += 1;
    }
    set
}

fn verdicts(set: &mut ConflictSet) -> Vec<Verdict> {
    let version = set.version() + 1;
    let reads = (1..5).map(|back| Txn::at(version - back).read_key("k"));
    let reply = set.resolve(&batch(version, reads)).expect("memory is ample");
    reply.verdicts().collect()
}

/// Returns the bytes that the allocator gave since it had given that many.
fn given_since(before: isize) -> usize {
    (HELD.get() - before).try_into().expect("some were given")
}

#[test]
fn trimming_frees_what_few_boundaries_do_not_need() {
    let before = HELD.get();
    let (mut set, mut other) = (swept(), swept());
    let held = HELD.get() - before;
    set.trim().expect("memory is ample");
    let freed = before + held - HELD.get();
    println!("{held} bytes of two sets, {freed} freed");
    println!("they report {} before and {} after", other.bytes_held(), set.bytes_held());
    assert!(set.bytes_held() < other.bytes_held() / 4);
    assert!(set.bytes_held() + other.bytes_held() <= given_since(before));
    // One of the sets is trimmed, and its filter keeps at most 3 MiB.
    assert!(freed > held / 2 - (3 << 20) - 300_000, "{held} {freed}");
    assert!(held / 2 > 12 << 20, "{held}");
    assert_eq!(set.boundaries(), other.boundaries());
    assert_eq!(verdicts(&mut set), verdicts(&mut other));
}

#[test]
fn a_refused_trim_changes_nothing() {
    let (mut set, mut other) = (swept(), swept());
    let numbers = (set.boundaries(), set.edge(), set.limit(), set.version());
    for count in 0..1_000 {
        let held = HELD.get();
        LEFT.set(count);
        let trimmed = set.trim();
        LEFT.set(usize::MAX);
        assert_eq!((set.boundaries(), set.edge(), set.limit(), set.version()), numbers);
        assert_eq!(set.stop(), None);
        if trimmed.is_ok() {
            assert!(count > 0 && HELD.get() < held, "{count}");
            assert_eq!(verdicts(&mut set), verdicts(&mut other));
            return;
        }
        assert_eq!(trimmed, Err(TrimError));
        assert!(HELD.get() <= held, "nothing leaks");
    }
    panic!("it never succeeds");
}

#[test]
fn a_set_reports_no_more_bytes_than_were_given() {
    // Keys in order and out of order, with the lengths of different slots.
    for (length, step) in [(1, 1), (16, 1), (16, 7_919), (100, 7_919), (1_000, 7_919), (9_000, 1)] {
        let before = HELD.get();
        let mut set = ConflictSet::new(WINDOW, MAX_LIMIT).expect("the numbers are right");
        let (mut most, mut version) = (0, 0);
        for round in 0..30 {
            for count in [1, 10, if length < 1_000 { 1_000 } else { 30 }] {
                let keys = (0..count).map(|number| (number + round * 1_000) * step % 100_003);
                let keys: Vec<_> = keys.map(|number| format!("{number:0length$}")).collect();
                let txns = keys.iter().map(|key| Txn::at(0).write_key(key));
                version += if round < 20 { 1 } else { WINDOW };
                set.resolve(&batch(version, txns)).expect("memory is ample");
            }
            if round % 7 == 6 {
                set.trim().expect("memory is ample");
            }
            let (reported, given) = (set.bytes_held(), given_since(before));
            assert!(reported <= given, "{length} {round}: {reported} {given}");
            most = most.max(reported * 100 / given);
        }
        println!("keys of {length} bytes, {step} apart: up to {most} % of the bytes given");
    }
}

#[test]
fn a_core_reports_the_bytes_of_its_set() {
    let mut set = ConflictSet::new(WINDOW, MAX_LIMIT).expect("the numbers are right");
    let mut core = Core::new(1, WINDOW, MAX_LIMIT).expect("the numbers are right");
    for version in 0..10 {
        let keys: Vec<_> = (0..WRITES).map(|number| key(number * 10 + version as usize)).collect();
        let txns = || keys.iter().map(|key| Txn::at(0).write_key(key));
        set.resolve(&batch(version, txns())).expect("memory is ample");
        core.admit(0, batch(version, txns())).expect("memory is ample");
        assert_eq!(core.bytes_held(), set.bytes_held());
    }
}
