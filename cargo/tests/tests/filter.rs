//! Bounds of the filter by hand. `step_map` compares it with all writes.

use keys::key_hash;
use rattle_std::alloc::Global;
use stepmap::Filter;

fn filter() -> Filter {
    Filter::new(Global).expect("memory is ample")
}

/// A key at 100, a range at 150, a key at 200, and the first key again at an older version.
#[test]
fn bounds_of_writes() {
    let mut filter = filter();
    filter.write_key(key_hash(b"first"), 100);
    filter.write_range(150);
    filter.write_key(key_hash(b"second"), 200);
    filter.write_key(key_hash(b"first"), 120);
    for _ in 0..2 {
        let bounds = [&b"first"[..], b"second", b"neither"].map(|key| filter.bound(key));
        assert_eq!(
            (bounds, filter.newest_range(), filter.is_useful()),
            ([150, 200, 150], 150, true)
        );
        // More cells keep the bounds.
        filter.reserve(8_000).expect("memory is ample");
    }
}

#[test]
fn useful_while_the_newest_write_is_a_key() {
    let mut filter = filter();
    assert!(!filter.is_useful());
    filter.write_key(key_hash(b"first"), 100);
    assert!(filter.is_useful());
    filter.write_range(100);
    assert!(!filter.is_useful());
}

/// These hashes fall into one cell, which tells two written ones apart, and others by 32 marks.
#[test]
fn keys_of_one_cell() {
    let mut filter = filter();
    filter.write_key(0, 100);
    filter.write_key(1, 200);
    filter.write_key(1, 300);
    assert_eq!([0, 1, 32, 33].map(|hash| filter.bound_at(hash)), [100, 300, 100, -1]);
    filter.write_key(2, 150);
    assert_eq!([0, 1, 2, 3, 33].map(|hash| filter.bound_at(hash)), [150, 300, 150, -1, -1]);
    filter.write_key(3, 400);
    assert_eq!(
        [0, 1, 3, 4, 0x8000_0000].map(|hash| filter.bound_at(hash)),
        [300, 300, 400, -1, -1]
    );
}
