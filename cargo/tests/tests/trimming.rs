//! A set that is trimmed between batches against one that isn't.

use conflict::ConflictSet;
use rattle_std::alloc::Global;
use stepmap::MAX_LIMIT;
use tests::cases::{count, run};
use tests::drawn::KeySpace;
use tests::plain::{PlainBatch, PlainReply};
use tests::random::Random;

fn next_batch(space: &KeySpace, random: &mut Random, previous: i64, window: i64) -> PlainBatch {
    let version = previous + random.between(1, 1 + window / 2);
    let snapshots = (version - window - window / 4, version - 1);
    let txns = (0..random.index(9)).map(|_| space.txn(random, 4, snapshots)).collect();
    PlainBatch { previous, version, received: -1, txns }
}

/// Trims one of two sets before some of the batches. Returns how many batches there were.
fn set_case(random: &mut Random) -> u64 {
    let space = KeySpace::drawn(random);
    let (window, limit) =
        (random.pick(&[1, 20, 500, 1 << 40]), random.pick(&[9, 40, 1_000, MAX_LIMIT]));
    let made = || ConflictSet::new(Global, window, limit).expect("memory is ample");
    let (mut trimmed, mut other) = (made(), made());
    let often = random.pick(&[1, 2, 10]);
    let (mut previous, batches) = (-1, 1 + random.below(60));
    for _ in 0..batches {
        let batch = next_batch(&space, random, previous, window);
        previous = batch.version;
        if random.one_in(often) {
            assert_eq!(trimmed.trim(), Ok(()));
        }
        let (one, two) = (trimmed.try_resolve(&batch.batch()), other.try_resolve(&batch.batch()));
        assert_eq!(one.as_ref().map(PlainReply::of), two.as_ref().map(PlainReply::of));
        assert_eq!(trimmed.boundaries(), other.boundaries());
        assert_eq!(
            (trimmed.limit(), trimmed.version(), trimmed.edge()),
            (other.limit(), other.version(), other.edge())
        );
    }
    batches
}

/// A set that is trimmed answers what one that isn't trimmed answers.
#[test]
fn trimmed_beside_untrimmed() {
    run("trimmed_beside_untrimmed", count(2_000_000, 20_000), set_case);
}
