//! Random cases by their seeds.

use crate::random::Random;
use std::env;
use std::panic::{AssertUnwindSafe, catch_unwind, resume_unwind};
use std::sync::atomic::{AtomicBool, AtomicU64, Ordering};
use std::thread;

/// Returns whether the long counts are wanted: `ARCHCARAWAY_LONG` is 1.
pub fn is_long() -> bool {
    env::var("ARCHCARAWAY_LONG").is_ok_and(|value| value == "1")
}

/// Returns the first count if the long ones are wanted, else the second. `ARCHCARAWAY_COUNT` is the
/// most of both.
pub fn count(long: u64, short: u64) -> u64 {
    let most =
        env::var("ARCHCARAWAY_COUNT").ok().and_then(|value| value.parse().ok()).unwrap_or(u64::MAX);
    if is_long() { long } else { short }.min(most)
}

/// Runs cases of the seeds 0, 1, 2 and so on until what they return adds up to the total. Several
/// threads take the seeds.
///
/// The seed of a case that panics is printed. `ARCHCARAWAY_SEED` is the only seed to run.
pub fn run(name: &str, total: u64, case: impl Fn(&mut Random) -> u64 + Sync) {
    if let Some(seed) = env::var("ARCHCARAWAY_SEED").ok().and_then(|value| value.parse().ok()) {
        case(&mut Random::new(seed));
        return;
    }
    let (seeds, done, failed) = (AtomicU64::new(0), AtomicU64::new(0), AtomicBool::new(false));
    // Each thread is joined by its handle, as the checkers of threads see it.
    thread::scope(|scope| {
        let work = || {
            while done.load(Ordering::Relaxed) < total && !failed.load(Ordering::Relaxed) {
                let seed = seeds.fetch_add(1, Ordering::Relaxed);
                match catch_unwind(AssertUnwindSafe(|| case(&mut Random::new(seed)))) {
                    Ok(weight) => done.fetch_add(weight, Ordering::Relaxed),
                    Err(panic) => {
                        failed.store(true, Ordering::Relaxed);
                        eprintln!("{name} fails: ARCHCARAWAY_SEED={seed}");
                        resume_unwind(panic);
                    }
                };
            }
        };
        let threads = thread::available_parallelism().map_or(1, usize::from);
        let handles: Vec<_> = (0..threads).map(|_| scope.spawn(work)).collect();
        handles
            .into_iter()
            .for_each(|handle| handle.join().unwrap_or_else(|panic| resume_unwind(panic)));
    });
}
