//! How a thread waits for another.

use std::thread;
use std::time::Duration;

// So many rests leave the processor to other threads at once; later ones sleep.
const YIELDS: u32 = 64;
const SLEEP: Duration = Duration::from_micros(50);

/// Counts the rests of one wait.
#[derive(Default)]
pub(crate) struct Waiting {
    rests: u32,
}

impl Waiting {
    /// Lets other threads run for a moment.
    pub(crate) fn rest(&mut self) {
        if self.rests < YIELDS {
            self.rests += 1;
            thread::yield_now();
        } else {
            thread::sleep(SLEEP);
        }
    }
}
