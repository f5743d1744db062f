//! Gatekeepers that watch a run: a file that stalls while another goes on, and when a batch is
//! admitted.

use rattle_std::alloc::Global;
use rattle_std::sync::Arc;
use replay_program::{Gatekeeper, ShareKeeper};
use replay_workers::{ReportedState, Stand, WaitingRoom};
use std::io::{Cursor, Read, Result};
use std::sync::atomic::{AtomicBool, AtomicU64, Ordering};
use std::{sync, thread};
use tests::playing::{file_of, file_of_versions, reader, replayed};
use wire::StdSource;

fn shared<G>(gatekeeper: G) -> Arc<G> {
    Arc::new(Global, gatekeeper).ok().expect("memory is ample")
}

/// How often a reader looks whether it may go on, before it goes on anyway.
const MAX_LOOKS: u32 = 100_000_000;

/// Reads a file, and stalls at this place until the other proxy stands or has closed its lane.
struct Stalling {
    file: Cursor<Vec<u8>>,
    place: u64,
    goes_on: sync::Arc<AtomicBool>,
}

impl Stalling {
    fn wait(&self) {
        for _ in 0..MAX_LOOKS {
            if self.goes_on.load(Ordering::SeqCst) {
                return;
            }
            thread::yield_now();
        }
    }
}

impl Read for Stalling {
    fn read(&mut self, bytes: &mut [u8]) -> Result<usize> {
        if self.file.position() >= self.place {
            self.wait();
        }
        self.file.read(bytes)
    }
}

/// Does what the program's gatekeeper does, and lets the reader of proxy 0 go on once proxy 1 isn't
/// admitted, or sends no more.
struct Releasing {
    room: WaitingRoom,
    keeps_shares: bool,
    goes_on: sync::Arc<AtomicBool>,
}

impl Releasing {
    fn release(&self, proxy: usize) {
        if proxy == 1 {
            self.goes_on.store(true, Ordering::SeqCst);
        }
    }
}

impl Gatekeeper for Releasing {
    fn may_send(&self, _proxy: usize, _place: u64) -> bool {
        true
    }

    fn answered(&self, _proxy: usize, _place: u64) {}
}

impl ShareKeeper for Releasing {
    fn stands(&self, proxy: usize, stand: Stand) -> bool {
        if !self.keeps_shares || ShareKeeper::stands(&self.room, proxy, stand) {
            return true;
        }
        self.release(proxy);
        false
    }

    fn closed(&self, proxy: usize) {
        self.release(proxy);
        self.room.closed(proxy);
    }

    fn reported_state(&self, proxy: usize) -> ReportedState {
        ShareKeeper::reported_state(&self.room, proxy)
    }

    fn admit(&self, proxy: usize) {
        ShareKeeper::admit(&self.room, proxy);
    }
}

/// So many batches the chain has, of which each proxy has every second one.
const BATCHES: i64 = 2_100;

fn every_second(proxy: i64) -> impl Iterator<Item = i64> {
    (proxy..BATCHES).step_by(2)
}

/// Replays the two files, of which the first stalls after its first frames.
fn replayed_beside_a_stall(keeps_shares: bool) -> String {
    let goes_on = sync::Arc::new(AtomicBool::new(false));
    let reader = |proxy, place| {
        let file = Cursor::new(file_of_versions(every_second(proxy)));
        StdSource::new(Stalling { file, place, goes_on: sync::Arc::clone(&goes_on) })
    };
    let readers = vec![reader(0, 100), reader(1, u64::MAX)];
    let room = WaitingRoom::new(Global, 2).expect("memory is ample");
    replayed(readers, &shared(Releasing { room, keeps_shares, goes_on }))
}

/// The second proxy goes on up to its share, and waits there until the first has caught up.
#[test]
fn stalled_file_stops_nobody() {
    let lines = [0, 1].map(|proxy| {
        every_second(proxy).map(|version| format!("{proxy} {version} empty\n")).collect::<String>()
    });
    assert!(replayed_beside_a_stall(true) == lines.concat() + "done: ");
}

/// If shares aren't kept, the second proxy fills the gate meanwhile.
#[test]
fn stalled_file_without_shares() {
    assert!(replayed_beside_a_stall(false).ends_with("failed: replay: stop 2 GateFull\n"));
}

/// How often the first look yields at most until the first batch is sent.
const MAX_YIELDS: u64 = 10_000_000;

/// Tells of its one proxy that it stands, from its first batch on. During the first look that batch
/// is sent, and so it is taken between the first look and the second. The second batch may be sent
/// once some batch was admitted twice.
#[derive(Default)]
struct Watched {
    // how many batches the proxy has had ready, and how many it may send
    read: AtomicU64,
    open: AtomicU64,
    // how many looks have found that it stands: all, those before a batch was admitted, and those
    // before one was again
    looks: AtomicU64,
    first: AtomicU64,
    again: AtomicU64,
}

impl Watched {
    /// Lets the first batch be sent, and waits until the second is ready.
    fn let_first_be_sent(&self) {
        self.open.store(1, Ordering::SeqCst);
        for _ in 0..MAX_YIELDS {
            if self.read.load(Ordering::SeqCst) > 1 {
                return;
            }
            thread::yield_now();
        }
    }
}

impl Gatekeeper for Watched {
    fn may_send(&self, _proxy: usize, place: u64) -> bool {
        self.read.store(place + 1, Ordering::SeqCst);
        place < self.open.load(Ordering::SeqCst)
    }

    fn answered(&self, _proxy: usize, _place: u64) {}
}

impl ShareKeeper for Watched {
    fn stands(&self, _proxy: usize, _stand: Stand) -> bool {
        true
    }

    fn closed(&self, _proxy: usize) {}

    fn reported_state(&self, _proxy: usize) -> ReportedState {
        if self.read.load(Ordering::SeqCst) == 0 {
            return ReportedState::Goes;
        }
        if self.looks.fetch_add(1, Ordering::SeqCst) == 0 {
            self.let_first_be_sent();
        }
        ReportedState::Stands(Stand { previous: 100, answered: 0 })
    }

    fn admit(&self, _proxy: usize) {
        let looks = self.looks.load(Ordering::SeqCst);
        if self.first.load(Ordering::SeqCst) == 0 {
            self.first.store(looks, Ordering::SeqCst);
        } else if self.again.load(Ordering::SeqCst) == 0 {
            self.again.store(looks, Ordering::SeqCst);
            self.open.store(2, Ordering::SeqCst);
        }
    }
}

/// Two batches that are held. A batch is admitted only if two looks in sequence have found the
/// same, with no batch taken between and none let through: the first look is forgotten when the
/// batch is taken, and the third when one is admitted.
#[test]
fn two_looks_equal_let_a_batch_through() {
    let watched = shared(Watched::default());
    let readers = vec![reader(file_of(&["100>200", "200>300"], b""))];
    assert_eq!(replayed(readers, &watched), "0 200 held\n0 300 held\ndone: ");
    assert_eq!([&watched.first, &watched.again].map(|looks| looks.load(Ordering::SeqCst)), [3, 5]);
}
