//! Words and slots between threads, used as `lane` uses them: a word says which thread may use a
//! slot.

use rattle_std::alloc::Global;
use rattle_std::atomic_table::{Seat, Shared, Table};
use std::sync::atomic::{AtomicUsize, Ordering};
use std::thread;

type Slots = Table<Option<Counted>, (), (), (), Global>;
type Token = Seat<Option<Counted>, ()>;

static LIVE: AtomicUsize = AtomicUsize::new(0);

/// An item that owns memory and is counted.
struct Counted(Box<u64>);

impl Counted {
    fn new(number: u64) -> Self {
        LIVE.fetch_add(1, Ordering::Relaxed);
        Counted(Box::new(number))
    }
}

impl Drop for Counted {
    fn drop(&mut self) {
        LIVE.fetch_sub(1, Ordering::Relaxed);
    }
}

fn table(words: usize, slots: usize) -> (Slots, Token) {
    Slots::vacant(Global, &vec![7; words], slots, &()).expect("memory is ample")
}

fn count(most: u64) -> u64 {
    std::env::var("ARCHCARAWAY_COUNT")
        .ok()
        .and_then(|value| value.parse().ok())
        .unwrap_or(u64::MAX)
        .min(most)
}

fn wait_for(
    shared: &Shared<Option<Counted>, ()>,
    seat: &mut Token,
    word: usize,
    is_there: impl Fn(u64) -> bool,
) {
    let mut tries = 0;
    while !is_there(shared.load::<()>(seat, word)) {
        tries += 1;
        if tries % 64 == 0 { thread::yield_now() } else { std::hint::spin_loop() }
    }
}

// All in one test, since items are counted in one place.
#[test]
fn words_and_slots() {
    in_one_hand();
    assert_eq!(LIVE.load(Ordering::Relaxed), 0);
    for slots in [1, 3, 64] {
        ring_between_threads(slots, count(20_000));
        assert_eq!(LIVE.load(Ordering::Relaxed), 0);
    }
    each_slot_its_threads(count(2_000));
    assert_eq!(LIVE.load(Ordering::Relaxed), 0);
}

fn in_one_hand() {
    let (table, mut seat) = table(3, 4);
    let shared = &table.shared;
    for word in 0..3 {
        assert_eq!(shared.load::<()>(&mut seat, word), 7);
        shared.store::<()>(&mut seat, word, u64::MAX - word as u64);
    }
    assert_eq!(
        (0..3).map(|word| shared.load::<()>(&mut seat, word)).collect::<Vec<_>>(),
        [u64::MAX, u64::MAX - 1, u64::MAX - 2]
    );
    let mut other = shared.split_seat::<()>(&mut seat);
    for slot in 0..4 {
        assert!(shared.exchange(&mut seat, slot, Some(Counted::new(slot as u64))).is_none());
    }
    for slot in 0..4 {
        let found = shared.exchange(&mut other, slot, (slot == 2).then(|| Counted::new(9)));
        assert_eq!(found.map(|item| *item.0), Some(slot as u64));
    }
    shared.join_seat::<()>(&mut seat, other);
    // The item in slot 2 is dropped with the table.
    assert_eq!(LIVE.load(Ordering::Relaxed), 1);
}

/// Items go round a ring: word 0 counts those taken, word 1 those sent. Some are left inside.
fn ring_between_threads(slots: u64, items: u64) {
    let (table, mut takes) = table(2, slots as usize);
    let shared = &table.shared;
    shared.store::<()>(&mut takes, 0, 0);
    shared.store::<()>(&mut takes, 1, 0);
    let mut sends = shared.split_seat::<()>(&mut takes);
    thread::scope(|scope| {
        let sender = scope.spawn(move || {
            for number in 0..items {
                wait_for(shared, &mut sends, 0, |taken| number - taken < slots);
                let before = shared.exchange(
                    &mut sends,
                    (number % slots) as usize,
                    Some(Counted::new(number)),
                );
                assert!(before.is_none());
                shared.store::<()>(&mut sends, 1, number + 1);
            }
        });
        for number in 0..items - slots.min(items) / 2 {
            wait_for(shared, &mut takes, 1, |sent| sent > number);
            let found = shared.exchange(&mut takes, (number % slots) as usize, None);
            assert_eq!(found.map(|item| *item.0), Some(number));
            shared.store::<()>(&mut takes, 0, number + 1);
        }
        sender.join().expect("the sender ends");
    });
}

/// Each of two threads has every other slot, which lie side by side.
fn each_slot_its_threads(rounds: u64) {
    let (table, mut first) = table(1, 8);
    let shared = &table.shared;
    let second = shared.split_seat::<()>(&mut first);
    let exchange = |mine: usize, mut seat: Token| {
        for round in 0..rounds {
            for slot in (mine..8).step_by(2) {
                let before = shared.exchange(&mut seat, slot, Some(Counted::new(round)));
                assert_eq!(before.map(|item| *item.0), round.checked_sub(1));
            }
        }
    };
    thread::scope(|scope| {
        let other = scope.spawn(move || exchange(1, second));
        exchange(0, first);
        other.join().expect("the thread ends");
    });
}

/// Memory that no machine has is refused.
#[test]
fn memory_beyond_the_machine_is_refused() {
    assert!(Slots::vacant(Global, &[0], usize::MAX / 8, &()).is_err());
}
