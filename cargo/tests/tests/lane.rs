//! A lane in one thread and between two: order, loss, close, and items with destructors.

use lane::{Intake, Port, Refused, Taken, agree, lane};
use rattle_std::alloc::Global;
use std::collections::VecDeque;
use std::sync::Arc;
use std::sync::atomic::{AtomicU8, Ordering};
use std::thread;
use tests::cases::{count, run};
use tests::random::Random;

const CAPACITIES: [usize; 6] = [1, 2, 3, 16, 1_000, 1_024];

fn made<T>(capacity: usize) -> (Port<T>, Intake<T>) {
    lane(Global, capacity).expect("memory is ample")
}

/// Sends the item as soon as there is room, with a call that lets other threads run after some
/// tries.
fn send_at_last<T>(port: &mut Port<T>, mut item: T) {
    let mut tries = 0;
    while let Err(refused) = port.send(item) {
        let Refused::Full(back) = refused else {
            panic!("the lane isn't closed and isn't worn");
        };
        item = back;
        rest(&mut tries);
    }
}

/// Takes the next item as soon as there is one, or returns None at the end.
fn take_at_last<T>(intake: &mut Intake<T>) -> Option<T> {
    let mut tries = 0;
    loop {
        match intake.take() {
            Taken::Item(item) => return Some(item),
            Taken::End => return None,
            Taken::Empty => rest(&mut tries),
        }
    }
}

fn rest(tries: &mut u32) {
    *tries += 1;
    if *tries % 64 == 0 { thread::yield_now() } else { std::hint::spin_loop() }
}

/// Sends the numbers below the count and closes. The other thread takes them in order, and then the
/// end, for ever.
fn numbers_between_threads(capacity: usize, items: u64) {
    let (mut port, mut intake) = made(capacity);
    thread::scope(|scope| {
        let sender = scope.spawn(move || {
            (0..items).for_each(|number| send_at_last(&mut port, number));
            port.close();
            assert_eq!(port.send(items), Err(Refused::Closed(items)));
            assert_eq!(port.sent(), items);
        });
        for expected in 0..items {
            assert_eq!(take_at_last(&mut intake), Some(expected));
        }
        assert_eq!(take_at_last(&mut intake), None);
        assert_eq!((intake.take(), intake.take()), (Taken::End, Taken::End));
        assert_eq!(intake.taken(), items);
        sender.join().expect("the sender ends");
    });
}

#[test]
fn numbers_between_threads_with_capacity_1() {
    numbers_between_threads(1, count(100_000_000, 100_000));
}

#[test]
fn numbers_between_threads_with_capacity_2() {
    numbers_between_threads(2, count(100_000_000, 200_000));
}

#[test]
fn numbers_between_threads_with_capacity_16() {
    numbers_between_threads(16, count(100_000_000, 400_000));
}

#[test]
fn numbers_between_threads_with_capacity_1024() {
    numbers_between_threads(1_024, count(100_000_000, 1_000_000));
}

/// Both ends of a lane, and what each knows of the other.
struct BothEnds {
    port: Port<u64>,
    intake: Intake<u64>,
    capacity: u64,
    items: VecDeque<u64>,
    sent: u64,
    closed: bool,
    // What the last look of either end found of the other.
    seen_taken: u64,
    seen_sent: u64,
    seen_close: bool,
}

impl BothEnds {
    fn new(capacity: usize) -> Self {
        let (port, intake) = made(capacity);
        let items = VecDeque::new();
        BothEnds {
            port,
            intake,
            capacity: capacity as u64,
            items,
            sent: 0,
            closed: false,
            seen_taken: 0,
            seen_sent: 0,
            seen_close: false,
        }
    }

    fn taken(&self) -> u64 {
        self.sent - self.items.len() as u64
    }

    // A port looks only if all that it knows of is full.
    fn send(&mut self) {
        let sent = self.port.send(self.sent);
        if self.closed {
            assert_eq!(sent, Err(Refused::Closed(self.sent)));
            return;
        }
        if self.sent - self.seen_taken == self.capacity {
            self.seen_taken = self.taken();
        }
        if self.sent - self.seen_taken == self.capacity {
            assert_eq!(sent, Err(Refused::Full(self.sent)));
            return;
        }
        assert_eq!(sent, Ok(()));
        self.items.push_back(self.sent);
        self.sent += 1;
    }

    fn look(&mut self) {
        (self.seen_sent, self.seen_close) = (self.sent, self.closed);
    }

    fn expected(&mut self) -> Taken<u64> {
        if self.taken() < self.seen_sent {
            Taken::Item(self.items.pop_front().expect("the item was sent"))
        } else if self.seen_close {
            Taken::End
        } else {
            Taken::Empty
        }
    }

    // An intake looks only if it has taken all that it knows of.
    fn take(&mut self) {
        if self.taken() == self.seen_sent && !self.seen_close {
            self.look();
        }
        let taken = self.intake.take();
        assert_eq!(taken, self.expected());
    }

    fn take_beside(&mut self) {
        self.look();
        let taken = self.intake.take_beside(&mut self.port);
        assert_eq!(taken, self.expected());
    }

    fn agree(&mut self) {
        self.look();
        self.seen_taken = self.taken();
        assert_eq!(agree(&mut self.port, &mut self.intake), self.items.is_empty());
    }
}

/// With both ends in one thread each answer is known: those of `send`, `take`, `take_beside` and
/// `agree`.
#[test]
fn answers_with_both_ends_in_one_thread() {
    run("answers_with_both_ends_in_one_thread", count(20_000_000, 200_000), |random| {
        let capacity = random.pick(&CAPACITIES);
        let mut ends = BothEnds::new(capacity);
        let calls = 1 + random.below(20 * capacity as u64 + 200);
        let sends = 1 + random.below(8);
        for _ in 0..calls {
            match random.below(10) {
                kind if kind < sends => ends.send(),
                8 if random.one_in(40) => {
                    ends.port.close();
                    ends.closed = true;
                }
                9 if random.one_in(3) => ends.agree(),
                9 => ends.take_beside(),
                _ => ends.take(),
            }
            assert_eq!((ends.port.sent(), ends.intake.taken()), (ends.sent, ends.taken()));
        }
        calls
    });
}

/// An item that counts its drops.
struct Counted {
    number: usize,
    drops: Arc<Vec<AtomicU8>>,
}

impl Drop for Counted {
    fn drop(&mut self) {
        let before = self.drops[self.number].fetch_add(1, Ordering::Relaxed);
        assert_eq!(before, 0, "item {} is dropped twice", self.number);
    }
}

fn counters(count: usize) -> Arc<Vec<AtomicU8>> {
    Arc::new((0..count).map(|_| AtomicU8::new(0)).collect())
}

fn all_dropped(drops: &[AtomicU8]) -> bool {
    drops.iter().all(|count| count.load(Ordering::Relaxed) == 1)
}

/// Items are dropped once: taken ones by the taker, refused ones by the sender, and the others with
/// the last end.
#[test]
fn items_are_dropped_once_in_one_thread() {
    run("items_are_dropped_once_in_one_thread", count(5_000_000, 50_000), |random| {
        let (mut port, mut intake) = made(random.pick(&CAPACITIES));
        let items = 1 + random.index(3_000);
        let drops = counters(items);
        let takes = random.below(4);
        for number in 0..items {
            if random.one_in(2_000) {
                port.close();
            }
            drop(port.send(Counted { number, drops: Arc::clone(&drops) }));
            for _ in 0..random.below(takes + 1) {
                drop(intake.take());
            }
        }
        let left = port.sent() - intake.taken();
        let dropped = drops.iter().filter(|count| count.load(Ordering::Relaxed) == 1).count();
        assert_eq!(dropped as u64, items as u64 - left, "what is inside isn't dropped yet");
        if random.one_in(2) {
            drop(port);
            drop(intake);
        } else {
            drop(intake);
            drop(port);
        }
        assert!(all_dropped(&drops), "an item is lost");
        items as u64
    });
}

/// The same between two threads, each of which drops its end whenever it likes.
#[test]
fn items_are_dropped_once_between_threads() {
    run("items_are_dropped_once_between_threads", count(20_000_000, 60_000), |random| {
        let (mut port, mut intake) = made(random.pick(&CAPACITIES));
        let items = 1 + random.index(10_000);
        let takes = random.index(items + 1);
        let drops = counters(items);
        thread::scope(|scope| {
            let for_port = Arc::clone(&drops);
            let sender = scope.spawn(move || {
                for number in 0..items {
                    // It gives up on an item now and then, and when nobody takes any more.
                    let mut item = Counted { number, drops: Arc::clone(&for_port) };
                    for _ in 0..4 {
                        match port.send(item) {
                            Ok(()) => break,
                            Err(
                                Refused::Full(back) | Refused::Closed(back) | Refused::Worn(back),
                            ) => item = back,
                        }
                        thread::yield_now();
                        if number % 7 == 0 {
                            break;
                        }
                    }
                }
                if items % 2 == 0 {
                    port.close();
                }
            });
            let mut last = None;
            for _ in 0..takes {
                if let Taken::Item(item) = intake.take() {
                    assert!(last < Some(item.number), "items are out of order");
                    last = Some(item.number);
                }
            }
            drop(intake);
            sender.join().expect("the sender ends");
        });
        assert!(all_dropped(&drops), "an item is lost");
        items as u64
    });
}

/// Boxes between two threads, so that memcheck and the thread checkers have memory to look at.
#[test]
fn boxes_between_threads() {
    run("boxes_between_threads", count(10_000_000, 100_000), |random: &mut Random| {
        let (mut port, mut intake) = made(random.pick(&CAPACITIES));
        let items = 1 + random.below(2_000);
        thread::scope(|scope| {
            let sender = scope.spawn(move || {
                for number in 0..items {
                    send_at_last(&mut port, Box::new([number; 4]));
                }
                port.close();
            });
            for number in 0..items {
                assert_eq!(take_at_last(&mut intake).as_deref(), Some(&[number; 4]));
            }
            assert!(take_at_last(&mut intake).is_none());
            sender.join().expect("the sender ends");
        });
        items
    });
}
