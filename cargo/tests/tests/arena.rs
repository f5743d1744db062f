//! The arena against a map of its records.

use arena::{Arena, ArenaError, MAX_LENGTH, Slot};
use rattle_std::alloc::Global;
use std::collections::{HashMap, HashSet};
use tests::cases::{count, run};
use tests::random::Random;

/// Lengths at each size of slots, its neighbours, and beyond the limit.
const LENGTHS: [usize; 24] = [
    0, 1, 31, 32, 33, 64, 65, 128, 129, 256, 257, 512, 513, 1_024, 1_025, 2_048, 2_049, 4_096,
    4_097, 8_192, 8_193, 16_383, 16_384, 16_385,
];

struct Beside {
    arena: Arena<u64>,
    records: HashMap<Slot, (u64, Vec<u8>)>,
    slots: Vec<Slot>,
    // The greatest length of this case's keys, apart from those of LENGTHS.
    longest: usize,
}

impl Beside {
    fn key(&self, random: &mut Random) -> Vec<u8> {
        let length =
            if random.one_in(20) { random.pick(&LENGTHS) } else { random.index(self.longest + 1) };
        let byte = random.number() as u8;
        let mut key = vec![byte; length];
        if let Some(last) = key.last_mut() {
            *last = random.number() as u8;
        }
        key
    }

    fn place(&mut self, random: &mut Random) {
        let (header, key) = (random.number(), self.key(random));
        match self.arena.place(header, &key) {
            Ok(slot) => {
                assert!(key.len() <= MAX_LENGTH);
                assert!(self.records.insert(slot, (header, key)).is_none(), "a live slot is given");
                self.slots.push(slot);
            }
            Err(error) => assert!(key.len() > MAX_LENGTH && error == ArenaError::TooLong),
        }
    }

    fn release(&mut self, random: &mut Random) {
        if self.slots.is_empty() {
            return;
        }
        let slot = self.slots.swap_remove(random.index(self.slots.len()));
        self.compare(slot);
        self.records.remove(&slot);
        self.arena.release(slot);
        assert!(!self.arena.is_live(slot));
    }

    fn compare(&self, slot: Slot) {
        let (header, key) = &self.records[&slot];
        assert!(self.arena.is_live(slot));
        assert_eq!(self.arena.header(slot), *header);
        assert_eq!(self.arena.header_ref(slot), header);
        assert!(self.arena.key(slot) == key.as_slice(), "{slot:?}");
    }

    fn touch(&mut self, random: &mut Random) {
        if self.slots.is_empty() {
            return;
        }
        let slot = random.pick(&self.slots);
        self.compare(slot);
        let header = random.number();
        if random.one_in(2) {
            self.arena.set_header(slot, header);
        } else {
            *self.arena.header_mut(slot) = header;
        }
        self.records.get_mut(&slot).expect("the slot is live").0 = header;
    }

    fn reserve(&mut self, random: &mut Random) {
        let lengths: Vec<_> = (0..random.index(8)).map(|_| random.pick(&LENGTHS)).collect();
        let expected = if lengths.iter().any(|length| *length > MAX_LENGTH) {
            Err(ArenaError::TooLong)
        } else {
            Ok(())
        };
        assert_eq!(self.arena.reserve(&lengths), expected);
        assert_eq!(
            self.arena.reserve_slots(random.index(self.longest + 1), random.index(40)),
            Ok(())
        );
    }
}

#[test]
fn arena_is_a_map_of_records() {
    run("arena_is_a_map_of_records", count(10_000_000, 300_000), |random| {
        let longest = random.pick(&[0, 10, 32, 40, 300, 3_000, 16_384]);
        let mut beside = Beside {
            arena: Arena::new(Global),
            records: HashMap::new(),
            slots: Vec::new(),
            longest,
        };
        let calls = 100 + random.below(20_000);
        let mut places = 5;
        for call in 0..calls {
            // It fills and empties in turn, now and then down to nothing.
            if call % 2_000 == 0 {
                places = random.below(8);
            }
            match random.below(10) {
                kind if kind < places => beside.place(random),
                8 => beside.touch(random),
                9 if random.one_in(10) => beside.reserve(random),
                _ => beside.release(random),
            }
            assert_eq!(beside.arena.live(), beside.records.len());
        }
        beside.slots.iter().for_each(|slot| beside.compare(*slot));
        calls
    });
}

/// More chunks than a chunk has slots: each of the longest keys takes a chunk.
#[test]
fn more_chunks_than_slots_of_a_chunk() {
    let mut arena = Arena::new(Global);
    let places = count(20_000, 1_200);
    let key = |number: u64| [&[number as u8; MAX_LENGTH - 8][..], &number.to_be_bytes()].concat();
    let slots: Vec<_> = (0..places)
        .map(|number| arena.place(number, &key(number)).expect("memory is ample"))
        .collect();
    assert_eq!(arena.live() as u64, places);
    for (number, slot) in (0..).zip(&slots) {
        assert_eq!(arena.header(*slot), number);
        assert!(arena.key(*slot) == key(number));
    }
    slots.iter().for_each(|slot| arena.release(*slot));
    assert_eq!(arena.live(), 0);
    assert!(slots.iter().all(|slot| !arena.is_live(*slot)));
}

/// Slots that were released are given again before there are others.
#[test]
fn released_slots_are_given_again() {
    run("released_slots_are_given_again", count(2_000_000, 50_000), |random| {
        let mut arena = Arena::new(Global);
        // As many as a chunk has of each size, so that none is left over.
        let length: usize = random.pick(&[1, 32, 33, 64, 500, 512, 5_000, 16_384]);
        let slots_of_chunk = 16_384 / length.max(32).next_power_of_two();
        let key = vec![7; length];
        let mut slots: Vec<_> = (0..3 * slots_of_chunk)
            .map(|_| arena.place(0, &key).expect("memory is ample"))
            .collect();
        let all: HashSet<_> = slots.iter().copied().collect();
        for _ in 0..20 {
            random.shuffle(&mut slots);
            let released = random.index(slots.len() + 1);
            slots.drain(..released).for_each(|slot| arena.release(slot));
            slots.extend((0..released).map(|_| arena.place(0, &key).expect("memory is ample")));
            assert!(slots.iter().copied().collect::<HashSet<_>>() == all);
        }
        20 * slots.len() as u64
    });
}
