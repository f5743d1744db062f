//! Words and slots that the seats of a table share.
//!
//! In the proved toolchain a seat knows what its thread may do, and a rule over words and slots
//! says when a slot is a seat's. `lane` proves that it keeps that rule. Here a seat knows nothing,
//! and each slot is a lock as well: a call that finds it locked would panic.

use crate::alloc::{AllocError, Global};
use std::marker::PhantomData;
use std::mem;
use std::sync::Mutex;
use std::sync::atomic::{AtomicU64, Ordering};

/// What holds of words, slots and seats between any two steps. It is a ghost.
pub trait TableRule<S, V, K> {}

/// A step at a word. It is a ghost.
pub trait Play<S, V> {}

/// A way to cut a seat into two. It is a ghost.
pub trait Split<V> {}

/// A way to join two seats. It is a ghost.
pub trait Join<V> {}

pub struct Table<S, V, K, R, A = Global> {
    pub shared: Shared<S, V>,
    ghosts: PhantomData<fn() -> (K, R, A)>,
}

/// The words and the slots.
pub struct Shared<S, V> {
    words: Vec<AtomicU64>,
    slots: Vec<Mutex<S>>,
    ghosts: PhantomData<fn() -> V>,
}

/// A thread's part in a table.
pub struct Seat<S, V>(PhantomData<fn() -> (S, V)>);

impl<S: Default, V, K, R, A> Table<S, V, K, R, A> {
    /// Makes a table of these words and `slots` vacant slots, and its first seat.
    pub fn vacant(
        _alloc: A,
        words: &[u64],
        slots: usize,
        _key: &K,
    ) -> Result<(Self, Seat<S, V>), AllocError> {
        let shared = Shared {
            words: collected(words.iter().map(|word| AtomicU64::new(*word)))?,
            slots: collected((0..slots).map(|_| Mutex::default()))?,
            ghosts: PhantomData,
        };
        Ok((Table { shared, ghosts: PhantomData }, Seat(PhantomData)))
    }
}

fn collected<T>(items: impl ExactSizeIterator<Item = T>) -> Result<Vec<T>, AllocError> {
    let mut kept = Vec::new();
    kept.try_reserve_exact(items.len())?;
    kept.extend(items);
    Ok(kept)
}

impl<S, V> Shared<S, V> {
    pub fn load<P>(&self, _seat: &mut Seat<S, V>, word: usize) -> u64 {
        self.words[word].load(Ordering::SeqCst)
    }

    pub fn store<P>(&self, _seat: &mut Seat<S, V>, word: usize, value: u64) {
        self.words[word].store(value, Ordering::SeqCst);
    }

    /// Puts an item into a slot, and returns the one that was there.
    pub fn exchange(&self, _seat: &mut Seat<S, V>, slot: usize, item: S) -> S {
        let mut slot = self.slots[slot].try_lock().expect("no other thread is in the slot");
        mem::replace(&mut *slot, item)
    }

    pub fn split_seat<P>(&self, _seat: &mut Seat<S, V>) -> Seat<S, V> {
        Seat(PhantomData)
    }

    pub fn join_seat<P>(&self, _seat: &mut Seat<S, V>, _other: Seat<S, V>) {}
}
