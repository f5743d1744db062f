//! Deques and maps whose growth may be refused.

use crate::alloc::{AllocError, AllocFailed, Global};
use std::borrow::Borrow;
use std::marker::PhantomData;
use std::ops::RangeInclusive;
use std::{collections, mem};

pub use std::collections::LinkedList;

/// Rust's own deque, whose methods that grow it return an error if memory is refused.
#[derive(Debug)]
pub struct VecDeque<T, A = Global>(collections::VecDeque<T>, PhantomData<A>);

derefs!(VecDeque<T, A> as collections::VecDeque<T>, self.0);

impl<T, A> VecDeque<T, A> {
    pub fn new(_alloc: A) -> Self {
        VecDeque(collections::VecDeque::new(), PhantomData)
    }

    pub fn reserve(&mut self, more: usize) -> Result<(), AllocError> {
        Ok(self.0.try_reserve(more)?)
    }

    pub fn push_back(&mut self, item: T) -> Result<(), AllocFailed<T>> {
        if self.0.try_reserve(1).is_err() {
            return Err(AllocFailed { value: item });
        }
        self.0.push_back(item);
        Ok(())
    }

    /// Appends an item for which there is room.
    pub fn push_back_reserved(&mut self, item: T) {
        debug_assert!(self.0.len() < self.0.capacity());
        self.0.push_back(item);
    }
}

// The most entries of a leaf, for which it has room from the start.
const LEAF: usize = 256;

/// A map as leaves of entries in the order of their keys, since Rust's own can't refuse.
#[derive(Debug)]
pub struct BTreeMap<K, V, A = Global> {
    leaves: Vec<Vec<(K, V)>>,
    alloc: PhantomData<A>,
}

impl<K: Ord, V, A> BTreeMap<K, V, A> {
    pub fn new(_alloc: A) -> Self {
        BTreeMap { leaves: Vec::new(), alloc: PhantomData }
    }

    // Returns the index of the leaf that has a key or would have it, and the key's index there.
    fn find<Q: Ord + ?Sized>(&self, key: &Q) -> (usize, Result<usize, usize>)
    where
        K: Borrow<Q>,
    {
        let is_at_most =
            |leaf: &Vec<(K, V)>| leaf.first().is_some_and(|entry| entry.0.borrow() <= key);
        let leaf = self.leaves.partition_point(is_at_most).saturating_sub(1);
        let entries = self.leaves.get(leaf).map_or(&[][..], Vec::as_slice);
        (leaf, entries.binary_search_by(|entry| entry.0.borrow().cmp(key)))
    }

    pub fn get<Q: Ord + ?Sized>(&self, key: &Q) -> Option<&V>
    where
        K: Borrow<Q>,
    {
        let (leaf, index) = self.find(key);
        let index = index.ok()?;
        Some(&self.leaves[leaf][index].1)
    }

    pub fn contains_key(&self, key: &K) -> bool {
        self.find(key).1.is_ok()
    }

    /// Returns the entries in the order of their keys.
    pub fn iter(&self) -> impl Iterator<Item = (&K, &V)> {
        self.leaves.iter().flatten().map(|entry| (&entry.0, &entry.1))
    }

    /// Sets the value of a key, and returns the one before. A refused insertion changes no entry.
    pub fn insert(&mut self, key: K, value: V) -> Result<Option<V>, AllocError> {
        let (leaf, index) = self.find(&key);
        match (index, self.leaves.get_mut(leaf)) {
            (Ok(index), Some(leaf)) => Ok(Some(mem::replace(&mut leaf[index].1, value))),
            (Err(index), Some(leaf)) if leaf.len() < LEAF => {
                leaf.insert(index, (key, value));
                Ok(None)
            }
            _ => {
                self.add_leaf(leaf)?;
                self.insert(key, value)
            }
        }
    }

    // Adds a leaf after this one, and moves the upper half of its entries there.
    fn add_leaf(&mut self, leaf: usize) -> Result<(), AllocError> {
        let mut upper = Vec::new();
        upper.try_reserve_exact(LEAF)?;
        self.leaves.try_reserve(1)?;
        if let Some(full) = self.leaves.get_mut(leaf) {
            upper.extend(full.drain(LEAF / 2..));
        }
        self.leaves.insert(self.leaves.len().min(leaf + 1), upper);
        Ok(())
    }

    pub fn remove(&mut self, key: &K) -> Option<V> {
        let (leaf, index) = self.find(key);
        let (_, value) = self.leaves.get_mut(leaf)?.remove(index.ok()?);
        if self.leaves[leaf].is_empty() {
            self.leaves.remove(leaf);
        }
        Some(value)
    }

    /// Returns the entries with keys in a range, in order.
    pub fn range(&self, keys: RangeInclusive<K>) -> impl Iterator<Item = (&K, &V)> {
        let (least, most) = keys.into_inner();
        let (leaf, index) = self.find(&least);
        let entries = self.leaves.iter().skip(leaf).flatten();
        let from_least = entries.skip(index.unwrap_or_else(|index| index));
        from_least.take_while(move |entry| entry.0 <= most).map(|entry| (&entry.0, &entry.1))
    }
}
