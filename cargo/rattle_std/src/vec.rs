//! A vector whose growth may be refused.

use crate::alloc::{AllocError, AllocFailed, Global};
use std::cmp::Ordering;
use std::marker::PhantomData;
use std::{io, slice, vec};

/// Rust's own vector, whose methods that grow it return an error if memory is refused.
#[derive(Debug, PartialEq, Eq, Hash)]
pub struct Vec<T, A = Global>(vec::Vec<T>, PhantomData<A>);

derefs!(Vec<T, A> as vec::Vec<T>, self.0);

impl<T, A> Vec<T, A> {
    pub fn new(_alloc: A) -> Self {
        vec::Vec::new().into()
    }

    pub fn with_capacity(alloc: A, capacity: usize) -> Result<Self, AllocError> {
        let mut items = Vec::new(alloc);
        items.reserve_exact(capacity)?;
        Ok(items)
    }

    pub fn reserve(&mut self, more: usize) -> Result<(), AllocError> {
        Ok(self.0.try_reserve(more)?)
    }

    pub fn reserve_exact(&mut self, more: usize) -> Result<(), AllocError> {
        Ok(self.0.try_reserve_exact(more)?)
    }

    #[inline]
    pub fn push(&mut self, item: T) -> Result<(), AllocFailed<T>> {
        if self.0.len() == self.0.capacity() && self.0.try_reserve(1).is_err() {
            return Err(AllocFailed { value: item });
        }
        self.0.push(item);
        Ok(())
    }

    /// Appends an item for which there is room.
    #[inline]
    pub fn push_reserved(&mut self, item: T) {
        debug_assert!(self.0.len() < self.0.capacity());
        self.0.push(item);
    }

    pub fn append(&mut self, other: &mut Self) -> Result<(), AllocError> {
        self.reserve(other.len())?;
        self.0.append(other);
        Ok(())
    }

    /// Takes the last item of a vector that isn't empty.
    pub fn take_last(&mut self) -> T {
        self.0.pop().expect("the vector isn't empty")
    }

    /// Sorts the items. Equal items stay in order. Rust's own sort ends the process if memory is
    /// refused.
    pub fn sort_by(&mut self, compare: impl FnMut(&T, &T) -> Ordering) -> Result<(), AllocError> {
        self.0.sort_by(compare);
        Ok(())
    }

    /// Returns Rust's own vector of the same items. Nothing is copied.
    pub fn into_std(self) -> vec::Vec<T> {
        self.0
    }
}

impl<T: Clone, A> Vec<T, A> {
    pub fn from_elem(alloc: A, item: T, count: usize) -> Result<Self, AllocError> {
        let mut items = Vec::with_capacity(alloc, count)?;
        items.0.resize(count, item);
        Ok(items)
    }

    pub fn from_slice(alloc: A, from: &[T]) -> Result<Self, AllocError> {
        let mut items = Vec::with_capacity(alloc, from.len())?;
        items.0.extend_from_slice(from);
        Ok(items)
    }

    pub fn extend_from_slice(&mut self, more: &[T]) -> Result<(), AllocError> {
        self.reserve(more.len())?;
        self.0.extend_from_slice(more);
        Ok(())
    }

    pub fn resize(&mut self, len: usize, item: T) -> Result<(), AllocError> {
        self.reserve(len.saturating_sub(self.len()))?;
        self.0.resize(len, item);
        Ok(())
    }
}

impl<T, A> From<vec::Vec<T>> for Vec<T, A> {
    fn from(items: vec::Vec<T>) -> Self {
        Vec(items, PhantomData)
    }
}

impl<T, A> AsRef<[T]> for Vec<T, A> {
    fn as_ref(&self) -> &[T] {
        &self.0
    }
}

impl<T, A> IntoIterator for Vec<T, A> {
    type Item = T;
    type IntoIter = vec::IntoIter<T>;

    fn into_iter(self) -> vec::IntoIter<T> {
        self.0.into_iter()
    }
}

impl<'a, T, A> IntoIterator for &'a Vec<T, A> {
    type Item = &'a T;
    type IntoIter = slice::Iter<'a, T>;

    fn into_iter(self) -> slice::Iter<'a, T> {
        self.0.iter()
    }
}

impl<A> io::Write for Vec<u8, A> {
    fn write(&mut self, bytes: &[u8]) -> io::Result<usize> {
        self.extend_from_slice(bytes)?;
        Ok(bytes.len())
    }

    fn flush(&mut self) -> io::Result<()> {
        Ok(())
    }
}

/// The methods of a slice that take an allocator.
pub trait SliceWith<T>: AsRef<[T]> + AsMut<[T]> {
    fn to_vec_with(&self, alloc: Global) -> Result<Vec<T>, AllocError>
    where
        T: Clone,
    {
        Vec::from_slice(alloc, self.as_ref())
    }

    /// Sorts the items by their keys. Items of one key stay in order. Rust's own sort ends the
    /// process if memory is refused.
    fn sort_by_key_with<K: Ord>(
        &mut self,
        _alloc: Global,
        key: impl FnMut(&T) -> K,
    ) -> Result<(), AllocError> {
        self.as_mut().sort_by_key(key);
        Ok(())
    }
}

impl<T> SliceWith<T> for [T] {}
