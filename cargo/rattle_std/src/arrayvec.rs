//! A vector of at most `N` items, in place, for items that can be copied.

use std::ops::{Deref, DerefMut};

#[derive(Clone, Copy, Debug)]
pub struct ArrayVec<T, const N: usize> {
    // None until the first item comes, of which all places are then made. So no place is ever
    // without a value.
    items: Option<[T; N]>,
    len: usize,
}

/// There is no room.
#[derive(Clone, Copy, Debug, PartialEq, Eq)]
pub struct CapacityError;

impl<T: Copy, const N: usize> ArrayVec<T, N> {
    pub fn new() -> Self {
        ArrayVec { items: None, len: 0 }
    }

    pub fn clear(&mut self) {
        self.len = 0;
    }

    pub fn is_full(&self) -> bool {
        self.len == N
    }

    #[inline]
    pub fn as_slice(&self) -> &[T] {
        self
    }

    /// Appends an item for which there is room.
    #[inline]
    pub fn push(&mut self, item: T) {
        self.items.get_or_insert_with(|| [item; N])[self.len] = item;
        self.len += 1;
    }

    /// Appends the items, or none of them if there isn't room for all.
    pub fn try_extend_from_slice(&mut self, more: &[T]) -> Result<(), CapacityError> {
        if more.len() > N - self.len {
            return Err(CapacityError);
        }
        more.iter().for_each(|item| self.push(*item));
        Ok(())
    }
}

impl<T, const N: usize> Deref for ArrayVec<T, N> {
    type Target = [T];

    #[inline]
    fn deref(&self) -> &[T] {
        self.items.as_ref().map_or(&[], |items| &items[..self.len])
    }
}

impl<T, const N: usize> DerefMut for ArrayVec<T, N> {
    #[inline]
    fn deref_mut(&mut self) -> &mut [T] {
        self.items.as_mut().map_or(&mut [], |items| &mut items[..self.len])
    }
}
