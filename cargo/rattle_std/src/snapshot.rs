//! What a ghost remembers of a value: nothing, once ghosts are erased.

use std::marker::PhantomData;

#[derive(Clone, Copy, Debug, PartialEq, Eq)]
pub struct Snapshot<T>(PhantomData<T>);

impl<T> Snapshot<T> {
    pub fn of(_value: &T) -> Self {
        Snapshot(PhantomData)
    }
}
