//! Values that threads share.

use crate::alloc::{AllocError, AllocFailed, Global};
use crate::rt::HostRuntime;
use std::marker::PhantomData;
use std::ops::Deref;
use std::{iter, sync};

pub use std::sync::atomic;

/// What may wait: its loops may have no end.
pub trait Wait {
    fn forever(&self) -> impl Iterator<Item = ()> {
        iter::repeat(())
    }
}

impl Wait for HostRuntime {}

/// A shared value. Rust's own ends the process if its memory is refused.
#[derive(Debug)]
pub struct Arc<T, A = Global>(sync::Arc<T>, PhantomData<A>);

impl<T, A> Arc<T, A> {
    pub fn new(_alloc: A, value: T) -> Result<Self, AllocFailed<T>> {
        Ok(Arc(sync::Arc::new(value), PhantomData))
    }

    pub fn try_clone(shared: &Self) -> Result<Self, AllocError> {
        Ok(Arc(sync::Arc::clone(&shared.0), PhantomData))
    }
}

impl<T, A> Deref for Arc<T, A> {
    type Target = T;

    fn deref(&self) -> &T {
        &self.0
    }
}
