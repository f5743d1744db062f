//! A box whose memory may be refused.

use crate::alloc::{AllocFailed, Global};
use std::boxed;
use std::marker::PhantomData;

pub use crate::box_from_raw as from_raw;

/// A slice of one item, since only a vector's memory may be refused.
pub struct Box<T, A = Global>(boxed::Box<[T]>, PhantomData<A>);

derefs!(Box<T, A> as T, self.0[0]);

impl<T, A> Box<T, A> {
    pub fn new(_alloc: A, item: T) -> Result<Self, AllocFailed<T>> {
        let mut items = Vec::new();
        if items.try_reserve_exact(1).is_err() {
            return Err(AllocFailed { value: item });
        }
        items.push(item);
        Ok(items.into_boxed_slice().into())
    }

    pub fn into_raw(boxed: Self) -> *mut T {
        boxed::Box::into_raw(boxed.0).cast()
    }
}

impl<T, A> From<boxed::Box<[T]>> for Box<T, A> {
    fn from(item: boxed::Box<[T]>) -> Self {
        Box(item, PhantomData)
    }
}

/// Makes a pointer of [`Box::into_raw`] a box again. The caller answers for the unsafe call, as for
/// that of Rust's own `Box::from_raw`.
#[macro_export]
macro_rules! box_from_raw {
    ($alloc:expr, $pointer:expr) => {{
        let item = ::std::ptr::slice_from_raw_parts_mut($pointer, 1);
        $crate::boxed::Box::from(::std::boxed::Box::from_raw(item))
    }};
}
