//! The macros that take an allocator, and those that this crate is written with.

/// Makes a `String` of a format, or returns an error if memory is refused.
#[macro_export]
macro_rules! format_in {
    (in $alloc:expr; $($format:tt)*) => {{
        let mut text = $crate::string::String::new($alloc);
        text.write_fmt(::std::format_args!($($format)*)).map(|()| text)
    }};
}

/// Makes a `Vec` of equal items, or returns an error if memory is refused.
#[macro_export]
macro_rules! vec_in {
    (in $alloc:expr; $item:expr; $count:expr) => {
        $crate::vec::Vec::from_elem($alloc, $item, $count)
    };
}

// Lets a wrapper be used as what it has at a place.
macro_rules! derefs {
    ($wrapper:ident<$($parameter:ident),*> as $target:ty, self $($place:tt)+) => {
        impl<$($parameter),*> ::std::ops::Deref for $wrapper<$($parameter),*> {
            type Target = $target;

            #[inline]
            fn deref(&self) -> &$target {
                &self $($place)+
            }
        }

        impl<$($parameter),*> ::std::ops::DerefMut for $wrapper<$($parameter),*> {
            #[inline]
            fn deref_mut(&mut self) -> &mut $target {
                &mut self $($place)+
            }
        }
    };
}
