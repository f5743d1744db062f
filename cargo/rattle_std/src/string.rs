//! Text whose growth may be refused.

use crate::alloc::{AllocError, Global};
use crate::vec::Vec;
use std::borrow::Borrow;
use std::marker::PhantomData;
use std::{fmt, string};

/// Rust's own text, whose methods that grow it return an error if memory is refused.
#[derive(Debug, PartialEq, Eq, PartialOrd, Ord, Hash)]
pub struct String<A = Global>(string::String, PhantomData<A>);

derefs!(String<A> as string::String, self.0);

impl<A> String<A> {
    pub fn new(_alloc: A) -> Self {
        string::String::new().into()
    }

    pub fn with_capacity(alloc: A, capacity: usize) -> Result<Self, AllocError> {
        let mut text = String::new(alloc);
        text.0.try_reserve(capacity)?;
        Ok(text)
    }

    pub fn from_str(alloc: A, text: &str) -> Result<Self, AllocError> {
        let mut copy = String::with_capacity(alloc, text.len())?;
        copy.0.push_str(text);
        Ok(copy)
    }

    /// Makes text of its bytes, without copying them.
    pub fn from_utf8(bytes: Vec<u8, A>) -> Result<Self, string::FromUtf8Error> {
        Ok(string::String::from_utf8(bytes.into_std())?.into())
    }

    pub fn push(&mut self, character: char) -> Result<(), AllocError> {
        self.push_str(character.encode_utf8(&mut [0; 4]))
    }

    pub fn push_str(&mut self, more: &str) -> Result<(), AllocError> {
        self.0.try_reserve(more.len())?;
        self.0.push_str(more);
        Ok(())
    }

    pub fn into_bytes(self) -> Vec<u8, A> {
        self.0.into_bytes().into()
    }

    /// Appends a format, as `write!` asks. After an error some of it may be appended.
    pub fn write_fmt(&mut self, format: fmt::Arguments<'_>) -> Result<(), AllocError> {
        fmt::write(self, format).map_err(|_| AllocError)
    }
}

impl<A> fmt::Write for String<A> {
    fn write_str(&mut self, text: &str) -> fmt::Result {
        self.push_str(text).map_err(|_| fmt::Error)
    }
}

impl<A> From<string::String> for String<A> {
    fn from(text: string::String) -> Self {
        String(text, PhantomData)
    }
}

impl<A> Borrow<str> for String<A> {
    fn borrow(&self) -> &str {
        &self.0
    }
}

impl<A> fmt::Display for String<A> {
    fn fmt(&self, f: &mut fmt::Formatter<'_>) -> fmt::Result {
        self.0.fmt(f)
    }
}
