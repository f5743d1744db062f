//! The words of the command line.

use crate::alloc::AllocError;
use crate::rt::Env;
use crate::string::String;
use crate::vec::Vec;
use std::ffi::OsString;
use std::io;

/// The words, all of which are text.
pub struct Args(std::vec::Vec<String>);

/// Returns the words of the command line, or `InvalidData` if one of them isn't UTF-8.
pub fn args<R: Env>(rt: &R) -> io::Result<Args> {
    let words = rt.words().into_iter();
    let words: Result<_, _> = words.map(|word| Ok(word.into_string()?.into())).collect();
    words.map(Args).map_err(|_: OsString| io::ErrorKind::InvalidData.into())
}

impl Args {
    pub fn collect<A>(self, _alloc: A) -> Result<Vec<String, A>, AllocError> {
        Ok(self.0.into())
    }
}
