//! The strings of a text. One with escapes is unescaped into room that is made before.

use crate::alloc::{AllocError, Global};
use std::str::{Chars, from_utf8};
use std::{iter, mem};

/// Room for the strings with escapes. It is kept from text to text.
#[derive(Debug)]
pub struct Scratch(Vec<u8>);

impl Scratch {
    pub fn new(_alloc: Global) -> Self {
        Scratch(Vec::new())
    }

    /// Returns room for the strings of a text of that length. No escape is shorter than its
    /// character.
    pub fn room(&mut self, length: usize) -> Result<Room<'_>, AllocError> {
        self.0.try_reserve(length.saturating_sub(self.0.len()))?;
        self.0.resize(length.max(self.0.len()), 0);
        Ok(Room(&mut self.0))
    }
}

/// The remaining room.
pub struct Room<'a>(&'a mut [u8]);

impl<'a> Room<'a> {
    /// Returns the string that ends at the first quote of a text, and what comes after the quote.
    pub fn string(&mut self, text: &'a str) -> Option<(&'a str, &'a str)> {
        let end = text.find(['"', '\\'])?;
        if text.as_bytes()[end] == b'"' {
            let string = &text[..end];
            let is_plain = string.bytes().all(|byte| byte >= b' ');
            return is_plain.then_some((string, &text[end + 1..]));
        }
        let mut rest = text.chars();
        let mut length = 0;
        loop {
            let character = match rest.next()? {
                '"' => break,
                '\\' => escaped(&mut rest)?,
                '\0'..' ' => return None,
                same => same,
            };
            length += character.encode_utf8(&mut self.0[length..]).len();
        }
        let (string, left) = mem::take(&mut self.0).split_at_mut(length);
        self.0 = left;
        Some((from_utf8(string).ok()?, rest.as_str()))
    }
}

// Reads what comes after a backslash.
fn escaped(rest: &mut Chars<'_>) -> Option<char> {
    Some(match rest.next()? {
        'b' => '\u{8}',
        'f' => '\u{c}',
        'n' => '\n',
        'r' => '\r',
        't' => '\t',
        'u' => code_point(rest)?,
        same @ ('"' | '\\' | '/') => same,
        _ => return None,
    })
}

// Reads the digits after `\u`, and a second escape if they are half of a pair.
fn code_point(rest: &mut Chars<'_>) -> Option<char> {
    let first = code_unit(rest.by_ref())?;
    let second = || code_unit(rest.as_str().strip_prefix("\\u").map(|_| rest.by_ref().skip(2))?);
    char::decode_utf16(iter::once(first).chain(iter::from_fn(second))).next()?.ok()
}

fn code_unit(mut rest: impl Iterator<Item = char>) -> Option<u16> {
    (0..4).try_fold(0, |unit, _| Some(16 * unit + rest.next()?.to_digit(16)? as u16))
}
