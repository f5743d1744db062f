//! JSON: a tree over borrowed text, and a writer of tokens.

mod strings;
mod writer;

use crate::alloc::{AllocError, Global};
use crate::vec::Vec;
use strings::Room;

pub use strings::Scratch;
pub use writer::Writer;

// How deep arrays and objects may nest.
pub const MAX_DEPTH: usize = 128;

/// Why a text is no value.
#[derive(Clone, Copy, Debug, PartialEq, Eq)]
pub enum Error {
    OutOfMemory,
    Invalid,
    TooLong,
    DuplicateKey,
}

/// A JSON value. A number stays text, and an object keeps its members in order, also those that
/// come twice.
#[derive(Debug)]
pub enum Value<'a> {
    Null,
    Bool(bool),
    Number(&'a str),
    String(&'a str),
    Array(Vec<Value<'a>>),
    Object(Vec<(&'a str, Value<'a>)>),
}

impl<'a> Value<'a> {
    /// Reads the value that all of the bytes are. Its strings without escapes are borrowed from
    /// them, the others from the scratch.
    pub fn from_slice(
        alloc: Global,
        bytes: &'a [u8],
        scratch: &'a mut Scratch,
    ) -> Result<Self, Error> {
        let rest = std::str::from_utf8(bytes).map_err(|_| Error::Invalid)?;
        let room = scratch.room(rest.len()).map_err(|_| Error::OutOfMemory)?;
        let mut parser = Parser { alloc, rest, room };
        let value = parser.value(MAX_DEPTH)?;
        parser.skip_space();
        if parser.rest.is_empty() { Ok(value) } else { Err(Error::Invalid) }
    }

    pub fn as_bool(&self) -> Option<bool> {
        if let Value::Bool(truth) = self { Some(*truth) } else { None }
    }

    pub fn as_number(&self) -> Option<&'a str> {
        if let Value::Number(text) = self { Some(text) } else { None }
    }

    /// Returns a number without a point and an exponent that fits.
    pub fn as_i64(&self) -> Option<i64> {
        self.as_number()?.parse().ok()
    }

    pub fn as_str(&self) -> Option<&'a str> {
        if let Value::String(text) = self { Some(text) } else { None }
    }

    /// Returns the last member of that name, if this is an object.
    pub fn get(&self, name: &str) -> Option<&Value<'a>> {
        let Value::Object(members) = self else { return None };
        members.iter().rev().find(|member| member.0 == name).map(|member| &member.1)
    }
}

struct Parser<'a> {
    alloc: Global,
    rest: &'a str,
    room: Room<'a>,
}

impl<'a> Parser<'a> {
    fn skip_space(&mut self) {
        self.rest = self.rest.trim_start_matches([' ', '\t', '\n', '\r']);
    }

    // Takes a text, and the space before it, if it comes next.
    fn takes(&mut self, text: &str) -> bool {
        self.skip_space();
        let after = self.rest.strip_prefix(text);
        self.rest = after.unwrap_or(self.rest);
        after.is_some()
    }

    fn expect(&mut self, text: &str) -> Result<(), Error> {
        if self.takes(text) { Ok(()) } else { Err(Error::Invalid) }
    }

    fn value(&mut self, depth: usize) -> Result<Value<'a>, Error> {
        if self.takes("\"") {
            Ok(Value::String(self.string()?))
        } else if depth > 0 && self.takes("[") {
            Ok(Value::Array(self.items("]", |parser| parser.value(depth - 1))?))
        } else if depth > 0 && self.takes("{") {
            Ok(Value::Object(self.items("}", |parser| parser.member(depth - 1))?))
        } else if self.takes("null") {
            Ok(Value::Null)
        } else if self.takes("true") {
            Ok(Value::Bool(true))
        } else if self.takes("false") {
            Ok(Value::Bool(false))
        } else {
            self.number()
        }
    }

    // Reads the items up to a bracket, with commas between them.
    fn items<T>(
        &mut self,
        close: &str,
        mut item: impl FnMut(&mut Self) -> Result<T, Error>,
    ) -> Result<Vec<T>, Error> {
        let mut items = Vec::new(self.alloc);
        if self.takes(close) {
            return Ok(items);
        }
        loop {
            items.push(item(self)?).map_err(|_| Error::OutOfMemory)?;
            if self.takes(close) {
                return Ok(items);
            }
            self.expect(",")?;
        }
    }

    fn member(&mut self, depth: usize) -> Result<(&'a str, Value<'a>), Error> {
        self.expect("\"")?;
        let name = self.string()?;
        self.expect(":")?;
        Ok((name, self.value(depth)?))
    }

    // Reads a string after its first quote.
    fn string(&mut self) -> Result<&'a str, Error> {
        let (string, rest) = self.room.string(self.rest).ok_or(Error::Invalid)?;
        self.rest = rest;
        Ok(string)
    }

    fn number(&mut self) -> Result<Value<'a>, Error> {
        let is_part =
            |character: char| matches!(character, '0'..='9' | '+' | '-' | '.' | 'e' | 'E');
        let rest = self.rest.trim_start_matches(is_part);
        let text = &self.rest[..self.rest.len() - rest.len()];
        self.rest = rest;
        if is_number(text) { Ok(Value::Number(text)) } else { Err(Error::Invalid) }
    }
}

fn is_number(text: &str) -> bool {
    let text = text.strip_prefix('-').unwrap_or(text);
    let (text, exponent) = text.split_once(['e', 'E']).unwrap_or((text, "0"));
    let (integer, fraction) = text.split_once('.').unwrap_or((text, "0"));
    let exponent = exponent.strip_prefix(['+', '-']).unwrap_or(exponent);
    let are_digits =
        |part: &str| !part.is_empty() && part.bytes().all(|byte| byte.is_ascii_digit());
    [integer, fraction, exponent].into_iter().all(are_digits)
        && (integer == "0" || !integer.starts_with('0'))
}
