//! JSON, written a token at a time.

use crate::alloc::{AllocError, Global};
use crate::itoa::Buffer;
use crate::vec::Vec;

/// Writes tokens with the commas between them. Nesting them is the caller's part.
#[derive(Debug)]
pub struct Writer<A = Global> {
    out: Vec<u8, A>,
    // Whether a value has just ended, so that a comma comes before the next.
    ended: bool,
}

// Methods that write the same token in each call.
macro_rules! tokens {
    ($($name:ident $token:literal)*) => {
        $(pub fn $name(&mut self) -> Result<(), AllocError> {
            self.token($token)
        })*
    };
}

impl<A> Writer<A> {
    tokens!(begin_object "{" end_object "}" begin_array "[" end_array "]");

    pub fn new(out: Vec<u8, A>) -> Self {
        Writer { out, ended: false }
    }

    pub fn into_inner(self) -> Vec<u8, A> {
        self.out
    }

    fn token(&mut self, text: &str) -> Result<(), AllocError> {
        if self.ended && !matches!(text, "}" | "]" | ":") {
            self.out.push(b',')?;
        }
        self.ended = !matches!(text, "{" | "[" | ":");
        self.out.extend_from_slice(text.as_bytes())
    }

    pub fn key(&mut self, name: &str) -> Result<(), AllocError> {
        self.string(name)?;
        self.token(":")
    }

    pub fn boolean(&mut self, truth: bool) -> Result<(), AllocError> {
        self.token(if truth { "true" } else { "false" })
    }

    pub fn i64(&mut self, number: i64) -> Result<(), AllocError> {
        self.token(Buffer::new().format(number))
    }

    pub fn u64(&mut self, number: u64) -> Result<(), AllocError> {
        self.token(Buffer::new().format(number))
    }

    pub fn string(&mut self, text: &str) -> Result<(), AllocError> {
        self.token("\"")?;
        for byte in text.bytes() {
            self.character(byte)?;
        }
        self.out.extend_from_slice(b"\"")
    }

    fn character(&mut self, byte: u8) -> Result<(), AllocError> {
        let letter = match byte {
            b'"' | b'\\' => byte,
            8 => b'b',
            9 => b't',
            10 => b'n',
            12 => b'f',
            13 => b'r',
            0..32 => {
                let digit = b"0123456789abcdef"[usize::from(byte & 15)];
                let escape = [b'\\', b'u', b'0', b'0', b'0' + (byte >> 4), digit];
                return self.out.extend_from_slice(&escape);
            }
            _ => return Ok(self.out.push(byte)?),
        };
        self.out.extend_from_slice(&[b'\\', letter])
    }
}
