//! Numbers in decimal, without an allocation.

use std::fmt::Display;
use std::io::Write;

/// Room for the longest number of 64 bits with its sign.
#[derive(Clone, Copy, Debug, Default)]
pub struct Buffer([u8; 20]);

impl Buffer {
    pub fn new() -> Self {
        Buffer::default()
    }

    /// Returns the digits of an integer, after a sign if it is below 0.
    pub fn format(&mut self, number: impl Display) -> &str {
        let mut room = &mut self.0[..];
        write!(room, "{number}").expect("the number has at most 64 bits");
        let digits = 20 - room.len();
        std::str::from_utf8(&self.0[..digits]).expect("digits are text")
    }
}
