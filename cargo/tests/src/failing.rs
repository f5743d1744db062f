//! A writer that fails.

use std::io::{Error, ErrorKind, Result, Write};

/// A writer that takes so many bytes and then fails. Its `flush` fails if `flushes` is false.
pub struct Failing {
    pub room: usize,
    pub flushes: bool,
}

impl Failing {
    pub fn after(room: usize) -> Self {
        Failing { room, flushes: true }
    }
}

impl Write for Failing {
    fn write(&mut self, bytes: &[u8]) -> Result<usize> {
        if self.room == 0 {
            return Err(Error::from(ErrorKind::StorageFull));
        }
        let taken = self.room.min(bytes.len());
        self.room -= taken;
        Ok(taken)
    }

    fn flush(&mut self) -> Result<()> {
        if self.flushes { Ok(()) } else { Err(Error::from(ErrorKind::StorageFull)) }
    }
}
