//! Readers and writers with a buffer.

use crate::vec::Vec;
use std::io;

pub use std::io::{Error, ErrorKind, IsTerminal, Read, Result, Write};

/// A reader of lines.
pub trait BufRead: Read {
    /// Appends what comes up to a byte, with it, or up to the end of the input. Returns how many
    /// bytes these are.
    fn read_until(&mut self, byte: u8, out: &mut Vec<u8>) -> Result<usize>;
}

impl<R: io::BufRead> BufRead for R {
    fn read_until(&mut self, byte: u8, out: &mut Vec<u8>) -> Result<usize> {
        let before = out.len();
        loop {
            let held = match self.fill_buf() {
                Err(error) if error.kind() == ErrorKind::Interrupted => continue,
                held => held?,
            };
            let found = held.iter().position(|other| *other == byte);
            let taken = found.map_or(held.len(), |index| index + 1);
            out.extend_from_slice(&held[..taken])?;
            self.consume(taken);
            if found.is_some() || taken == 0 {
                return Ok(out.len() - before);
            }
        }
    }
}

#[derive(Debug)]
pub struct BufReader<R>(io::BufReader<R>);

impl<R: Read> BufReader<R> {
    pub fn new<A>(_alloc: A, reader: R) -> Result<Self> {
        Ok(BufReader(io::BufReader::new(reader)))
    }
}

impl<R: Read> Read for BufReader<R> {
    fn read(&mut self, buffer: &mut [u8]) -> Result<usize> {
        self.0.read(buffer)
    }
}

impl<R: Read> io::BufRead for BufReader<R> {
    fn fill_buf(&mut self) -> Result<&[u8]> {
        self.0.fill_buf()
    }

    fn consume(&mut self, count: usize) {
        self.0.consume(count);
    }
}

#[derive(Debug)]
pub struct BufWriter<W: Write>(io::BufWriter<W>);

impl<W: Write> BufWriter<W> {
    pub fn new<A>(_alloc: A, writer: W) -> Result<Self> {
        Ok(BufWriter(io::BufWriter::new(writer)))
    }
}

impl<W: Write> Write for BufWriter<W> {
    fn write(&mut self, bytes: &[u8]) -> Result<usize> {
        self.0.write(bytes)
    }

    fn flush(&mut self) -> Result<()> {
        self.0.flush()
    }
}
