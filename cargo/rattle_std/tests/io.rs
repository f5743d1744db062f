//! Readers and writers with a buffer, over ones that are slow, interrupted or broken.

use rattle_std::alloc::Global;
use rattle_std::io::{BufRead, BufReader, BufWriter, Error, ErrorKind, Read, Result, Write};
use rattle_std::vec::Vec;
use std::cell::RefCell;
use std::rc::Rc;

/// A step of a reader: bytes that it gives, or an error.
#[derive(Clone)]
enum Step {
    Gives(std::vec::Vec<u8>),
    Fails(ErrorKind),
}

struct Steps(std::collections::VecDeque<Step>);

impl Read for Steps {
    fn read(&mut self, buffer: &mut [u8]) -> Result<usize> {
        match self.0.pop_front() {
            None => Ok(0),
            Some(Step::Fails(kind)) => Err(kind.into()),
            Some(Step::Gives(bytes)) => {
                let count = bytes.len().min(buffer.len());
                buffer[..count].copy_from_slice(&bytes[..count]);
                if count < bytes.len() {
                    self.0.push_front(Step::Gives(bytes[count..].to_vec()));
                }
                Ok(count)
            }
        }
    }
}

fn reader(steps: &[Step]) -> BufReader<Steps> {
    BufReader::new(Global, Steps(steps.iter().cloned().collect())).expect("memory is ample")
}

fn gives(bytes: &[u8]) -> Step {
    Step::Gives(bytes.to_vec())
}

/// Reads lines to the end, and joins them with bars.
fn lines(reader: &mut impl BufRead) -> String {
    let mut all = String::new();
    loop {
        let mut line = Vec::new(Global);
        match reader.read_until(b'\n', &mut line) {
            Ok(0) => {
                assert!(line.is_empty());
                return all;
            }
            Ok(count) => {
                assert_eq!(count, line.len());
                all += &format!("{}|", std::str::from_utf8(&line).unwrap());
            }
            Err(error) => {
                all += &format!("{}!{:?}|", std::str::from_utf8(&line).unwrap(), error.kind());
            }
        }
    }
}

#[test]
fn lines_of_readers() {
    for (steps, expected) in [
        (vec![], ""),
        (vec![gives(b"a\nb\n")], "a\n|b\n|"),
        (vec![gives(b"a\nb")], "a\n|b|"),
        (vec![gives(b"\n\n")], "\n|\n|"),
        (vec![gives(b"a"), gives(b"b"), gives(b"\nc")], "ab\n|c|"),
        (
            vec![
                gives(b"a"),
                Step::Fails(ErrorKind::Interrupted),
                gives(b"\n"),
                Step::Fails(ErrorKind::Interrupted),
                gives(b"b"),
            ],
            "a\n|b|",
        ),
        (vec![Step::Fails(ErrorKind::Interrupted)], ""),
        // What came before an error stays in the line, and what comes after it may still be read.
        (vec![gives(b"a\nbc"), Step::Fails(ErrorKind::Other), gives(b"d\n")], "a\n|bc!Other|d\n|"),
        (vec![Step::Fails(ErrorKind::PermissionDenied)], "!PermissionDenied|"),
    ] {
        assert_eq!(lines(&mut reader(&steps)), expected);
    }
}

/// A line longer than any buffer, of which each piece comes after an interruption.
#[test]
fn long_line_in_pieces() {
    let line = [vec![b'x'; 100_000], vec![b'\n']].concat();
    let steps: std::vec::Vec<_> = line
        .chunks(977)
        .flat_map(|piece| [Step::Fails(ErrorKind::Interrupted), gives(piece)])
        .collect();
    let mut out = Vec::new(Global);
    let mut reader = reader(&steps);
    out.extend_from_slice(b"before").unwrap();
    assert_eq!(reader.read_until(b'\n', &mut out).unwrap(), line.len());
    assert!(out.as_slice() == [&b"before"[..], &line].concat());
    assert_eq!(reader.read_until(b'\n', &mut out).unwrap(), 0);
}

#[test]
fn any_byte_ends_a_piece() {
    let bytes: std::vec::Vec<u8> = (0..=255).cycle().take(70_000).collect();
    for byte in [0, 10, 255] {
        let (mut reader, mut all) = (reader(&[gives(&bytes)]), Vec::new(Global));
        while reader.read_until(byte, &mut all).unwrap() > 0 {
            assert!(all.last() == Some(&byte) || all.len() == bytes.len());
        }
        assert!(all.as_slice() == bytes);
    }
}

#[test]
fn buffered_reads_are_those_of_the_reader() {
    let bytes: std::vec::Vec<u8> = (0..30_000_u32).map(|number| (number * 7) as u8).collect();
    let steps: std::vec::Vec<_> = bytes.chunks(501).map(gives).collect();
    let (mut reader, mut all) = (reader(&steps), std::vec::Vec::new());
    let mut buffer = [0; 777];
    loop {
        let count = reader.read(&mut buffer).unwrap();
        if count == 0 {
            break;
        }
        all.extend_from_slice(&buffer[..count]);
    }
    assert!(all == bytes);
}

/// A writer that takes few bytes per call, and fails once it has `most` bytes.
#[derive(Clone)]
struct Few {
    written: Rc<RefCell<std::vec::Vec<u8>>>,
    most: usize,
    interrupted: bool,
}

impl Few {
    fn new(most: usize) -> Self {
        Few { written: Rc::default(), most, interrupted: false }
    }
}

impl Write for Few {
    fn write(&mut self, bytes: &[u8]) -> Result<usize> {
        self.interrupted = !self.interrupted;
        if self.interrupted {
            return Err(ErrorKind::Interrupted.into());
        }
        let mut written = self.written.borrow_mut();
        let count = bytes.len().min(self.most - written.len()).min(100);
        if count == 0 && !bytes.is_empty() {
            return Err(Error::other("it is full"));
        }
        written.extend_from_slice(&bytes[..count]);
        Ok(count)
    }

    fn flush(&mut self) -> Result<()> {
        Ok(())
    }
}

/// Whatever fails, an error is returned by a write or by the flush, and a prefix of the bytes is
/// written.
#[test]
fn buffered_writer_that_fails() {
    let bytes: std::vec::Vec<u8> = (0..20_000_u32).map(|number| (number * 7) as u8).collect();
    for most in [0, 1, 99, 100, 8_191, 8_192, 8_193, 16_384, 19_999, 20_000, 30_000] {
        for piece in [1, 100, 5_000, 20_000] {
            let few = Few::new(most);
            let mut writer = BufWriter::new(Global, few.clone()).unwrap();
            let written = bytes
                .chunks(piece)
                .try_for_each(|piece| writer.write_all(piece))
                .and_then(|()| writer.flush());
            assert_eq!(written.is_ok(), most >= bytes.len(), "{most} {piece}");
            let count = bytes.len().min(most);
            assert!(*few.written.borrow() == bytes[..count], "{most} {piece}");
        }
    }
}

/// Nothing is written before a flush while the buffer has room.
#[test]
fn buffered_writer_waits_for_a_flush() {
    let few = Few::new(100);
    let mut writer = BufWriter::new(Global, few.clone()).unwrap();
    writer.write_all(b"abc").unwrap();
    assert_eq!(few.written.borrow().len(), 0);
    writer.flush().unwrap();
    assert_eq!(*few.written.borrow(), b"abc");
}
