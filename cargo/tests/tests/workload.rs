//! The program `workload`: what it draws, which arguments it takes, and that all output is flushed.

use rattle_std::alloc::Global;
use rattle_std::string::String as KitString;
use std::collections::BTreeSet;
use std::io::{ErrorKind, Result as IoResult, Write};
use tests::plain::PlainBatch;
use tests::spelling::batch_frame;
use wire::{StdSink, decode_batch, encode_batch_1};
use workload_program::{Random, Shape, USAGE, draw_batch, draw_range, read_words, run};

const SHAPES: [Shape; 2] = [Shape::SkipListTest, Shape::Points];

fn words(text: &str) -> Vec<KitString> {
    text.split_whitespace()
        .map(|word| KitString::from_str(Global, word).expect("memory is ample"))
        .collect()
}

/// The frame of each drawn batch decodes to that batch.
#[test]
fn batches_decode_again() {
    for shape in SHAPES {
        let mut random = Random::new(1);
        for number in 0..3 {
            let batch = draw_batch(Global, &mut random, shape, number, 4).expect("memory is ample");
            assert_eq!(batch.txns.len(), 4);
            let plain = PlainBatch::of(&batch);
            let frame = encode_batch_1(Global, &batch).expect("the batch is short");
            assert_eq!(frame.as_slice(), batch_frame(&plain, 1));
            let (decoded, used) = decode_batch(Global, &frame).expect("it was encoded");
            assert_eq!((PlainBatch::of(&decoded), used), (plain, frame.len()));
        }
    }
}

#[test]
fn arguments_within_limits() {
    for (text, is_taken) in [
        ("workload skiplisttest 1 1", true),
        ("workload points 65536 2500", true),
        ("workload", false),
        ("workload circles 1 1", false),
        ("workload skiplisttest 0 1", false),
        ("workload skiplisttest 65537 1", false),
        ("workload skiplisttest 1 0", false),
        ("workload skiplisttest 1 2501", false),
        ("workload skiplisttest 1 -1", false),
        ("workload skiplisttest 1", false),
        ("workload skiplisttest 1 1 1", false),
    ] {
        assert_eq!(read_words(&words(text)).is_some(), is_taken, "{text}");
    }
}

#[test]
fn begins_vary() {
    for shape in SHAPES {
        let mut random = Random::new(1);
        let begins: BTreeSet<_> = (0..100)
            .map(|_| {
                draw_range(Global, &mut random, shape)
                    .expect("memory is ample")
                    .begin
                    .as_bytes()
                    .to_vec()
            })
            .collect();
        assert!(begins.len() > 90, "{shape:?}: {}", begins.len());
    }
}

/// Ranges have each width from 1 to 10, and snapshots lie each number from 1 to 8 of batches back.
#[test]
fn widths_and_snapshots_vary() {
    let mut random = Random::new(1);
    let (mut widths, mut backs) = (BTreeSet::new(), BTreeSet::new());
    for _ in 0..200 {
        let range = draw_range(Global, &mut random, Shape::SkipListTest).expect("memory is ample");
        let last = |key: &keys::Key| *key.as_bytes().last().expect("a key has a number");
        widths.insert(last(&range.end).wrapping_sub(last(&range.begin)));
        backs.insert(Shape::Points.look_back(&mut random));
    }
    assert!(widths.into_iter().eq(1..=10));
    assert!(backs.into_iter().eq(1..=8));
}

/// Of a million keys about 850 of 1,000 that are drawn are in the lower half.
#[test]
fn small_keys_are_likelier() {
    let mut random = Random::new(1);
    let small = (0..1_000).filter(|_| Shape::Points.draw(&mut random) < 500_000).count();
    assert!(small > 750, "{small}");
}

/// A writer that holds its bytes back until it is flushed, and has room for `room` bytes.
struct HoldsBack {
    held: usize,
    passed: usize,
    room: usize,
}

impl HoldsBack {
    fn sink(room: usize) -> StdSink<Self> {
        StdSink::new(HoldsBack { held: 0, passed: 0, room })
    }
}

impl Write for HoldsBack {
    fn write(&mut self, bytes: &[u8]) -> IoResult<usize> {
        let count = bytes.len().min(self.room);
        if count == 0 {
            return Err(ErrorKind::StorageFull.into());
        }
        self.room -= count;
        self.held += count;
        Ok(count)
    }

    fn flush(&mut self) -> IoResult<()> {
        self.passed += self.held;
        self.held = 0;
        Ok(())
    }
}

/// Returns the status of a run, and the number of flushed bytes.
fn flushed(text: &str, room: usize) -> (u8, usize) {
    let mut out = HoldsBack::sink(room);
    let status = run(Global, &words(text), &mut out, &mut HoldsBack::sink(1_000));
    (status, out.into_inner().passed)
}

/// A frame has 31 bytes, 13 more per transaction, and 36 per range. Of a run that fails nothing is
/// flushed.
#[test]
fn all_output_is_flushed() {
    for (text, room, expected) in [
        ("workload skiplisttest 1 1", 1_000, (0, 116)),
        ("workload skiplisttest 1 1", 116, (0, 116)),
        ("workload skiplisttest 1 1", 115, (1, 0)),
        ("workload circles 1 1", 1_000, (2, 0)),
        ("workload", 1_000, (0, USAGE.len())),
        ("workload", 10, (1, 0)),
        ("workload --version", 1_000, (0, 15)),
        ("workload --version", 14, (1, 0)),
        ("workload points --help 1", 10, (1, 0)),
    ] {
        assert_eq!(flushed(text, room), expected, "{text}, room for {room}");
    }
    let (status, passed) = flushed("workload --help", 10_000);
    assert!(status == 0 && passed > 100, "{passed}");
}

/// Each batch draws its own ranges, which are the last 72 bytes of a frame of one transaction.
#[test]
fn batches_vary() {
    let mut out = StdSink::new(Vec::new());
    assert_eq!(
        run(Global, &words("workload skiplisttest 2 1"), &mut out, &mut HoldsBack::sink(0)),
        0
    );
    let file = out.into_inner();
    assert_eq!(file.len(), 232);
    assert_ne!(file[44..116], file[160..232]);
}
