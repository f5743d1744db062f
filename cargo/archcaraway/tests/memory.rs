//! A failed allocation is an error, whichever allocation it is.

use archcaraway::{
    BalanceError, Batch, BatchBuilder, BuildError, ClipError, CombineError, ConflictSet, Core,
    CoreError, MAX_LIMIT, NewError, Reply, ResolveError, ShardReply, SplitPoints, SplitPointsError,
    Stop, Txn, Verdict, WINDOW, WireError, combine,
};
use std::alloc::{GlobalAlloc, Layout, System};
use std::cell::Cell;
use std::fmt::Debug;
use std::ptr;

thread_local! {
    // How many allocations of this thread succeed before the rest fail.
    static LEFT: Cell<Option<usize>> = const { Cell::new(None) };
}

struct Refusing;

fn is_refused() -> bool {
    LEFT.with(|left| match left.get() {
        Some(0) => true,
        Some(count) => {
            left.set(Some(count - 1));
            false
        }
        None => false,
    })
}

// SAFETY: each call is passed to the system's allocator, or returns null, which means that it
// failed.
unsafe impl GlobalAlloc for Refusing {
    unsafe fn alloc(&self, layout: Layout) -> *mut u8 {
        if is_refused() {
            return ptr::null_mut();
        }
        unsafe { System.alloc(layout) }
    }

    unsafe fn dealloc(&self, pointer: *mut u8, layout: Layout) {
        unsafe { System.dealloc(pointer, layout) }
    }

    unsafe fn realloc(&self, pointer: *mut u8, layout: Layout, size: usize) -> *mut u8 {
        if is_refused() {
            return ptr::null_mut();
        }
        unsafe { System.realloc(pointer, layout, size) }
    }
}

#[global_allocator]
static ALLOCATOR: Refusing = Refusing;

/// Calls again and again, with one allocation more each time, until the call succeeds.
fn each_refusal<T, R, E: Debug + PartialEq>(
    prepare: impl Fn() -> T,
    call: impl Fn(&mut T) -> Result<R, E>,
    memory: E,
) -> R {
    for count in 0..1_000 {
        let mut prepared = prepare();
        LEFT.set(Some(count));
        let called = call(&mut prepared);
        LEFT.set(None);
        match called {
            Ok(result) => {
                assert!(count > 0, "it allocates");
                return result;
            }
            Err(error) => assert_eq!(error, memory, "after {count} allocations"),
        }
    }
    panic!("it never succeeds");
}

fn txn() -> Txn<'static> {
    Txn::at(0).read(("a", "b")).write_key("k").report()
}

fn batch() -> Batch {
    let batch = BatchBuilder::new(-1, 100).txn(txn()).txn(Txn::at(0).read_key("k").report());
    batch.build().expect("it is within the limits")
}

fn set() -> ConflictSet {
    ConflictSet::new(WINDOW, MAX_LIMIT).expect("there is memory")
}

fn core() -> Core {
    Core::new(2, WINDOW, MAX_LIMIT).expect("there is memory")
}

#[test]
fn building() {
    let prepare = || Some(txn());
    let build =
        |txn: &mut Option<Txn<'static>>| BatchBuilder::new(-1, 100).txns(txn.take()).build();
    let batch = each_refusal(prepare, build, BuildError::Memory);
    assert_eq!(batch.len(), 1);
}

#[test]
fn frames() {
    let encoded = each_refusal(batch, |batch| batch.encode(), WireError::Memory);
    let decoded = each_refusal(|| (), |()| Batch::decode(&encoded), WireError::Memory);
    assert_eq!(decoded, (batch(), encoded.len()));
    let read = each_refusal(|| (), |()| Batch::read(&encoded[..]), WireError::Memory);
    assert_eq!(read, Some(batch()));

    let reply = set().resolve(&batch()).expect("there is memory");
    let encoded = each_refusal(|| (), |()| reply.encode(), WireError::Memory);
    let decoded = each_refusal(|| (), |()| Reply::decode(&encoded), WireError::Memory);
    assert_eq!(decoded, (reply, encoded.len()));
}

#[test]
fn sets() {
    let new = |(): &mut ()| ConflictSet::new(WINDOW, MAX_LIMIT);
    each_refusal(|| (), new, NewError::Memory);
    let resolve = |given: &mut (ConflictSet, Batch)| given.0.resolve(&given.1);
    let stopped = ResolveError::Stop(Stop::Memory);
    let reply = each_refusal(|| (set(), batch()), resolve, stopped);
    assert!(reply.verdicts().eq([Verdict::Committed, Verdict::Conflict]));
}

#[test]
fn cores() {
    let new = |(): &mut ()| Core::new(2, WINDOW, MAX_LIMIT);
    each_refusal(|| (), new, NewError::Memory);
    let admit = |given: &mut (Core, Option<Batch>)| match given.1.take() {
        Some(batch) => given.0.admit(1, batch),
        None => Ok(()),
    };
    each_refusal(|| (core(), Some(batch())), admit, CoreError::Stop(Stop::Memory));
}

#[test]
fn shards() {
    let key = "a key that takes memory of its own";
    let new = |(): &mut ()| SplitPoints::new([key]);
    let points = each_refusal(|| (), new, SplitPointsError::Memory);
    let balanced = |batch: &mut Batch| SplitPoints::balanced([&*batch], 2);
    each_refusal(batch, balanced, BalanceError::Memory);
    let clips = each_refusal(batch, |batch| points.clip(batch), ClipError);
    assert_eq!(clips.len(), 2);

    let replies = || {
        let clips = points.clip(&batch()).expect("there is memory").into_iter();
        let reply = |batch: &Batch| set().resolve(batch).expect("there is memory");
        clips.map(|clip| ShardReply { reply: reply(&clip.batch), reads: clip.reads }).collect()
    };
    let sent = batch();
    let combined = |replies: &mut Vec<ShardReply>| combine(&sent, replies.drain(..));
    let reply = each_refusal(replies, combined, CombineError::Memory);
    assert!(reply.verdicts().eq([Verdict::Committed, Verdict::Conflict]));
}
