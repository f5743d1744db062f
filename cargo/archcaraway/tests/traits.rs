//! What the types promise beside their methods.

use archcaraway::{
    Account, Answer, BalanceError, Batch, BatchBuilder, BuildError, Client, Clip, ClipError,
    CombineError, ConflictSet, Core, CoreError, NewError, Range, RangeError, ReadIndices, Reply,
    ResolveError, Resolver, SettleError, ShardReply, SplitPoints, SplitPointsError, Stop,
    TryReceiveError, TrySendError, Turn, Txn, TxnRef, Verdict, WireError,
};
use std::error::Error;
use std::fmt::Debug;
use std::io::ErrorKind;

const fn is_sent<T: Send + 'static>() {}
const fn is_shared<T: Send + Sync + Debug>() {}
const fn is_error<T: Error + Clone + PartialEq + Send + Sync + 'static>() {}

const _: () = {
    is_sent::<Batch>();
    is_sent::<BatchBuilder>();
    is_sent::<Client>();
    is_sent::<Clip>();
    is_sent::<ConflictSet>();
    is_sent::<Core>();
    is_sent::<Reply>();
    is_sent::<Resolver>();
    is_sent::<Range<'static>>();
    is_sent::<ShardReply>();
    is_sent::<SplitPoints>();
    is_sent::<Txn<'static>>();
};

const _: () = {
    is_shared::<Account>();
    is_shared::<Answer>();
    is_shared::<Batch>();
    is_shared::<BatchBuilder>();
    is_shared::<Clip>();
    is_shared::<ConflictSet>();
    is_shared::<Core>();
    is_shared::<Range<'_>>();
    is_shared::<ReadIndices>();
    is_shared::<Reply>();
    is_shared::<ShardReply>();
    is_shared::<SplitPoints>();
    is_shared::<Turn>();
    is_shared::<Txn<'_>>();
    is_shared::<TxnRef<'_>>();
    is_shared::<Verdict>();
};

const _: () = {
    is_error::<BalanceError>();
    is_error::<BuildError>();
    is_error::<ClipError>();
    is_error::<CombineError>();
    is_error::<CoreError>();
    is_error::<NewError>();
    is_error::<RangeError>();
    is_error::<ResolveError>();
    is_error::<SettleError>();
    is_error::<SplitPointsError>();
    is_error::<Stop>();
    is_error::<TryReceiveError>();
    is_error::<TrySendError>();
    is_error::<WireError>();
};

#[test]
fn texts_of_errors() {
    let errors: [(Box<dyn Error>, &str); 11] = [
        (
            BuildError::Range { txn: 3, error: RangeError::Inverted }.into(),
            "transaction 3: begin key is after end key",
        ),
        (
            BuildError::Version { previous: 5, version: 4 }.into(),
            "version 4 is not above previous version 5",
        ),
        (
            RangeError::KeyLength { length: 10_002, limit: 10_001 }.into(),
            "key of 10002 bytes is longer than 10001 bytes",
        ),
        (NewError::Window(0).into(), "window 0 is not 1 to 1099511627776"),
        (
            ResolveError::Version { version: 7, last: 8 }.into(),
            "version 7 is not above 8, which was resolved last",
        ),
        (ResolveError::from(Stop::Memory).into(), "allocation failed"),
        (ResolveError::Full.into(), "the batch needs more boundaries than the limit"),
        (
            CoreError::Proxy { proxy: 2, proxies: 2 }.into(),
            "proxy 2 is not one of 2, numbered from 0",
        ),
        (
            SettleError::Client { index: 1 }.into(),
            "client at index 1 is not the resolver's client of that number",
        ),
        (TryReceiveError::Empty.into(), "no answer is there"),
        (WireError::Read(ErrorKind::ConnectionReset).into(), "reader failed: connection reset"),
    ];
    for (error, text) in errors {
        assert_eq!(error.to_string(), text);
    }
}
