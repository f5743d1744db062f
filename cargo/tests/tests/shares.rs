//! Which batch goes first if all proxies wait for each other, and what they report in a waiting
//! room.

use rattle_std::alloc::Global;
use replay_workers::{ReportedState, Stand, WaitingRoom, is_below_share, next_admitted};

const GOES: ReportedState = ReportedState::Goes;
const CLOSED: ReportedState = ReportedState::Closed;
const FIRST: Stand = Stand { previous: 10, answered: 3 };
const SECOND: Stand = Stand { previous: 20, answered: 4 };

const fn stands(previous: i64, answered: u64) -> ReportedState {
    ReportedState::Stands(Stand { previous, answered })
}

/// What each proxy reports, how many answers were sent to it, and the proxy whose batch goes.
#[test]
fn next_batch() {
    let rows: [(&[ReportedState], &[u64], Option<usize>); 11] = [
        (&[], &[], None),
        (&[CLOSED], &[7], None),
        (&[GOES], &[0], None),
        (&[stands(10, 3)], &[3], Some(0)),
        // An answer is on its way.
        (&[stands(10, 3)], &[4], None),
        (&[stands(20, 3), stands(10, 5)], &[3, 5], Some(1)),
        (&[stands(20, 3), stands(10, 5)], &[5, 5], None),
        (&[stands(10, 0), stands(10, 0)], &[0, 0], Some(0)),
        (&[CLOSED, stands(10, 0), stands(-1, 9)], &[2, 0, 9], Some(2)),
        (&[stands(10, 0), GOES], &[0, 0], None),
        (&[stands(10, 0), CLOSED], &[0, 8], Some(0)),
    ];
    for (reported, sent, expected) in rows {
        assert_eq!(next_admitted(reported, sent), expected, "{reported:?} {sent:?}");
    }
}

/// In the last row more answers than batches were counted.
#[test]
fn share_of_a_proxy() {
    for (sent, answered, share, expected) in [
        (0, 0, 1, true),
        (1, 0, 1, false),
        (16, 0, 16, false),
        (16, 1, 16, true),
        (u64::MAX, 0, 16, false),
        (3, 5, 1, true),
    ] {
        assert_eq!(is_below_share(sent, answered, share), expected, "{sent} {answered} {share}");
    }
}

/// A proxy stands until it is let through. One answer later it stands with its next batch.
#[test]
fn stands_until_admit() {
    let room = WaitingRoom::new(Global, 1).expect("memory is ample");
    assert_eq!(room.reported_state(0), GOES);
    assert!(!room.stands(0, FIRST));
    assert!(!room.stands(0, FIRST));
    assert_eq!(room.reported_state(0), ReportedState::Stands(FIRST));
    room.admit(0);
    assert_eq!(room.reported_state(0), GOES);
    assert!(room.stands(0, FIRST));
    assert_eq!(room.reported_state(0), GOES);
    assert!(!room.stands(0, FIRST));
    assert!(!room.stands(0, SECOND));
    assert_eq!(room.reported_state(0), ReportedState::Stands(SECOND));
}

/// Two proxies stand at once. One is let through, and the other closes. A third has no place.
#[test]
fn places_are_apart() {
    let room = WaitingRoom::new(Global, 2).expect("memory is ample");
    assert!(!room.stands(0, SECOND));
    assert!(!room.stands(1, FIRST));
    assert_eq!(
        (room.reported_state(0), room.reported_state(1)),
        (ReportedState::Stands(SECOND), ReportedState::Stands(FIRST))
    );
    room.admit(1);
    assert_eq!(
        (room.reported_state(0), room.reported_state(1)),
        (ReportedState::Stands(SECOND), GOES)
    );
    room.closes(0);
    assert_eq!((room.reported_state(0), room.reported_state(1)), (CLOSED, GOES));
    assert!(room.stands(2, FIRST));
    room.closes(2);
    room.admit(2);
    assert_eq!(room.reported_state(2), GOES);
}
