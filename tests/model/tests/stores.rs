//! The order of the stores: each call is cut after every store, and the
//! sector that each store changed is compared.

mod common;

use common::*;
use model::call::{Answer, Call};
use model::script::data;
use model::volume::Session;

/// The sectors that the stores of the call change, in order. A store that
/// changes no byte is a 0 here, since no call stores sector 0.
fn sectors_stored(desk: &Desk, call: Call) -> Vec<usize> {
    let mut sequence = Vec::new();
    let mut last = desk.volume.clone();
    for budget in 1.. {
        let mut next = desk.volume.clone();
        let (session, answer) = make(&mut next, desk.session, call.with_budget(budget));
        let changed: Vec<usize> =
            (0..next.len() / 256).filter(|s| next[256 * s..][..256] != last[256 * s..][..256]).collect();
        assert!(changed.len() <= 1, "{changed:?}");
        sequence.push(changed.first().copied().unwrap_or(0));
        last = next;
        match answer {
            Answer::Cut(count) => assert_eq!((count, session), (budget, Session::new())),
            other => {
                assert_eq!(other, Answer::Done(budget));
                break;
            }
        }
    }
    sequence
}

const BUDGET: u8 = 255;

#[test]
fn commit_decides_first_and_idles_last() {
    assert_eq!(sectors_stored(&in_use(), Call::Commit { client: 1, budget: BUDGET }), [1, 3, 7, 1]);
}

#[test]
fn abort_idles_last() {
    assert_eq!(sectors_stored(&in_use(), Call::Abort { client: 1, budget: BUDGET }), [3, 7, 1]);
}

#[test]
fn begin_recovers_itself() {
    let mut desk = in_use();
    desk.session = Session::new();
    assert_eq!(sectors_stored(&desk, Call::Begin { client: 1, budget: BUDGET }), [3, 7, 1, 1]);
    assert_eq!(sectors_stored(&desk, Call::Begin { client: 2, budget: BUDGET }), [2]);
}

#[test]
fn open_recovers_the_whole_holder() {
    let mut desk = in_use();
    desk.session = Session::new();
    desk.begin(2);
    assert_eq!(sectors_stored(&desk, Call::Open { client: 2, file: 1, budget: BUDGET }), [3, 7, 1, 3]);
    assert_eq!(sectors_stored(&desk, Call::Open { client: 2, file: 2, budget: BUDGET }), [3, 7, 1, 7]);
}

/// As open, without the store of the holder.
#[test]
fn open_read_recovers_the_whole_holder() {
    let mut desk = in_use();
    desk.session = Session::new();
    desk.begin(2);
    assert_eq!(sectors_stored(&desk, Call::OpenRead { client: 2, file: 1, budget: BUDGET }), [3, 7, 1]);
    assert_eq!(sectors_stored(&desk, Call::OpenRead { client: 2, file: 2, budget: BUDGET }), [3, 7, 1]);
}

/// A file that is read adds no store; one that is held for writing adds one.
#[test]
fn readers_store_their_record_alone() {
    let mut desk = Desk::v();
    desk.begin(1);
    desk.open_read(1, 1);
    assert_eq!(sectors_stored(&desk, Call::Commit { client: 1, budget: BUDGET }), [1, 1]);
    assert_eq!(sectors_stored(&desk, Call::Abort { client: 1, budget: BUDGET }), [1]);
    assert_eq!(sectors_stored(&desk, Call::Open { client: 1, file: 1, budget: BUDGET }), [3]);
    desk.open(1, 2);
    assert_eq!(sectors_stored(&desk, Call::Commit { client: 1, budget: BUDGET }), [1, 7, 1]);
    assert_eq!(sectors_stored(&desk, Call::Abort { client: 1, budget: BUDGET }), [7, 1]);
}

#[test]
fn write_stores_the_page_before_the_record() {
    let mut desk = Desk::v();
    desk.begin(1);
    desk.open(1, 1);
    let first = Call::Write { client: 1, file: 1, page: 1, data: data(3, 256), budget: BUDGET };
    assert_eq!(sectors_stored(&desk, first), [6, 1]);
    desk.write(1, 1, 1, 3);
    let again = Call::Write { client: 1, file: 1, page: 1, data: data(4, 256), budget: BUDGET };
    assert_eq!(sectors_stored(&desk, again), [6]);
}

#[test]
fn a_call_without_a_store_is_done_at_0() {
    let mut desk = in_use();
    assert_eq!(desk.open_within(1, 2, 0), Done(0));
    assert_eq!(desk.open_read_within(1, 2, 0), Done(0));
    assert_eq!(desk.session, session(1, &[]));
}
