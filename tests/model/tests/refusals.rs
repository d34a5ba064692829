//! The example of each refusal, and that a refusal changes nothing.

mod common;

use common::*;
use model::call::{Answer, Call};
use model::reply::{RawSession, Reply};
use model::script::data;
use model::volume::{Outcome, Read, Session};

/// Makes the call and tests that bytes and session stay as they were.
fn refused(desk: &mut Desk, call: impl FnOnce(&mut Desk) -> Outcome) -> u8 {
    let (bytes, session) = (desk.volume.clone(), desk.session);
    let outcome = call(desk);
    assert!(desk.volume == bytes && desk.session == session, "a refusal changed something");
    match outcome {
        Refused(number) => number,
        other => panic!("{other:?} in place of a refusal"),
    }
}

/// Every call with a session, of the client on file 1.
fn calls_of(client: u8) -> [Call<'static>; 7] {
    [
        Call::Begin { client, budget: 255 },
        Call::Open { client, file: 1, budget: 255 },
        Call::OpenRead { client, file: 1, budget: 255 },
        Call::Read { client, file: 1, page: 0 },
        Call::Write { client, file: 1, page: 0, data: &[0; 256], budget: 255 },
        Call::Commit { client, budget: 255 },
        Call::Abort { client, budget: 255 },
    ]
}

/// Tests that each call is refused by the number with this session, and
/// changes neither bytes nor session. There is no client 9.
fn all_refused(desk: &Desk, session: RawSession, number: u8) {
    let mut volume = desk.volume.clone();
    for call in [1, 9].into_iter().flat_map(calls_of) {
        let expected = Reply { session, answer: Answer::Refused(number).into() };
        assert_eq!(make_raw(&mut volume, session, call), expected, "{call} with {session:?}");
        assert!(volume == desk.volume, "a refusal changed something");
    }
}

/// V with client 1 begun and file 1 open for it.
fn opened() -> Desk {
    let mut desk = Desk::v();
    assert_eq!(desk.begin(1), Done(1));
    assert_eq!(desk.open(1, 1), Done(1));
    desk
}

#[test]
fn no_1_volume_not_sound() {
    let mut desk = Desk::v();
    desk.volume[0] = 0;
    assert_eq!(refused(&mut desk, |desk| desk.begin(1)), 1);
    assert_eq!(refused(&mut desk, |desk| desk.commit(9)), 1);
    assert_eq!(desk.read(1, 1, 0), Read::Refused(1));
    assert!(desk.page(1, 1, 0).is_empty());
    let begin = Call::Begin { client: 1, budget: 255 };
    assert_eq!(make(&mut [], Session::new(), begin).1, Answer::Refused(1));
    // Whatever the session is.
    all_refused(&desk, RawSession::default(), 1);
    all_refused(&desk, RawSession { active: 255, reading: [1, 2, 3, 0xFFFF] }, 1);
}

#[test]
fn no_2_session_does_not_fit() {
    // The record isn't open.
    let mut desk = Desk::v();
    desk.session = session(1, &[]);
    assert_eq!(refused(&mut desk, |desk| desk.begin(1)), 2);
    assert_eq!(refused(&mut desk, |desk| desk.begin(2)), 2);
    // A client above T.
    desk.session = session(4, &[]);
    assert_eq!(refused(&mut desk, |desk| desk.begin(1)), 2);
    // An entry for a file whose header doesn't name the client.
    let mut desk = opened();
    assert_eq!(desk.write(1, 1, 0, 5), Done(2));
    desk.volume[3 * 256 + 2] = 0;
    assert!(is_sound(&desk.volume));
    assert_eq!(refused(&mut desk, |desk| desk.open(1, 1)), 2);
    // A bit that is no client's.
    for active in [16, 17, 128, 255] {
        all_refused(&Desk::v(), RawSession::of_marks(active), 2);
        all_refused(&Desk::v(), RawSession { active, reading: [1, 0, 0, 0x8000] }, 2);
    }
}

#[test]
fn no_2_hold_of_a_client_not_marked() {
    let mut desk = Desk::v();
    // Nobody is marked.
    all_refused(&desk, session(0, &[(1, 1)]).into(), 2);
    assert_eq!(desk.begin(1), Done(1));
    all_refused(&desk, session(0, &[(1, 1)]).into(), 2);
    all_refused(&desk, session(1, &[(2, 1)]).into(), 2);
    // Clients that there are not.
    all_refused(&desk, session(1, &[(3, 1)]).into(), 2);
    all_refused(&desk, session(1, &[(1, 1), (4, 2)]).into(), 2);
    desk.session = session(1, &[(1, 1), (1, 2)]);
    assert_eq!(desk.open_read(1, 2), Done(0));
}

#[test]
fn no_2_hold_of_a_file_above_the_last() {
    let mut desk = Desk::v();
    assert_eq!(desk.begin(1), Done(1));
    for file in 3..=16 {
        all_refused(&desk, session(1, &[(1, file)]).into(), 2);
        all_refused(&desk, session(1, &[(1, 1), (1, file)]).into(), 2);
    }
}

#[test]
fn no_2_hold_of_a_file_that_is_held() {
    // By another marked client, and by the reading client itself.
    let mut desk = opened();
    assert_eq!(desk.begin(2), Done(1));
    all_refused(&desk, session(3, &[(2, 1)]).into(), 2);
    all_refused(&desk, session(3, &[(2, 1), (2, 2)]).into(), 2);
    all_refused(&desk, session(3, &[(1, 1)]).into(), 2);
    // By an interrupted client.
    all_refused(&desk, session(2, &[(2, 1)]).into(), 2);
    desk.session = session(3, &[(2, 2), (1, 2)]);
    assert_eq!(desk.commit(2), Done(2));
    assert_eq!(desk.session, session(1, &[(1, 2)]));
}

#[test]
fn no_3_client_out_of_range() {
    let mut desk = Desk::v();
    assert_eq!(refused(&mut desk, |desk| desk.begin(3)), 3);
    assert_eq!(refused(&mut desk, |desk| desk.begin(0)), 3);
    assert_eq!(refused(&mut desk, |desk| desk.abort(255)), 3);
    assert_eq!(refused(&mut desk, |desk| desk.open_read(3, 9)), 3);
}

#[test]
fn no_4_begun_twice() {
    let mut desk = Desk::v();
    assert_eq!(desk.begin(1), Done(1));
    assert_eq!(refused(&mut desk, |desk| desk.begin(1)), 4);
}

#[test]
fn no_5_not_begun() {
    let mut desk = Desk::v();
    assert_eq!(refused(&mut desk, |desk| desk.commit(1)), 5);
    assert_eq!(refused(&mut desk, |desk| desk.abort(1)), 5);
    assert_eq!(refused(&mut desk, |desk| desk.open(1, 0)), 5);
    assert_eq!(refused(&mut desk, |desk| desk.open_read(1, 0)), 5);
    assert_eq!(refused(&mut desk, |desk| desk.write(1, 0, 0, 0)), 5);
    assert_eq!(desk.read(1, 1, 0), Read::Refused(5));
}

#[test]
fn no_6_file_out_of_range() {
    let mut desk = Desk::v();
    assert_eq!(desk.begin(1), Done(1));
    assert_eq!(refused(&mut desk, |desk| desk.open(1, 3)), 6);
    assert_eq!(refused(&mut desk, |desk| desk.open(1, 0)), 6);
    assert_eq!(refused(&mut desk, |desk| desk.open_read(1, 3)), 6);
    assert_eq!(refused(&mut desk, |desk| desk.open_read(1, 0)), 6);
    assert_eq!(refused(&mut desk, |desk| desk.write(1, 3, 0, 0)), 6);
    assert_eq!(desk.read(1, 0, 0), Read::Refused(6));
}

#[test]
fn no_7_held_by_another() {
    let mut desk = opened();
    assert_eq!(desk.begin(2), Done(1));
    assert_eq!(refused(&mut desk, |desk| desk.open(2, 1)), 7);
}

#[test]
fn no_7_reading_while_another_writes() {
    let mut desk = opened();
    assert_eq!(desk.begin(2), Done(1));
    assert_eq!(desk.open_read(2, 2), Done(0));
    assert_eq!(refused(&mut desk, |desk| desk.open_read(2, 1)), 7);
    assert_eq!(refused(&mut desk, |desk| desk.open_read_within(2, 1, 0)), 7);
}

#[test]
fn no_7_writing_while_another_reads() {
    let mut desk = Desk::v();
    for client in [1, 2] {
        assert_eq!(desk.begin(client), Done(1));
    }
    assert_eq!(desk.open_read(1, 1), Done(0));
    assert_eq!(refused(&mut desk, |desk| desk.open(2, 1)), 7);
    // Even if it reads itself.
    assert_eq!(desk.open_read(2, 1), Done(0));
    assert_eq!(refused(&mut desk, |desk| desk.open(2, 1)), 7);
    assert_eq!(refused(&mut desk, |desk| desk.open_within(2, 1, 0)), 7);
}

#[test]
fn no_8_not_held() {
    let mut desk = Desk::v();
    assert_eq!(desk.begin(1), Done(1));
    assert_eq!(refused(&mut desk, |desk| desk.write(1, 1, 0, 0)), 8);
    assert_eq!(refused(&mut desk, |desk| desk.write(1, 1, 9, 0)), 8);
    assert_eq!(desk.read(1, 1, 0), Read::Refused(8));
    // Another file, and the same file of another client.
    assert_eq!(desk.begin(2), Done(1));
    assert_eq!(desk.open_read(1, 2), Done(0));
    assert_eq!(desk.open_read(2, 1), Done(0));
    assert_eq!(refused(&mut desk, |desk| desk.write(1, 1, 0, 0)), 8);
    assert_eq!(desk.read(1, 1, 0), Read::Refused(8));
    assert_eq!(desk.read(1, 2, 0), Read::Sector(8));
}

#[test]
fn no_16_held_for_reading_only() {
    let mut desk = Desk::v();
    assert_eq!(desk.begin(1), Done(1));
    assert_eq!(desk.open_read(1, 1), Done(0));
    assert_eq!(refused(&mut desk, |desk| desk.write(1, 1, 0, 0)), 16);
    // After 8 and before 9 and 10.
    assert_eq!(refused(&mut desk, |desk| desk.write(1, 2, 0, 0)), 8);
    assert_eq!(refused(&mut desk, |desk| desk.write(1, 1, 2, 0)), 16);
    assert_eq!(refused(&mut desk, |desk| desk.write_data(1, 1, 0, &[])), 16);
    assert_eq!(desk.read(1, 1, 2), Read::Refused(9));
}

#[test]
fn no_9_page_out_of_range() {
    let mut desk = opened();
    assert_eq!(refused(&mut desk, |desk| desk.write(1, 1, 2, 0)), 9);
    assert_eq!(refused(&mut desk, |desk| desk.write_data(1, 1, 2, &[])), 9);
    assert_eq!(desk.read(1, 1, 2), Read::Refused(9));
}

#[test]
fn no_10_data_not_a_page() {
    let mut desk = opened();
    for length in [0, 255, 257, 512] {
        assert_eq!(refused(&mut desk, |desk| desk.write_data(1, 1, 0, data(0, length))), 10);
    }
}

#[test]
fn no_11_no_real_left() {
    let mut desk = opened();
    assert_eq!(desk.write(1, 1, 0, 0), Done(2));
    assert_eq!(refused(&mut desk, |desk| desk.write(1, 1, 1, 0)), 11);
}

#[test]
fn no_12_record_full() {
    let mut desk = Desk::new(243, 1, &[70, 240]);
    assert_eq!(desk.begin(1), Done(1));
    assert_eq!(desk.open(1, 1), Done(1));
    for page in 0..62 {
        assert_eq!(desk.write(1, 1, page, 0), Done(2));
    }
    assert_eq!(refused(&mut desk, |desk| desk.write(1, 1, 62, 0)), 12);
}

#[test]
fn no_11_goes_before_12() {
    // 62 entries and no real left: 132 reals, 70 pages.
    let mut desk = Desk::new(135, 1, &[70, 132]);
    assert_eq!(desk.begin(1), Done(1));
    assert_eq!(desk.open(1, 1), Done(1));
    for page in 0..62 {
        assert_eq!(desk.write(1, 1, page, 0), Done(2));
    }
    assert_eq!(refused(&mut desk, |desk| desk.write(1, 1, 62, 0)), 11);
    assert_eq!(desk.write(1, 1, 0, 1), Done(1));
}

/// Lays out bytes that aren't zero and tests that a refusal leaves them.
fn layout(length: usize, clients: u8, shape: &[u8]) -> Result<(), u8> {
    let mut volume = vec![0xEE; length];
    let result = format(&mut volume, clients, shape);
    assert!(result.is_ok() || volume.iter().all(|&byte| byte == 0xEE), "a refusal changed something");
    result
}

#[test]
fn no_13_length() {
    assert_eq!(layout(300, 2, &V_SHAPE), Err(13));
    assert_eq!(layout(255, 0, &[]), Err(13));
    assert_eq!(layout(1025 * 256, 2, &V_SHAPE), Err(13));
    assert_eq!(layout(1024 * 256, 2, &V_SHAPE), Ok(()));
}

#[test]
fn no_14_shape() {
    assert_eq!(layout(V_LENGTH, 0, &V_SHAPE), Err(14));
    assert_eq!(layout(V_LENGTH, 5, &V_SHAPE), Err(14));
    let bad: [&[u8]; 8] = [&[], &[2], &[2, 3, 1], &[0, 3], &[121, 240], &[3, 2], &[1, 241], &[1, 1, 2, 1]];
    for shape in bad {
        assert_eq!(layout(V_LENGTH, 2, shape), Err(14), "{shape:?}");
    }
    assert_eq!(layout(256 * 64, 1, &[1; 34]), Err(14));
    assert_eq!(layout(256 * 64, 1, &[1; 32]), Ok(()));
    assert_eq!(layout(0, 0, &V_SHAPE), Err(14));
}

#[test]
fn no_15_too_small() {
    assert_eq!(layout(10 * 256, 2, &V_SHAPE), Err(15));
    assert_eq!(layout(0, 2, &V_SHAPE), Err(15));
    assert_eq!(layout(V_LENGTH, 2, &V_SHAPE), Ok(()));
}
