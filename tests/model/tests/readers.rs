//! Several clients read one file, or one writes it: replies, sessions and
//! stores, rule by rule.

mod common;

use common::*;
use model::book::Book;
use model::call::{Answer, Call};
use model::content::decided_pages;
use model::volume::{Outcome, Read, Session};

/// Pages and reals of file 1, 2 and 3.
const SHAPE: [u8; 6] = [2, 3, 1, 3, 1, 2];

/// Four clients and three files with headers in sectors 5, 9 and 13, each
/// followed by its reals. Clients 1 to `begun` have begun.
fn four(begun: u8) -> Desk {
    let mut desk = Desk::new(16, 4, &SHAPE);
    for client in 1..=begun {
        assert_eq!(desk.begin(client), Done(1));
    }
    desk
}

/// What the call answers, and the sectors that it changes.
fn made(desk: &mut Desk, call: impl FnOnce(&mut Desk) -> Outcome) -> (Outcome, Vec<usize>) {
    let before = desk.volume.clone();
    let outcome = call(desk);
    let sectors = before.chunks(256).zip(desk.volume.chunks(256)).enumerate();
    (outcome, sectors.filter(|(_, (old, new))| old != new).map(|(number, _)| number).collect())
}

/// What a call answers that changes no byte.
fn without_store(desk: &mut Desk, call: impl FnOnce(&mut Desk) -> Outcome) -> Outcome {
    let (outcome, changed) = made(desk, call);
    assert_eq!(changed, [0; 0]);
    outcome
}

/// The refusal; the session stays as it is too.
fn refusal(desk: &mut Desk, call: impl FnOnce(&mut Desk) -> Outcome) -> u8 {
    let given = desk.session;
    let outcome = without_store(desk, call);
    assert_eq!(desk.session, given);
    match outcome {
        Refused(number) => number,
        other => panic!("{other:?} in place of a refusal"),
    }
}

// ------------------------------------------------------ opening for reading

#[test]
fn a_hold_takes_no_store() {
    let mut desk = four(1);
    assert_eq!(without_store(&mut desk, |desk| desk.open_read_within(1, 1, 0)), Done(0));
    assert_eq!(desk.session, session(1, &[(1, 1)]));
    assert_eq!(desk.sector(5)[2], 0);
    assert_eq!([0, 1].map(|page| desk.read(1, 1, page)), [Read::Sector(6), Read::Sector(7)]);
    assert_eq!(desk.page(1, 1, 1).as_ptr(), desk.sector(7).as_ptr());
    assert_eq!(desk.read(1, 1, 2), Read::Refused(9));
    assert_eq!(desk.read(1, 2, 0), Read::Refused(8));
    assert!(desk.page(1, 2, 0).is_empty());
}

#[test]
fn all_clients_read_one_file() {
    let mut desk = four(4);
    for client in 1..=4 {
        assert_eq!(without_store(&mut desk, |desk| desk.open_read(client, 1)), Done(0));
    }
    assert_eq!(desk.session, session(15, &[(1, 1), (2, 1), (3, 1), (4, 1)]));
    assert_eq!([1, 2, 3, 4].map(|client| desk.read(client, 1, 1)), [Read::Sector(7); 4]);
    assert_eq!(desk.commit(2), Done(2));
    assert_eq!(desk.session, session(13, &[(1, 1), (3, 1), (4, 1)]));
}

#[test]
fn a_client_reads_several_files() {
    let mut desk = four(2);
    for (client, file) in [(2, 3), (1, 2), (1, 3), (2, 1), (1, 1)] {
        assert_eq!(without_store(&mut desk, |desk| desk.open_read(client, file)), Done(0));
    }
    assert_eq!(desk.session, session(3, &[(1, 1), (1, 2), (1, 3), (2, 1), (2, 3)]));
    assert_eq!(desk.session.reading, [0b111, 0b101, 0, 0]);
    assert_eq!([1, 2].map(|client| desk.read(client, 2, 0)), [Read::Sector(10), Read::Refused(8)]);
}

#[test]
fn the_last_client_reads_the_last_file() {
    let mut desk = Desk::new(37, 4, &[1; 32]);
    for client in [3, 4] {
        assert_eq!(desk.begin(client), Done(1));
    }
    assert_eq!(without_store(&mut desk, |desk| desk.open_read(4, 16)), Done(0));
    assert_eq!((desk.marks(), desk.session.reading), (12, [0, 0, 0, 0x8000]));
    assert_eq!(desk.read(4, 16, 0), Read::Sector(36));
    assert_eq!(refusal(&mut desk, |desk| desk.open(3, 16)), 7);
    assert_eq!(refusal(&mut desk, |desk| desk.open_read(4, 17)), 6);
    assert_eq!(desk.open(3, 15), Done(1));
    assert_eq!(desk.open(4, 16), Done(1));
    assert_eq!(desk.session, session(12, &[]));
}

#[test]
fn a_file_that_is_read_stays_as_it_is() {
    let mut desk = four(2);
    assert_eq!(desk.open_read(1, 1), Done(0));
    assert_eq!(desk.open_read(2, 1), Done(0));
    assert_eq!(without_store(&mut desk, |desk| desk.open_read_within(1, 1, 0)), Done(0));
    assert_eq!(desk.session, session(3, &[(1, 1), (2, 1)]));
}

#[test]
fn a_file_that_is_written_stays_as_it_is() {
    let mut desk = four(1);
    assert_eq!(desk.open(1, 1), Done(1));
    assert_eq!(desk.write(1, 1, 0, 10), Done(2));
    assert_eq!(without_store(&mut desk, |desk| desk.open_read_within(1, 1, 0)), Done(0));
    assert_eq!(desk.session, session(1, &[]));
    assert_eq!(desk.sector(5)[2], 1);
    assert_eq!(desk.write(1, 1, 0, 11), Done(1));
    assert_eq!(desk.page(1, 1, 0), page_of(11));
}

// ---------------------------------------------------- readers beside writers

#[test]
fn a_writer_keeps_readers_out() {
    let mut desk = four(3);
    assert_eq!(desk.open(1, 1), Done(1));
    assert_eq!(refusal(&mut desk, |desk| desk.open_read(2, 1)), 7);
    assert_eq!(desk.open_read(2, 2), Done(0));
    assert_eq!(refusal(&mut desk, |desk| desk.open_read(2, 1)), 7);
    assert_eq!(desk.session, session(7, &[(2, 2)]));
    assert_eq!(desk.commit(1), Done(3));
    assert_eq!(desk.open_read(2, 1), Done(0));
    assert_eq!(desk.session, session(6, &[(2, 1), (2, 2)]));
}

#[test]
fn a_reader_keeps_writers_out() {
    let mut desk = four(3);
    assert_eq!(desk.open_read(1, 1), Done(0));
    assert_eq!(refusal(&mut desk, |desk| desk.open(2, 1)), 7);
    assert_eq!(desk.open_read(3, 1), Done(0));
    assert_eq!(refusal(&mut desk, |desk| desk.open(2, 1)), 7);
    assert_eq!(desk.abort(1), Done(1));
    assert_eq!(refusal(&mut desk, |desk| desk.open(2, 1)), 7);
    assert_eq!(desk.commit(3), Done(2));
    assert_eq!(desk.open(2, 1), Done(1));
    assert_eq!(desk.session, session(2, &[]));
}

#[test]
fn other_files_are_no_matter() {
    let mut desk = four(2);
    assert_eq!(desk.open_read(1, 1), Done(0));
    assert_eq!(desk.open(2, 2), Done(1));
    assert_eq!(desk.write(2, 2, 0, 20), Done(2));
    assert_eq!(desk.session, session(3, &[(1, 1)]));
    assert_eq!(desk.commit(2), Done(3));
    assert_eq!(desk.session, session(1, &[(1, 1)]));
}

/// No page of the file changes, and each is the decided one.
#[test]
fn a_readers_pages_stay() {
    let mut desk = four(2);
    assert_eq!(desk.open(1, 1), Done(1));
    assert_eq!(desk.write(1, 1, 0, 10), Done(2));
    assert_eq!(desk.commit(1), Done(3));
    assert_eq!(desk.open_read(2, 1), Done(0));
    let shown =
        |desk: &Desk| (desk.page(2, 1, 0) == page_of(10) && desk.page(2, 1, 1) == ZERO_PAGE, desk.read(2, 1, 0));
    assert_eq!(shown(&desk), (true, Read::Sector(8)));
    assert_eq!(desk.begin(1), Done(1));
    assert_eq!(desk.open_read(1, 1), Done(0));
    assert_eq!(refusal(&mut desk, |desk| desk.write(1, 1, 0, 11)), 16);
    assert_eq!(refusal(&mut desk, |desk| desk.open(1, 1)), 7);
    assert_eq!(shown(&desk), (true, Read::Sector(8)));
    assert_eq!(desk.commit(1), Done(2));
    assert_eq!(shown(&desk), (true, Read::Sector(8)));
    assert!(decided_pages(&desk.volume).eq([page_of(10), ZERO_PAGE, ZERO_PAGE, ZERO_PAGE]));
}

// ------------------------------------------------- from reading to writing

#[test]
fn the_only_reader_may_write() {
    let mut desk = four(2);
    assert_eq!(desk.open_read(1, 1), Done(0));
    assert_eq!(made(&mut desk, |desk| desk.open_within(1, 1, 1)), (Done(1), vec![5]));
    assert_eq!(desk.session, session(3, &[]));
    assert_eq!(desk.sector(5)[2], 1);
    assert_eq!(desk.write(1, 1, 0, 10), Done(2));
    assert_eq!(refusal(&mut desk, |desk| desk.open_read(2, 1)), 7);
    assert_eq!(desk.commit(1), Done(3));
    assert_eq!(desk.open_read(2, 1), Done(0));
    assert_eq!(desk.page(2, 1, 0), page_of(10));
}

#[test]
fn beside_another_reader_it_waits() {
    let mut desk = four(3);
    for client in [1, 2] {
        assert_eq!(desk.open_read(client, 1), Done(0));
    }
    assert_eq!(refusal(&mut desk, |desk| desk.open(1, 1)), 7);
    assert_eq!(refusal(&mut desk, |desk| desk.open(2, 1)), 7);
    assert_eq!(desk.session, session(7, &[(1, 1), (2, 1)]));
    assert_eq!(desk.commit(2), Done(2));
    assert_eq!(desk.open(1, 1), Done(1));
    assert_eq!(desk.session, session(5, &[]));
}

#[test]
fn only_the_one_hold_ends() {
    let mut desk = four(2);
    for (client, file) in [(1, 1), (1, 2), (1, 3), (2, 1), (2, 3)] {
        assert_eq!(desk.open_read(client, file), Done(0));
    }
    assert_eq!(made(&mut desk, |desk| desk.open(1, 2)), (Done(1), vec![9]));
    assert_eq!(desk.session, session(3, &[(1, 1), (1, 3), (2, 1), (2, 3)]));
    // Held for writing by now.
    assert_eq!(without_store(&mut desk, |desk| desk.open_within(1, 2, 0)), Done(0));
    assert_eq!(without_store(&mut desk, |desk| desk.open_read_within(1, 2, 0)), Done(0));
    assert_eq!(desk.session, session(3, &[(1, 1), (1, 3), (2, 1), (2, 3)]));
}

#[test]
fn cut_before_its_store_nothing_is_held() {
    let mut desk = four(2);
    assert_eq!(desk.open_read(1, 1), Done(0));
    assert_eq!(desk.open_read(2, 2), Done(0));
    assert_eq!(without_store(&mut desk, |desk| desk.open_within(1, 1, 0)), Cut(0));
    assert_eq!(desk.session, Session::new());
    assert_eq!(desk.sector(5)[2], 0);
    assert_eq!(desk.begin(1), Done(2));
    assert_eq!(desk.read(1, 1, 0), Read::Refused(8));
}

// --------------------------------------------------------------- refusal 16

#[test]
fn a_reader_may_not_write() {
    let mut desk = four(2);
    assert_eq!(desk.open_read(1, 1), Done(0));
    assert_eq!(desk.open_read(2, 1), Done(0));
    assert_eq!(refusal(&mut desk, |desk| desk.write(1, 1, 0, 0)), 16);
    // Not held at all, and held for writing.
    assert_eq!(refusal(&mut desk, |desk| desk.write(1, 2, 0, 0)), 8);
    assert_eq!(desk.open(1, 2), Done(1));
    assert_eq!(desk.write(1, 2, 0, 20), Done(2));
    assert_eq!(refusal(&mut desk, |desk| desk.write(1, 1, 0, 0)), 16);
}

#[test]
fn no_16_goes_before_9_to_12() {
    // No real is to spare in file 1; file 2 takes 62 pages.
    let mut desk = Desk::new(247, 1, &[3, 3, 70, 240]);
    assert_eq!(desk.begin(1), Done(1));
    assert_eq!(desk.open_read(1, 1), Done(0));
    assert_eq!(refusal(&mut desk, |desk| desk.write(1, 1, 3, 0)), 16);
    assert_eq!(refusal(&mut desk, |desk| desk.write_data(1, 1, 0, &[])), 16);
    assert_eq!(refusal(&mut desk, |desk| desk.write_data(1, 1, 3, &[])), 16);
    assert_eq!(refusal(&mut desk, |desk| desk.write(1, 1, 0, 0)), 16);
    assert_eq!(desk.open(1, 2), Done(1));
    for page in 0..62 {
        assert_eq!(desk.write(1, 2, page, 0), Done(2));
    }
    assert_eq!(refusal(&mut desk, |desk| desk.write(1, 2, 62, 0)), 12);
    assert_eq!(refusal(&mut desk, |desk| desk.write(1, 1, 0, 0)), 16);
    assert_eq!(desk.open(1, 1), Done(1));
    assert_eq!(refusal(&mut desk, |desk| desk.write(1, 1, 3, 0)), 9);
    assert_eq!(refusal(&mut desk, |desk| desk.write(1, 1, 0, 0)), 11);
}

// ------------------------------------------------------- the end of the holds

/// Client 1 reads files 1 and 2, client 2 file 1.
fn two_readers() -> Desk {
    let mut desk = four(2);
    for (client, file) in [(1, 1), (1, 2), (2, 1)] {
        assert_eq!(desk.open_read(client, file), Done(0));
    }
    desk
}

#[test]
fn commit_ends_all_holds_of_the_client() {
    let mut desk = two_readers();
    // Decided and idle again: the record of begin is stored twice.
    assert_eq!(made(&mut desk, |desk| desk.commit_within(1, 2)), (Done(2), vec![1]));
    assert_eq!(desk.sector(1), sector_of(&[0x4B, 0x49]));
    assert_eq!(desk.session, session(2, &[(2, 1)]));
    assert_eq!(desk.begin(1), Done(1));
    assert_eq!(desk.session, session(3, &[(2, 1)]));
    assert_eq!([1, 2].map(|file| desk.read(1, file, 0)), [Read::Refused(8); 2]);
}

#[test]
fn abort_ends_all_holds_of_the_client() {
    let mut desk = two_readers();
    assert_eq!(made(&mut desk, |desk| desk.abort_within(1, 1)), (Done(1), vec![1]));
    assert_eq!(desk.sector(1), sector_of(&[0x4B, 0x49]));
    assert_eq!(desk.session, session(2, &[(2, 1)]));
    assert_eq!(desk.begin(1), Done(1));
    assert_eq!(desk.session, session(3, &[(2, 1)]));
}

#[test]
fn files_that_are_read_add_no_store() {
    let mut desk = two_readers();
    assert_eq!(desk.open(1, 3), Done(1));
    assert_eq!(desk.write(1, 3, 0, 30), Done(2));
    assert_eq!(desk.session, session(3, &[(1, 1), (1, 2), (2, 1)]));
    let mut other = desk.clone();
    assert_eq!(made(&mut desk, |desk| desk.commit(1)), (Done(3), vec![1, 13]));
    assert_eq!(desk.session, session(2, &[(2, 1)]));
    assert_eq!(made(&mut other, |desk| desk.abort(1)), (Done(2), vec![1, 13]));
    assert_eq!(other.session, session(2, &[(2, 1)]));
}

/// Every call that is cut hands back a new session, whoever holds what.
#[test]
fn a_cut_ends_all_holds() {
    let mut desk = two_readers();
    assert_eq!(desk.open(2, 3), Done(1));
    let data = page_of(9);
    let cut = [
        Call::Begin { client: 3, budget: 0 },
        Call::Open { client: 1, file: 2, budget: 0 },
        Call::Write { client: 2, file: 3, page: 0, data, budget: 0 },
        Call::Write { client: 2, file: 3, page: 0, data, budget: 1 },
        Call::Commit { client: 1, budget: 0 },
        Call::Commit { client: 1, budget: 1 },
        Call::Commit { client: 2, budget: 2 },
        Call::Abort { client: 1, budget: 0 },
        Call::Abort { client: 2, budget: 1 },
    ];
    for call in cut {
        let mut volume = desk.volume.clone();
        let expected = (Session::new(), Answer::Cut(call.budget().unwrap()));
        assert_eq!(make(&mut volume, desk.session, call), expected, "{call}");
    }
}

/// Every call that is done leaves the others' holds.
#[test]
fn other_clients_holds_stay() {
    let mut desk = two_readers();
    let all = [(1, 1), (1, 2), (2, 1)];
    assert_eq!(desk.begin(3), Done(1));
    assert_eq!(desk.session, session(7, &all));
    assert_eq!(desk.open(3, 3), Done(1));
    assert_eq!(desk.write(3, 3, 0, 30), Done(2));
    assert_eq!(desk.write(3, 3, 0, 31), Done(1));
    assert_eq!(desk.open_read(3, 3), Done(0));
    assert_eq!(desk.session, session(7, &all));
    assert_eq!(desk.open_read(3, 1), Done(0));
    assert_eq!(desk.commit(3), Done(3));
    assert_eq!(desk.session, session(3, &all));
    assert_eq!(desk.abort(2), Done(1));
    assert_eq!(desk.session, session(1, &[(1, 1), (1, 2)]));
}

// ------------------------------------------------- after an interruption

/// Client 1 has written page 0 of files 1 and 2 and was interrupted: before
/// its commit, or by a cut in it. Clients 2 and 3 have begun, and client 3
/// reads file 3.
fn interrupted(cut_commit: Option<u8>) -> Desk {
    let mut desk = four(1);
    for file in [1, 2] {
        assert_eq!(desk.open(1, file), Done(1));
        assert_eq!(desk.write(1, file, 0, 10 * file), Done(2));
    }
    match cut_commit {
        Some(budget) => assert_eq!(desk.commit_within(1, budget), Cut(budget)),
        None => desk.session = Session::new(),
    }
    for client in [2, 3] {
        assert_eq!(desk.begin(client), Done(1));
    }
    assert_eq!(desk.open_read(3, 3), Done(0));
    desk
}

/// The two headers and the record are stored, and no holder.
#[test]
fn an_open_transaction_is_dropped() {
    for cut_commit in [None, Some(0)] {
        let mut desk = interrupted(cut_commit);
        assert_eq!(made(&mut desk, |desk| desk.open_read_within(2, 2, 3)), (Done(3), vec![1, 5, 9]));
        assert_eq!(desk.session, session(6, &[(2, 2), (3, 3)]));
        assert_eq!(desk.sector(1), sector_of(&[0x4B, 0x49]));
        assert_eq!(desk.sector(5), sector_of(&[0x4B, 0x46, 0, 1, 0, 0, 0, 0, 0, 1]));
        assert_eq!(desk.sector(9), sector_of(&[0x4B, 0x46, 0, 2]));
        assert_eq!(desk.page(2, 2, 0), ZERO_PAGE);
        assert_eq!(without_store(&mut desk, |desk| desk.open_read_within(2, 1, 0)), Done(0));
        assert_eq!(desk.page(2, 1, 0), ZERO_PAGE);
    }
}

#[test]
fn a_decided_transaction_is_carried_out() {
    let mut desk = interrupted(Some(1));
    assert_eq!(made(&mut desk, |desk| desk.open_read_within(2, 2, 3)), (Done(3), vec![1, 5, 9]));
    assert_eq!(desk.session, session(6, &[(2, 2), (3, 3)]));
    assert_eq!(desk.sector(1), sector_of(&[0x4B, 0x49]));
    assert_eq!(desk.sector(5), sector_of(&[0x4B, 0x46, 0, 1, 0, 0, 0, 0, 2, 1]));
    assert_eq!(desk.sector(9), sector_of(&[0x4B, 0x46, 0, 2, 0, 0, 0, 0, 1]));
    assert_eq!(desk.page(2, 2, 0), page_of(20));
    assert_eq!(desk.read(2, 2, 0), Read::Sector(11));
    assert_eq!(without_store(&mut desk, |desk| desk.open_read(3, 1)), Done(0));
    assert_eq!(desk.page(3, 1, 0), page_of(10));
    assert_eq!(desk.session, session(6, &[(2, 2), (3, 1), (3, 3)]));
}

/// Cut after each store of the recovery, file 1 and then file 2.
#[test]
fn the_recovery_may_be_cut() {
    let mut desk = interrupted(Some(1));
    let new = [page_of(10), ZERO_PAGE, page_of(20), ZERO_PAGE];
    for (budget, changed) in [(0, vec![]), (1, vec![5]), (2, vec![5, 9])] {
        let mut desk = desk.clone();
        assert_eq!(made(&mut desk, |desk| desk.open_read_within(2, 2, budget)), (Cut(budget), changed));
        assert_eq!(desk.session, Session::new());
        assert!(decided_pages(&desk.volume).eq(new));
        // The record of client 2 is open from before the cut.
        assert_eq!(desk.begin(2), Done(2));
        let rest = if budget == 2 { 0 } else { 3 - budget };
        assert_eq!(desk.open_read_within(2, 2, rest), Done(rest));
        assert_eq!(desk.page(2, 2, 0), page_of(20));
        assert_eq!(desk.session, session(2, &[(2, 2)]));
    }
    assert_eq!(desk.open_read(2, 2), Done(3));
    assert!(decided_pages(&desk.volume).eq(new));
}

/// Its record is still decided, but no header names the client any more.
#[test]
fn a_holder_that_is_no_longer_named_is_left() {
    let mut desk = interrupted(Some(3));
    assert_eq!(without_store(&mut desk, |desk| desk.open_read_within(2, 1, 0)), Done(0));
    assert_eq!(desk.session, session(6, &[(2, 1), (3, 3)]));
    assert_eq!(desk.page(2, 1, 0), page_of(10));
    assert_eq!(desk.sector(1)[2..4], [2, 2]);
}

/// A client that has begun again is no longer interrupted; begin itself has
/// freed its files.
#[test]
fn begun_again_it_holds_nothing() {
    let mut desk = interrupted(Some(1));
    assert_eq!(desk.begin(1), Done(4));
    assert_eq!(desk.session, session(7, &[(3, 3)]));
    assert_eq!(without_store(&mut desk, |desk| desk.open_read_within(2, 1, 0)), Done(0));
    assert_eq!(without_store(&mut desk, |desk| desk.open_read_within(1, 1, 0)), Done(0));
    assert_eq!(desk.session, session(7, &[(1, 1), (2, 1), (3, 3)]));
}

#[test]
fn opening_for_writing_recovers_too_and_keeps_the_holds() {
    let mut desk = interrupted(Some(1));
    assert_eq!(desk.open_read(2, 3), Done(0));
    assert_eq!(made(&mut desk, |desk| desk.open(2, 1)), (Done(4), vec![1, 5, 9]));
    assert_eq!(desk.session, session(6, &[(2, 3), (3, 3)]));
    assert_eq!(desk.sector(5), sector_of(&[0x4B, 0x46, 2, 1, 0, 0, 0, 0, 2, 1]));
    assert_eq!(refusal(&mut desk, |desk| desk.open_read(3, 1)), 7);
}

// ------------------------------------------------------------------ the book

/// The pages on client 1's slip are gone after a call whose session marks
/// nobody, whatever it holds, and stay if it marks somebody.
#[test]
fn a_session_of_holds_alone_empties_the_slips() {
    let open_read = Call::OpenRead { client: 2, file: 2, budget: 255 };
    let given = [(session(0, &[]), true), (session(0, &[(1, 1), (4, 16)]), true), (session(8, &[]), false)];
    for (given, empties) in given {
        for answer in [Answer::Refused(2), Answer::Done(0)] {
            let mut book = Book::new(&SHAPE);
            let write = Call::Write { client: 1, file: 1, page: 0, data: page_of(10), budget: 255 };
            book.feed(session(1, &[]), &write, Answer::Done(2));
            assert!(book.has_on_slip(1, 1) && !book.has_on_slip(1, 2) && !book.has_on_slip(2, 1));
            book.feed(given, &open_read, answer);
            assert_eq!(book.has_on_slip(1, 1), !empties);
            assert_eq!(book.shows(1, 1, 0), Some(if empties { ZERO_PAGE } else { page_of(10) }));
        }
    }
}

#[test]
fn opening_for_reading_is_nothing_to_the_book() {
    let mut book = Book::new(&SHAPE);
    for (client, file) in [(1, 1), (2, 3)] {
        let write = Call::Write { client, file, page: 0, data: page_of(client), budget: 255 };
        book.feed(session(3, &[]), &write, Answer::Done(2));
    }
    let shown = |book: &Book| [1, 2].map(|client| [1, 3].map(|file| book.shows(client, file, 0).unwrap()[0]));
    for answer in [Answer::Done(0), Answer::Done(3), Answer::Refused(7)] {
        book.feed(session(3, &[]), &Call::OpenRead { client: 2, file: 2, budget: 255 }, answer);
        assert_eq!(shown(&book), [[1, 0], [0, 2]]);
    }
    // A cut empties the slips, as after any call.
    book.feed(session(3, &[]), &Call::OpenRead { client: 2, file: 2, budget: 0 }, Answer::Cut(0));
    assert_eq!(shown(&book), [[0, 0], [0, 0]]);
    assert!(book.pages().all(|page| page == ZERO_PAGE));
}
