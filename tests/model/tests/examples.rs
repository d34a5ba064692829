//! The examples E1 to E11: counts, sectors and contents.

mod common;

use common::*;
use model::book::Book;
use model::content::decided_pages;
use model::volume::Read;

/// V after the calls of E2 and a commit cut after `budget` stores.
fn cut_commit(budget: u8) -> Desk {
    let mut desk = e2();
    assert_eq!(desk.commit_within(1, budget), Cut(budget));
    assert_eq!(desk.marks(), 0);
    desk
}

/// The decided pages: file 1 pages 0 and 1, file 2 page 0.
fn decided(desk: &Desk) -> Vec<&[u8]> {
    decided_pages(&desk.volume).collect()
}

fn old() -> Vec<&'static [u8]> {
    vec![ZERO_PAGE; 3]
}

fn new() -> Vec<&'static [u8]> {
    vec![page_of(FIRST), ZERO_PAGE, page_of(SECOND)]
}

#[test]
fn e1_layout() {
    let desk = Desk::v();
    let table = [0x4B, 0x56, 0x0B, 0, 2, 2, 0, 0, 3, 0, 2, 3, 7, 0, 1, 3];
    assert_eq!(desk.sector(0), sector_of(&table));
    assert_eq!(desk.sector(1), sector_of(&[0x4B, 0x49]));
    assert_eq!(desk.sector(2), sector_of(&[0x4B, 0x49]));
    assert_eq!(desk.sector(3), sector_of(&[0x4B, 0x46, 0, 1, 0, 0, 0, 0, 0, 1]));
    assert_eq!(desk.sector(7), sector_of(&[0x4B, 0x46, 0, 2]));
    for slot in [4, 5, 6, 8, 9, 10] {
        assert_eq!(desk.sector(slot), ZERO_PAGE);
    }
    assert_eq!(decided(&desk), old());
}

#[test]
fn e2_writes() {
    let desk = e2();
    let record = [0x4B, 0x49, 1, 2, 0, 0, 0, 0, 1, 0, 2, 0, 2, 0, 1, 0];
    assert_eq!(desk.sector(1), sector_of(&record));
    assert_eq!(desk.sector(3), sector_of(&[0x4B, 0x46, 1, 1, 0, 0, 0, 0, 0, 1]));
    assert_eq!(desk.sector(7), sector_of(&[0x4B, 0x46, 1, 2]));
    assert_eq!(desk.sector(6), page_of(FIRST));
    assert_eq!(desk.sector(9), page_of(SECOND));
    assert_eq!(desk.read(1, 1, 0), Read::Sector(6));
    assert_eq!(desk.read(1, 1, 1), Read::Sector(5));
    assert_eq!(desk.read(1, 2, 0), Read::Sector(9));
    assert_eq!(desk.page(1, 2, 0).as_ptr(), desk.sector(9).as_ptr());
    assert_eq!(desk.marks(), 1);
    assert_eq!(decided(&desk), old());
}

#[test]
fn e3_same_page_again() {
    let mut desk = e2();
    assert_eq!(desk.write(1, 1, 0, 30), Done(1));
    assert_eq!(desk.sector(1)[3], 2);
    assert_eq!(desk.sector(6), page_of(30));
    assert_eq!(desk.read(1, 1, 0), Read::Sector(6));
}

#[test]
fn e4_no_real_left() {
    let mut desk = e2();
    assert_eq!(desk.write(1, 1, 0, 30), Done(1));
    let before = desk.volume.clone();
    assert_eq!(desk.write(1, 1, 1, 40), Refused(11));
    assert_eq!(desk.volume, before);
    assert_eq!(desk.marks(), 1);
}

#[test]
fn e5_commit() {
    let mut desk = e2();
    assert_eq!(desk.commit_within(1, 4), Done(4));
    assert_eq!(desk.marks(), 0);
    assert_eq!(desk.sector(1), sector_of(&[0x4B, 0x49]));
    assert_eq!(desk.sector(3), sector_of(&[0x4B, 0x46, 0, 1, 0, 0, 0, 0, 2, 1]));
    assert_eq!(desk.sector(7), sector_of(&[0x4B, 0x46, 0, 2, 0, 0, 0, 0, 1]));
    assert_eq!(decided(&desk), new());
}

#[test]
fn e6_cut_before_the_deciding_store() {
    let mut desk = cut_commit(0);
    assert_eq!(decided(&desk), old());
    assert_eq!(desk.begin(2), Done(1));
    assert_eq!(desk.open(2, 1), Done(4));
    assert_eq!(desk.page(2, 1, 0), ZERO_PAGE);
    assert_eq!(desk.open(2, 2), Done(1));
    assert_eq!(desk.page(2, 2, 0), ZERO_PAGE);
    assert_eq!(desk.sector(3), sector_of(&[0x4B, 0x46, 2, 1, 0, 0, 0, 0, 0, 1]));
    assert_eq!(decided(&desk), old());
}

#[test]
fn e7_cut_after_the_deciding_store() {
    let mut desk = cut_commit(1);
    let text = "kiln 1 decided 2\nkiln 2 idle 0\nfile 1 kiln 1 pages 2 sectors 3\nfile 2 kiln 1 pages 1 sectors 3\n";
    assert_eq!(listing(&desk.volume), text);
    assert_eq!(decided(&desk), new());
    assert_eq!(desk.begin(2), Done(1));
    assert_eq!(desk.open(2, 2), Done(4));
    assert_eq!(desk.page(2, 2, 0), page_of(SECOND));
    assert_eq!(desk.sector(3), sector_of(&[0x4B, 0x46, 0, 1, 0, 0, 0, 0, 2, 1]));
    assert_eq!(desk.sector(7), sector_of(&[0x4B, 0x46, 2, 2, 0, 0, 0, 0, 1]));
    assert_eq!(decided(&desk), new());
}

#[test]
fn e8_cut_between_the_headers() {
    let mut desk = cut_commit(2);
    assert_eq!(decided(&desk), new());
    assert_eq!(desk.begin(2), Done(1));
    assert_eq!(desk.open(2, 1), Done(1));
    assert_eq!(desk.page(2, 1, 0), page_of(FIRST));
    assert_eq!(desk.open(2, 2), Done(3));
    assert_eq!(desk.page(2, 2, 0), page_of(SECOND));
    assert_eq!(decided(&desk), new());
}

#[test]
fn e9_cut_before_the_record_is_idle() {
    let mut desk = cut_commit(3);
    assert_eq!(decided(&desk), new());
    assert_eq!(desk.begin(1), Done(2));
    assert_eq!(desk.sector(1), sector_of(&[0x4B, 0x49, 1]));
    assert_eq!(decided(&desk), new());
}

#[test]
fn e10_cut_in_the_recovery() {
    let mut desk = cut_commit(1);
    assert_eq!(desk.begin(2), Done(1));
    assert_eq!(desk.open_within(2, 2, 1), Cut(1));
    assert_eq!(desk.marks(), 0);
    assert_eq!(decided(&desk), new());
    assert_eq!(desk.begin(2), Done(2));
    assert_eq!(desk.open(2, 2), Done(3));
    assert_eq!(desk.page(2, 2, 0), page_of(SECOND));
    assert_eq!(decided(&desk), new());
}

#[test]
fn e11_full_record() {
    let mut desk = Desk::new(243, 1, &[70, 240]);
    assert_eq!(desk.begin(1), Done(1));
    assert_eq!(desk.open(1, 1), Done(1));
    for page in 0..62 {
        assert_eq!(desk.write(1, 1, page, page), Done(2));
        assert_eq!(desk.read(1, 1, page), Read::Sector(3 + 70 + u16::from(page)));
    }
    assert_eq!(desk.sector(1)[3], 62);
    let before = desk.volume.clone();
    assert_eq!(desk.write(1, 1, 62, 62), Refused(12));
    assert_eq!(desk.volume, before);
    assert_eq!(desk.write(1, 1, 61, 99), Done(1));
    assert_eq!(desk.commit(1), Done(3));
    let pages: Vec<&[u8]> = decided(&desk);
    assert_eq!(pages[60], page_of(60));
    assert_eq!(pages[61], page_of(99));
    assert_eq!(pages[62], ZERO_PAGE);
}

#[test]
fn abort_leaves_the_old() {
    let mut desk = e2();
    assert_eq!(desk.abort(1), Done(3));
    assert_eq!(desk.marks(), 0);
    assert_eq!(decided(&desk), old());
    assert!(decided(&desk).into_iter().eq(Book::new(&V_SHAPE).pages()));
}

/// A record may keep entries for a file that another client holds by now;
/// they are redone neither by the content nor by the recovery.
#[test]
fn entries_of_a_file_no_longer_named_are_passed_over() {
    let mut desk = cut_commit(2);
    assert_eq!(desk.begin(2), Done(1));
    assert_eq!(desk.open(2, 1), Done(1));
    assert_eq!(desk.write(2, 1, 0, 50), Done(2));
    assert_eq!(desk.commit(2), Done(3));
    let newest = vec![page_of(50), ZERO_PAGE, page_of(SECOND)];
    assert_eq!(decided(&desk), newest);
    assert_eq!(desk.begin(1), Done(3));
    assert_eq!(decided(&desk), newest);
}
