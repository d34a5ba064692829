//! Looks at the decided pages: sectors, parts and refusals, whoever has the
//! file.

mod common;

use common::*;
use model::book::Book;
use model::call::{Answer, Call};
use model::content::decided_pages;
use model::reply::{RawSession, Reply};
use model::volume::{self, Read, Session, SECTOR_SIZE};

/// V after the calls of E2 and a commit with this budget.
fn committed(budget: u8) -> Desk {
    let mut desk = e2();
    assert_eq!(desk.commit_within(1, budget), if budget < 4 { Cut(budget) } else { Done(4) });
    desk
}

/// The looks at file 1 page 0, file 1 page 1 and file 2 page 0.
fn seen(desk: &Desk) -> [Read; 3] {
    [(1, 0), (1, 1), (2, 0)].map(|(file, page)| desk.look(file, page))
}

/// The pages that these looks hand back; each is the sector itself.
fn pages(desk: &Desk) -> [&[u8]; 3] {
    [(1, 0), (1, 1), (2, 0)].map(|(file, page)| {
        let part = desk.look_page(file, page);
        match desk.look(file, page) {
            Read::Sector(sector) => assert_eq!(part.as_ptr_range(), desk.sector(sector.into()).as_ptr_range()),
            Read::Refused(_) => assert!(part.is_empty()),
        }
        part
    })
}

fn sectors(numbers: [u16; 3]) -> [Read; 3] {
    numbers.map(Read::Sector)
}

const OLD: [&[u8]; 3] = [ZERO_PAGE; 3];

fn new() -> [&'static [u8]; 3] {
    [page_of(FIRST), ZERO_PAGE, page_of(SECOND)]
}

// -------------------------------------------------------------- the examples

#[test]
fn as_laid_out() {
    let desk = Desk::v();
    assert_eq!(seen(&desk), sectors([4, 5, 8]));
    assert_eq!(pages(&desk), OLD);
}

/// E2 to E9: old up to the store that decides, new from it on.
#[test]
fn a_commit_cut_at_every_store() {
    let found = [[4, 5, 8], [6, 5, 9], [6, 5, 9], [6, 5, 9], [6, 5, 9]];
    for (budget, found) in (0..).zip(found) {
        let desk = committed(budget);
        assert_eq!(seen(&desk), sectors(found), "budget {budget}");
        assert_eq!(pages(&desk), if budget == 0 { OLD } else { new() }, "budget {budget}");
    }
}

#[test]
fn after_each_step_of_the_recovery() {
    for (cut_commit, found) in [(0, [4, 5, 8]), (1, [6, 5, 9]), (2, [6, 5, 9])] {
        for budget in 0..=5 {
            let mut desk = committed(cut_commit);
            assert_eq!(desk.begin(2), Done(1));
            let stores = if cut_commit == 2 { 3 } else { 4 };
            let outcome = if budget < stores { Cut(budget) } else { Done(stores) };
            assert_eq!(desk.open_within(2, 2, budget), outcome);
            assert_eq!(seen(&desk), sectors(found), "commit {cut_commit}, open {budget}");
        }
    }
}

#[test]
fn an_abort_cut_at_every_store() {
    for budget in 0..=3 {
        let mut desk = e2();
        assert_eq!(desk.abort_within(1, budget), if budget < 3 { Cut(budget) } else { Done(3) });
        assert_eq!(seen(&desk), sectors([4, 5, 8]));
        assert_eq!(pages(&desk), OLD);
    }
}

/// Through every call of a second transaction, until its deciding store.
#[test]
fn a_running_transaction_is_not_seen() {
    let mut desk = committed(4);
    let as_before = |desk: &Desk| seen(desk) == sectors([6, 5, 9]) && pages(desk) == new();
    assert!(as_before(&desk));
    assert_eq!(desk.begin(2), Done(1));
    assert!(as_before(&desk));
    assert_eq!(desk.open(2, 1), Done(1));
    assert!(as_before(&desk));
    // Above real 2 and round to real 0, sector 4.
    assert_eq!(desk.write(2, 1, 0, 30), Done(2));
    assert_eq!(desk.read(2, 1, 0), Read::Sector(4));
    assert!(as_before(&desk));
    assert_eq!(desk.write(2, 1, 0, 31), Done(1));
    assert!(as_before(&desk));
    // After a crash too.
    desk.session = Session::new();
    assert!(as_before(&desk));
    desk.session = session(2, &[]);
    assert_eq!(desk.commit_within(2, 1), Cut(1));
    assert_eq!(seen(&desk), sectors([4, 5, 9]));
    assert_eq!(pages(&desk), [page_of(31), ZERO_PAGE, page_of(SECOND)]);
}

/// File 1 is free again and its map new, but record 1 still has the entry
/// for it. Then client 2 writes the page anew.
#[test]
fn a_record_counts_for_the_files_that_name_its_client() {
    let mut desk = committed(2);
    assert_eq!(desk.sector(1)[2..4], [2, 2]);
    assert_eq!(desk.begin(2), Done(1));
    assert_eq!(desk.open(2, 1), Done(1));
    assert_eq!(desk.write(2, 1, 0, 50), Done(2));
    assert_eq!(seen(&desk), sectors([6, 5, 9]));
    assert_eq!(desk.commit(2), Done(3));
    assert_eq!(seen(&desk), sectors([4, 5, 9]));
    assert_eq!(pages(&desk), [page_of(50), ZERO_PAGE, page_of(SECOND)]);
}

/// Made up: both records decided, with entries for both files. Client 2 has
/// file 1, client 1 file 2.
#[test]
fn each_file_goes_by_its_own_holder() {
    let mut desk = Desk::v();
    desk.volume[SECTOR_SIZE + 2..][..14].copy_from_slice(&[2, 2, 0, 0, 0, 0, 1, 0, 2, 0, 2, 0, 1, 0]);
    desk.volume[2 * SECTOR_SIZE + 2..][..14].copy_from_slice(&[2, 2, 0, 0, 0, 0, 2, 0, 2, 0, 1, 1, 2, 0]);
    desk.volume[3 * SECTOR_SIZE + 2] = 2;
    desk.volume[7 * SECTOR_SIZE + 2] = 1;
    assert!(is_sound(&desk.volume));
    assert_eq!(seen(&desk), sectors([4, 6, 9]));
    // Record 2 open, record 1 open, and then no holder.
    desk.volume[2 * SECTOR_SIZE + 2] = 1;
    assert_eq!(seen(&desk), sectors([4, 5, 9]));
    desk.volume[SECTOR_SIZE + 2] = 1;
    assert_eq!(seen(&desk), sectors([4, 5, 8]));
    desk.volume[SECTOR_SIZE + 2] = 2;
    desk.volume[7 * SECTOR_SIZE + 2] = 0;
    assert_eq!(seen(&desk), sectors([4, 5, 8]));
}

/// N is 258, 02 01, and file 1's header 2, 02 00: read as a record, sector 0
/// would be decided and have an entry for file 2 page 0.
#[test]
fn sector_0_is_no_record() {
    let desk = Desk::new(258, 1, &[2, 3, 3, 4]);
    assert_eq!(desk.sector(0)[..12], [0x4B, 0x56, 2, 1, 1, 2, 0, 0, 2, 0, 2, 3]);
    assert_eq!([0, 1, 2].map(|page| desk.look(2, page)), [7, 8, 9].map(Read::Sector));
    assert_eq!([0, 1].map(|page| desk.look(1, page)), [3, 4].map(Read::Sector));
}

/// One page of each of several files in one decided record.
#[test]
fn the_entry_of_the_file_counts() {
    let mut desk = Desk::new(20, 1, &[2, 4, 2, 4, 2, 4]);
    assert_eq!(desk.begin(1), Done(1));
    for file in 1..=3 {
        assert_eq!(desk.open(1, file), Done(1));
    }
    // Headers in 2, 7 and 12; reals 2 and 3 are free.
    for (file, page) in [(3, 1), (2, 0), (1, 1), (2, 1)] {
        assert_eq!(desk.write(1, file, page, 10 * file + page), Done(2));
    }
    assert_eq!(desk.commit_within(1, 1), Cut(1));
    let found = [1, 2, 3].map(|file| [0, 1].map(|page| desk.look(file, page)));
    assert_eq!(found, [[3, 5], [10, 11], [13, 15]].map(|sectors| sectors.map(Read::Sector)));
    let seeds = [1, 2, 3].map(|file| [0, 1].map(|page| desk.look_page(file, page)[0]));
    assert_eq!(seeds, [[0, 11], [20, 21], [0, 31]]);
}

// -------------------------------------------------------------- the refusals

#[test]
fn no_1_volume_not_sound() {
    let mut desk = Desk::v();
    desk.volume[0] = 0;
    for (file, page) in [(1, 0), (1, 2), (3, 0), (0, 255), (255, 255)] {
        assert_eq!(desk.look(file, page), Read::Refused(1));
        assert!(desk.look_page(file, page).is_empty());
    }
    // Behind the last sector that a look needs, in records and headers.
    for address in [SECTOR_SIZE + 255, 3 * SECTOR_SIZE, 7 * SECTOR_SIZE + 255] {
        let mut desk = Desk::v();
        desk.volume[address] ^= 1;
        assert_eq!(seen(&desk), [Read::Refused(1); 3]);
    }
    for length in [0, 1, 255, 256, V_LENGTH - 1, V_LENGTH - 256] {
        let mut volume = Desk::v().volume;
        volume.truncate(length);
        let reply = make(&mut volume, Session::new(), Call::Look { file: 1, page: 0 });
        assert_eq!(reply.1, Answer::Refused(1), "{length} bytes");
        assert!(volume::look_page(&volume, 1, 0).is_empty());
    }
}

#[test]
fn no_6_file_out_of_range() {
    for desk in [Desk::v(), committed(1)] {
        for file in [0, 3, 16, 17, 255] {
            assert_eq!(desk.look(file, 0), Read::Refused(6));
            assert!(desk.look_page(file, 0).is_empty());
        }
    }
}

#[test]
fn no_9_page_out_of_range() {
    for desk in [Desk::v(), e2(), committed(1)] {
        for (file, page) in [(1, 2), (1, 3), (1, 120), (1, 255), (2, 1), (2, 255)] {
            assert_eq!(desk.look(file, page), Read::Refused(9));
            assert!(desk.look_page(file, page).is_empty());
        }
    }
}

/// 6 goes before 9, and 1 before both.
#[test]
fn the_lowest_number_is_given() {
    let mut desk = Desk::v();
    for (file, page) in [(0, 1), (0, 255), (3, 1), (3, 2), (255, 255)] {
        assert_eq!(desk.look(file, page), Read::Refused(6));
    }
    desk.volume[SECTOR_SIZE + 3] = 1;
    for (file, page) in [(3, 0), (1, 2), (3, 2)] {
        assert_eq!(desk.look(file, page), Read::Refused(1));
    }
}

/// Four clients, sixteen files: the first and the last file, pages 0 and 119.
#[test]
fn the_largest_numbers() {
    let mut shape = [1; 32];
    shape[30..].copy_from_slice(&[120, 240]);
    // Headers in 5, 7 .. 35; the last file's reals are 36 to 275.
    let mut desk = Desk::new(276, 4, &shape);
    assert_eq!([1, 2, 15].map(|file| desk.look(file, 0)), [6, 8, 34].map(Read::Sector));
    assert_eq!([0, 119].map(|page| desk.look(16, page)), [36, 155].map(Read::Sector));
    assert_eq!([120, 255].map(|page| desk.look(16, page)), [Read::Refused(9); 2]);
    assert_eq!([(17, 0), (255, 119)].map(|(file, page)| desk.look(file, page)), [Read::Refused(6); 2]);
    assert_eq!(desk.begin(4), Done(1));
    assert_eq!(desk.open(4, 16), Done(1));
    for page in (58..120).rev() {
        assert_eq!(desk.write(4, 16, page, page), Done(2));
    }
    assert_eq!(desk.look(16, 119), Read::Sector(155));
    assert_eq!(desk.commit_within(4, 1), Cut(1));
    // The first and the last of the 62 entries: reals 120 and 181.
    assert_eq!([119, 58, 57].map(|page| desk.look(16, page)), [156, 217, 93].map(Read::Sector));
    assert_eq!([119, 58, 57].map(|page| desk.look_page(16, page)[0]), [119, 58, 0]);
}

// ------------------------------------------------------------- the sessions

/// No mark and no hold matters, whether the session fits or not.
#[test]
fn no_session_matters() {
    let holds = [[0; 4], [1, 0, 0, 0], [0, 3, 0, 0], [0xFFFF; 4]];
    for (desk, found) in [(e2(), [4, 5, 8]), (committed(1), [6, 5, 9])] {
        let mut volume = desk.volume.clone();
        for active in 0..=255 {
            for reading in holds {
                let given = RawSession { active, reading };
                let looks = [(1, 0), (1, 1), (2, 0)].map(|(file, page)| Call::Look { file, page });
                let replies = looks.map(|look| make_raw(&mut volume, given, look));
                assert_eq!(
                    replies,
                    found.map(|sector| Reply { session: given, answer: Answer::Sector(sector).into() })
                );
                let refused = make_raw(&mut volume, given, Call::Look { file: 3, page: 0 });
                assert_eq!(refused, Reply { session: given, answer: Answer::Refused(6).into() });
            }
        }
        assert!(volume == desk.volume, "a look changed something");
    }
}

/// Readers and a writer go on as if nobody had looked.
#[test]
fn a_look_blocks_nobody() {
    let mut desk = e2();
    assert_eq!(desk.begin(2), Done(1));
    assert_eq!(desk.open_read(2, 1), Refused(7));
    assert_eq!(seen(&desk), sectors([4, 5, 8]));
    assert_eq!(desk.write(1, 1, 0, 11), Done(1));
    assert_eq!(seen(&desk), sectors([4, 5, 8]));
    assert_eq!(desk.commit(1), Done(4));
    assert_eq!(desk.open_read(2, 1), Done(0));
    assert_eq!(seen(&desk), sectors([6, 5, 9]));
    assert_eq!(desk.open(2, 1), Done(1));
    assert_eq!(pages(&desk), [page_of(11), ZERO_PAGE, page_of(SECOND)]);
}

// ------------------------------------------------------------ as if opened

/// What client 2 reads after opening a file is what the look before found.
#[test]
fn opening_finds_the_same() {
    for budget in 0..=4 {
        let mut before = committed(budget);
        assert_eq!(before.begin(2), Done(1));
        for (file, pages) in [(1, 2), (2, 1)] {
            for call in [Call::Open { client: 2, file, budget: 255 }, Call::OpenRead { client: 2, file, budget: 255 }] {
                let mut desk = before.clone();
                assert!(matches!(desk.call(call), Done(_)), "{call}");
                for page in 0..pages {
                    assert_eq!(desk.read(2, file, page), before.look(file, page), "{call}");
                    assert_eq!(desk.page(2, file, page), before.look_page(file, page));
                    assert_eq!(desk.look(file, page), before.look(file, page));
                }
            }
        }
    }
}

/// A client that holds the file reads its own page; a look finds the old one.
#[test]
fn the_writer_itself_reads_another_page() {
    let desk = e2();
    assert_eq!((desk.read(1, 1, 0), desk.look(1, 0)), (Read::Sector(6), Read::Sector(4)));
    assert_eq!((desk.read(1, 1, 1), desk.look(1, 1)), (Read::Sector(5), Read::Sector(5)));
    assert_eq!((desk.page(1, 2, 0), desk.look_page(2, 0)), (page_of(SECOND), ZERO_PAGE));
}

// ------------------------------------------------------------------ the book

#[test]
fn all_looks_are_the_decided_content() {
    for desk in (0..=4).map(committed).chain([Desk::v(), e2()]) {
        assert!(decided_pages(&desk.volume).eq(pages(&desk)));
    }
}

/// It shows the book's page, whoever has what on a slip, and empties none.
#[test]
fn a_look_is_nothing_to_the_book() {
    let mut book = Book::new(&V_SHAPE);
    let write = Call::Write { client: 1, file: 1, page: 1, data: page_of(9), budget: 255 };
    book.feed(session(1, &[]), &write, Answer::Done(2));
    for (given, answer) in [(session(0, &[]), Answer::Sector(5)), (session(2, &[]), Answer::Refused(1))] {
        book.feed(given, &Call::Look { file: 1, page: 1 }, answer);
        assert_eq!(book.shows_anyone(1, 1), Some(ZERO_PAGE));
        assert_eq!([1, 2].map(|client| book.shows(client, 1, 1)), [Some(page_of(9)), Some(ZERO_PAGE)]);
    }
    assert_eq!([(0, 0), (1, 2), (3, 0), (255, 255)].map(|(file, page)| book.shows_anyone(file, page)), [None; 4]);
    book.feed(session(1, &[]), &Call::Commit { client: 1, budget: 1 }, Answer::Cut(1));
    assert_eq!(book.shows_anyone(1, 1), Some(page_of(9)));
}
