//! The question how many reals of a file are spare: counts, refusals and
//! their order, and what it looks at on a damaged volume.

mod common;

use common::*;
use model::book::Book;
use model::call::{Answer, Call};
use model::content::{mapped_reals, unmapped_reals};
use model::reply::{RawSession, Reply};
use model::volume::{Session, SECTOR_SIZE};

/// The answers for both files of V.
fn both_files(desk: &Desk) -> [Result<u8, u8>; 2] {
    [1, 2].map(|file| desk.spare(file))
}

/// File 1 of V leaves one real over, file 2 two.
const RIGHT: [Result<u8, u8>; 2] = [Ok(1), Ok(2)];

// ---------------------------------------------------------------- the counts

#[test]
fn as_laid_out() {
    let desk = Desk::v();
    assert_eq!(both_files(&desk), RIGHT);
    assert_eq!([3, 7].map(|header| desk.sector(header)[2..8].to_vec()), [[0, 1, 0, 0, 0, 0], [0, 2, 0, 0, 0, 0]]);
}

/// Every P with the fewest and the most reals and some between, and every R
/// of some P.
#[test]
fn shapes_of_a_file() {
    for pages in 1..=120 {
        for reals in (pages..=240).filter(|reals| pages % 40 == 1 || reals % 40 == 0 || reals - pages < 2) {
            let desk = Desk::new(3 + usize::from(reals), 1, &[pages, reals]);
            assert_eq!(desk.spare(1), Ok(reals - pages));
        }
    }
}

/// The first and the last of sixteen files, with records in between or not.
#[test]
fn many_files() {
    let shape: Vec<u8> = (1..=16).flat_map(|file| [file, 2 * file + file % 3]).collect();
    for clients in 1..=4 {
        let desk = Desk::new(320, clients, &shape);
        for file in 1..=16 {
            assert_eq!(desk.spare(file), Ok(file + file % 3));
        }
        assert_eq!([0, 17, 255].map(|file| desk.spare(file)), [Err(6); 3]);
    }
}

#[test]
fn the_count_is_that_of_the_whole_map() {
    let shape = [1, 1, 3, 7, 5, 9, 120, 240];
    let mut desk = Desk::new(300, 2, &shape);
    desk.begin(2);
    for file in 2..=4 {
        desk.open(2, file);
        for page in 0..2 {
            assert_eq!(desk.write(2, file, page, page), Done(2));
        }
    }
    assert_eq!(desk.commit(2), Done(5));
    for (file, pair) in (1..).zip(shape.chunks(2)) {
        let (mapped, unmapped) = (mapped_reals(&desk.volume, file).len(), unmapped_reals(&desk.volume, file).count());
        assert_eq!((mapped, mapped + unmapped), (pair[0].into(), pair[1].into()));
        assert_eq!(desk.spare(file), Ok(unmapped as u8));
    }
}

// ----------------------------------------------------------- through the calls

/// It goes by the map, so it doesn't fall while a transaction writes.
#[test]
fn a_running_transaction_is_not_counted() {
    let mut desk = e2();
    assert_eq!(both_files(&desk), RIGHT);
    assert_eq!(desk.write(1, 1, 1, 7), Refused(11));
    assert_eq!(both_files(&desk), RIGHT);
    assert_eq!(desk.write(1, 1, 0, 7), Done(1));
    assert_eq!(both_files(&desk), RIGHT);
}

#[test]
fn a_commit_and_an_abort_cut_at_every_store() {
    for budget in 0..=4 {
        let mut desk = e2();
        desk.commit_within(1, budget);
        assert_eq!(both_files(&desk), RIGHT, "commit {budget}");
        assert!(is_sound(&desk.volume));
        let mut desk = e2();
        desk.abort_within(1, budget);
        assert_eq!(both_files(&desk), RIGHT, "abort {budget}");
        assert!(is_sound(&desk.volume));
    }
}

#[test]
fn each_step_of_a_recovery() {
    for cut_commit in 0..=3 {
        for budget in 0..=5 {
            let mut desk = e2();
            assert_eq!(desk.commit_within(1, cut_commit), Cut(cut_commit));
            assert_eq!(both_files(&desk), RIGHT);
            desk.begin(2);
            desk.open_within(2, 2, budget);
            assert_eq!(both_files(&desk), RIGHT, "commit {cut_commit}, open {budget}");
            assert!(is_sound(&desk.volume));
        }
    }
}

/// Pages go round the reals and the count stays.
#[test]
fn transaction_after_transaction() {
    let mut desk = Desk::v();
    for round in 0..12 {
        desk.begin(1);
        desk.open(1, 1 + round % 2);
        assert_eq!(desk.write(1, 1 + round % 2, 0, round), Done(2));
        assert_eq!(both_files(&desk), RIGHT);
        assert_eq!(desk.commit(1), Done(3));
        assert_eq!(both_files(&desk), RIGHT);
    }
}

// --------------------------------------------------------------- the refusals

/// By each rule of sector 0, whatever the file.
#[test]
fn no_1_sector_0() {
    let wrong = [
        // The mark, and N that isn't the length.
        (0, 0),
        (1, 0x57),
        (2, 10),
        (2, 12),
        (3, 1),
        // T and F; fewer or more than the places and zeros go with.
        (4, 0),
        (4, 1),
        (4, 3),
        (4, 5),
        (5, 0),
        (5, 1),
        (5, 3),
        (5, 17),
        (6, 1),
        (7, 1),
        // Places, P and R.
        (8, 4),
        (9, 1),
        (10, 0),
        (10, 4),
        (10, 121),
        (11, 1),
        (11, 2),
        (11, 4),
        (11, 241),
        (12, 6),
        (13, 1),
        (14, 0),
        (15, 0),
        // All ends at N.
        (15, 4),
        // Behind the entries.
        (16, 1),
        (255, 1),
    ];
    for (offset, byte) in wrong {
        let desk = Desk::v().poked(0, offset, byte);
        for file in [0, 1, 2, 3, 16, 17, 255] {
            assert_eq!(desk.spare(file), Err(1), "byte {offset} is {byte}, file {file}");
        }
    }
}

/// Every other value of every byte of sector 0: the answer is refusal 1, or
/// sector 0 is as right as before.
#[test]
fn every_byte_of_sector_0() {
    let desk = Desk::v();
    for offset in 0..SECTOR_SIZE {
        for byte in 0..=255 {
            // P of each file may be 1 to 3, its R. So may R of the last file,
            // which then ends before N.
            let right = byte == desk.sector(0)[offset] || ([10, 14, 15].contains(&offset) && (1..=3).contains(&byte));
            let expected = if right { RIGHT } else { [Err(1); 2] };
            assert_eq!(both_files(&desk.poked(0, offset, byte)), expected, "byte {offset} is {byte}");
        }
    }
}

#[test]
fn no_1_length() {
    for length in [0, 1, 4, 8, 16, 255, 256, 1024, V_LENGTH - 256, V_LENGTH - 1, V_LENGTH + 1, V_LENGTH + 256] {
        let mut desk = Desk::v();
        desk.volume.resize(length, 0);
        for file in [0, 1, 2, 3, 255] {
            assert_eq!(desk.spare(file), Err(1), "{length} bytes, file {file}");
        }
    }
}

/// N says the length, but there are bytes over, or sectors too few or too
/// many. Sectors behind the files are free.
#[test]
fn lengths_that_sector_0_has() {
    for (sectors, over, expected) in [
        (10, 0, [Err(1); 2]),
        (11, 0, RIGHT),
        (11, 1, [Err(1); 2]),
        (11, 255, [Err(1); 2]),
        (12, 0, RIGHT),
        (256, 0, RIGHT),
        (1024, 0, RIGHT),
        (1024, 1, [Err(1); 2]),
        (1025, 0, [Err(1); 2]),
    ] {
        let mut desk = Desk::v();
        desk.volume.resize(SECTOR_SIZE * sectors + over, 0);
        desk.volume[2..4].copy_from_slice(&(sectors as u16).to_le_bytes());
        assert_eq!(both_files(&desk), expected, "{sectors} sectors and {over} bytes");
    }
}

#[test]
fn no_6_file_out_of_range() {
    for desk in [Desk::v(), e2()] {
        for file in [0, 3, 4, 15, 16, 17, 254, 255] {
            assert_eq!(desk.spare(file), Err(6));
        }
    }
}

/// Either byte of the mark, of that header alone.
#[test]
fn no_1_mark_of_the_header() {
    for offset in [0, 1] {
        for byte in 0..=255 {
            let right = byte == Desk::v().sector(3)[offset];
            let expected = if right { Ok(1) } else { Err(1) };
            assert_eq!(both_files(&Desk::v().poked(3, offset, byte)), [expected, Ok(2)], "{offset} {byte}");
            let expected = if right { Ok(2) } else { Err(1) };
            assert_eq!(both_files(&Desk::v().poked(7, offset, byte)), [Ok(1), expected], "{offset} {byte}");
        }
    }
    // The marks of the other control sectors are none.
    for mark in [[0x4B, 0x56], [0x4B, 0x49], [0x46, 0x4B]] {
        let desk = Desk::v().poked(3, 0, mark[0]).poked(3, 1, mark[1]);
        assert_eq!(both_files(&desk), [Err(1), Ok(2)]);
    }
}

/// 1 for sector 0 and the length, then 6, then 1 for the mark.
#[test]
fn the_order_of_the_refusals() {
    let no_marks = Desk::v().poked(3, 0, 0).poked(7, 1, 0);
    assert_eq!([0, 1, 2, 3, 255].map(|file| no_marks.spare(file)), [Err(6), Err(1), Err(1), Err(6), Err(6)]);
    let no_table = no_marks.poked(0, 7, 1);
    assert_eq!([0, 1, 2, 3, 255].map(|file| no_table.spare(file)), [Err(1); 5]);
    let mut longer = no_marks.clone();
    longer.volume.push(0);
    assert_eq!([0, 1, 2, 3, 255].map(|file| longer.spare(file)), [Err(1); 5]);
}

// ------------------------------------------------------------- on other damage

/// No other byte of the volume matters, and byte 3 is answered as it is.
#[test]
fn every_other_byte_of_the_volume() {
    let desk = e2();
    for address in SECTOR_SIZE..V_LENGTH {
        let (sector, offset) = (address / SECTOR_SIZE, address % SECTOR_SIZE);
        if [3, 7].contains(&sector) && offset < 2 {
            continue;
        }
        for byte in [0, 1, 0x4B, 0xFF, !desk.sector(sector)[offset]] {
            let expected = match (sector, offset) {
                (3, 3) => [Ok(byte), Ok(2)],
                (7, 3) => [Ok(1), Ok(byte)],
                _ => RIGHT,
            };
            assert_eq!(both_files(&desk.poked(sector, offset, byte)), expected, "sector {sector}, byte {offset}");
        }
    }
}

/// Everything behind sector 0 is wrong but the mark and byte 3 of one header.
#[test]
fn nothing_else_is_needed() {
    for (file, header) in [(1, 3), (2, 7)] {
        let mut desk = Desk::v();
        desk.volume[SECTOR_SIZE..].fill(0xFF);
        for count in 0..=255 {
            desk.volume[SECTOR_SIZE * header..][..4].copy_from_slice(&[0x4B, 0x46, 0xFF, count]);
            assert!(!is_sound(&desk.volume));
            assert_eq!(desk.spare(file), Ok(count));
            // The other header has no mark.
            assert_eq!(desk.spare(3 - file), Err(1));
            assert_eq!(desk.spare(3), Err(6));
        }
    }
}

/// Calls are refused on a wrong count, whatever the file.
#[test]
fn a_wrong_count_is_not_sound() {
    for (header, right) in [(3, 1), (7, 2)] {
        for count in (0..=255).filter(|&count| count != right) {
            let mut desk = e2().poked(header, 3, count);
            assert!(!is_sound(&desk.volume));
            assert_eq!(listing(&desk.volume), "not sound\n");
            assert_eq!(desk.commit(1), Refused(1));
            assert_eq!(make(&mut desk.volume, desk.session, Call::Look { file: 1, page: 0 }).1, Answer::Refused(1));
        }
    }
}

/// The count isn't mended by whoever stores the header: such a volume is
/// refused before. Bytes 4 to 7 stay 00.
#[test]
fn every_store_of_a_header_keeps_the_count() {
    let mut desk = Desk::v();
    let counts = |desk: &Desk| [3, 7].map(|header| desk.sector(header)[3..8].to_vec());
    let right = [[1, 0, 0, 0, 0], [2, 0, 0, 0, 0]];
    let calls = [
        Call::Begin { client: 1, budget: 255 },
        Call::Open { client: 1, file: 1, budget: 255 },
        Call::Open { client: 1, file: 2, budget: 255 },
        Call::Write { client: 1, file: 1, page: 1, data: page_of(3), budget: 255 },
        Call::Commit { client: 1, budget: 2 },
        Call::Begin { client: 2, budget: 255 },
        Call::OpenRead { client: 2, file: 2, budget: 255 },
        Call::Open { client: 2, file: 2, budget: 255 },
        Call::Abort { client: 2, budget: 255 },
    ];
    for call in calls {
        assert!(matches!(desk.call(call), Done(_) | Cut(2)), "{call}");
        assert_eq!(counts(&desk), right, "{call}");
    }
}

// ------------------------------------------------------- sessions and the book

/// No mark and no hold matters, and none is changed.
#[test]
fn no_session_matters() {
    let mut volume = e2().volume;
    for active in 0..=255 {
        for reading in [[0; 4], [1, 0, 0, 0], [0xFFFF; 4]] {
            let given = RawSession { active, reading };
            for (file, answer) in [(1, Answer::Count(1)), (2, Answer::Count(2)), (3, Answer::Refused(6))] {
                let reply = make_raw(&mut volume, given, Call::Spare { file });
                assert_eq!(reply, Reply { session: given, answer: answer.into() });
            }
        }
    }
    assert!(volume == e2().volume, "a question changed something");
}

#[test]
fn a_question_is_nothing_to_the_book() {
    let mut book = Book::new(&V_SHAPE);
    let write = Call::Write { client: 1, file: 1, page: 1, data: page_of(9), budget: 255 };
    book.feed(session(1, &[]), &write, Answer::Done(2));
    for (given, answer) in [(Session::new(), Answer::Count(1)), (Session::new(), Answer::Refused(1))] {
        book.feed(given, &Call::Spare { file: 1 }, answer);
        assert_eq!(book.shows(1, 1, 1), Some(page_of(9)));
    }
}
