//! The real that a page takes when it has no entry yet: the first above the
//! one mapped for the page, and from 0 again after R - 1, that is neither
//! mapped nor given for the file.

mod common;

use common::*;
use model::random::Random;
use model::volume::{Read, Session};

/// One client and one file: the record is in sector 1, the header in 2, real
/// 0 in 3.
fn one_file(pages: u8, reals: u8) -> Desk {
    Desk::new(3 + usize::from(reals), 1, &[pages, reals])
}

/// Two files of one page and four reals. Client 1 holds both.
fn two_files(clients: u8) -> Desk {
    let mut desk = Desk::new(11 + usize::from(clients), clients, &[1, 4, 1, 4]);
    assert_eq!(desk.begin(1), Done(1));
    assert_eq!(desk.open(1, 1), Done(1));
    assert_eq!(desk.open(1, 2), Done(1));
    desk
}

/// One file that client 1 holds, with this map; its record gives these
/// (page, real).
fn made_up(reals: u8, map: &[u8], given: &[(u8, u8)]) -> Desk {
    let mut desk = one_file(map.len() as u8, reals);
    desk.volume[256 + 2..][..2].copy_from_slice(&[1, given.len() as u8]);
    for (entry, &(page, real)) in desk.volume[256 + 8..].chunks_mut(4).zip(given) {
        entry.copy_from_slice(&[1, page, real, 0]);
    }
    desk.volume[512 + 2] = 1;
    desk.volume[512 + 8..][..map.len()].copy_from_slice(map);
    desk.session = session(1, &[]);
    assert!(is_sound(&desk.volume), "{reals} {map:?} {given:?}");
    desk
}

/// The real that client 1 has a page of file 1 in after it has written it, or
/// the refusal.
fn written(desk: &mut Desk, page: u8) -> Result<u8, u8> {
    let before = desk.volume.clone();
    match desk.write(1, 1, page, 50) {
        Refused(number) => {
            assert!(desk.volume == before, "a refusal changed something");
            Err(number)
        }
        outcome => {
            assert_eq!(outcome, Done(2));
            let entry = 8 + 4 * usize::from(before[256 + 3]);
            let real = desk.sector(1)[entry + 2];
            assert_eq!(desk.sector(1)[entry..entry + 4], [1, page, real, 0]);
            assert_eq!(desk.sector(3 + usize::from(real)), page_of(50));
            Ok(real)
        }
    }
}

/// The sectors of the pages of file 1 after client 1 has written them in one
/// transaction.
fn transaction(desk: &mut Desk, pages: &[u8]) -> Vec<u16> {
    assert_eq!(desk.begin(1), Done(1));
    assert_eq!(desk.open(1, 1), Done(1));
    for &page in pages {
        assert_eq!(desk.write(1, 1, page, page), Done(2));
    }
    let sectors = pages.iter().map(|&page| sector_of_page(desk, 1, page)).collect();
    assert_eq!(desk.commit(1), Done(3));
    sectors
}

/// The sector in which the client finds a page of file 1.
fn sector_of_page(desk: &Desk, client: u8, page: u8) -> u16 {
    match desk.read(client, 1, page) {
        Read::Sector(sector) => sector,
        refused => panic!("{refused:?}"),
    }
}

/// What a write of the page does, real by real.
fn by_the_rule(reals: u8, map: &[u8], given: &[(u8, u8)], page: u8) -> Result<u8, u8> {
    let start = map[usize::from(page)] + 1;
    for real in (start..reals).chain(0..start) {
        if !map.contains(&real) && !given.iter().any(|entry| entry.1 == real) {
            return if given.len() == 62 { Err(12) } else { Ok(real) };
        }
    }
    Err(11)
}

// ------------------------------------------------ transaction after transaction

#[test]
fn a_page_goes_round_the_free_reals() {
    // Reals 0 to 4 are in sectors 3 to 7.
    let mut desk = one_file(2, 5);
    let mut rewritten =
        |page, times| -> Vec<u16> { (0..times).flat_map(|_| transaction(&mut desk, &[page])).collect() };
    // Page 1 is in real 1, sector 4.
    assert_eq!(rewritten(0, 10), [5, 6, 7, 3, 5, 6, 7, 3, 5, 6]);
    // Page 0 is in real 3, sector 6.
    assert_eq!(rewritten(1, 9), [5, 7, 3, 4, 5, 7, 3, 4, 5]);
}

#[test]
fn two_pages_go_round_together() {
    let mut desk = one_file(2, 5);
    let sectors: Vec<_> = (0..5).map(|_| transaction(&mut desk, &[0, 1])).collect();
    assert_eq!(sectors, [[5, 6], [7, 3], [4, 5], [6, 7], [3, 4]]);
    // Page 0 is in real 0, page 1 in real 1; page 1 is written first.
    let sectors: Vec<_> = (0..3).map(|_| transaction(&mut desk, &[1, 0])).collect();
    assert_eq!(sectors, [[5, 6], [7, 3], [4, 5]]);
}

#[test]
fn a_page_goes_round_240_reals() {
    let mut desk = one_file(1, 240);
    for real in (1..240).chain(0..3) {
        assert_eq!(transaction(&mut desk, &[0]), [3 + real]);
    }
}

#[test]
fn with_one_spare_real_a_page_goes_there_and_back() {
    for page in 0..3 {
        let mut desk = one_file(3, 4);
        let sectors: Vec<_> = (0..5).flat_map(|_| transaction(&mut desk, &[page])).collect();
        let own = 3 + u16::from(page);
        assert_eq!(sectors, [6, own, 6, own, 6]);
    }
}

/// Each page takes the real that the page before it has left.
#[test]
fn with_one_spare_real_the_spare_one_wanders() {
    let mut desk = one_file(3, 4);
    let sectors: Vec<_> =
        [0, 1, 2, 0, 1, 2, 0, 1, 2].iter().flat_map(|&page| transaction(&mut desk, &[page])).collect();
    assert_eq!(sectors, [6, 3, 4, 5, 6, 3, 4, 5, 6]);
}

// ------------------------------------------------------------------ the start

#[test]
fn above_the_last_real_is_real_0() {
    for reals in [2, 3, 31, 32, 33, 63, 64, 65, 128, 239, 240] {
        let last = reals - 1;
        assert_eq!(written(&mut made_up(reals, &[last], &[]), 0), Ok(0), "{reals}");
        assert_eq!(written(&mut made_up(reals, &[last - 1], &[]), 0), Ok(last), "{reals}");
    }
    assert_eq!(written(&mut made_up(5, &[4, 0, 2], &[]), 0), Ok(1));
    assert_eq!(written(&mut made_up(5, &[3, 0, 4], &[]), 0), Ok(1));
    assert_eq!(written(&mut made_up(5, &[4, 0, 1], &[(1, 2)]), 0), Ok(3));
}

/// The page's own real in the map, not another page's and not one of the
/// record.
#[test]
fn the_start_is_by_the_page() {
    let map = [6, 1, 3];
    for (page, real) in [(0, 7), (1, 2), (2, 4)] {
        assert_eq!(written(&mut made_up(10, &map, &[]), page), Ok(real));
    }
    let mut desk = made_up(10, &map, &[]);
    assert_eq!([0, 1, 2].map(|page| written(&mut desk, page)), [Ok(7), Ok(2), Ok(4)]);
    let mut desk = made_up(10, &map, &[]);
    assert_eq!([2, 1, 0].map(|page| written(&mut desk, page)), [Ok(4), Ok(2), Ok(7)]);
}

#[test]
fn a_page_with_an_entry_keeps_its_real() {
    let mut desk = made_up(10, &[6, 1, 3], &[]);
    assert_eq!(written(&mut desk, 0), Ok(7));
    assert_eq!(desk.write(1, 1, 0, 51), Done(1));
    assert_eq!(desk.sector(3 + 7), page_of(51));
    assert_eq!(sector_of_page(&desk, 1, 0), 3 + 7);
    assert_eq!(desk.commit(1), Done(3));
    assert_eq!(transaction(&mut desk, &[0]), [3 + 8]);
}

#[test]
fn the_start_moves_with_the_map_alone() {
    let mut desk = one_file(1, 4);
    let write = |desk: &mut Desk| {
        assert!(matches!(desk.begin(1), Done(_)));
        assert_eq!(desk.open(1, 1), Done(1));
        written(desk, 0)
    };
    assert_eq!(write(&mut desk), Ok(1));
    assert_eq!(desk.abort(1), Done(2));
    assert_eq!(write(&mut desk), Ok(1));
    // A crash, then a commit cut before its deciding store.
    desk.session = Session::new();
    assert_eq!(write(&mut desk), Ok(1));
    assert_eq!(desk.commit_within(1, 0), Cut(0));
    assert_eq!(write(&mut desk), Ok(1));
    // After the deciding store, the recovery changes the map.
    assert_eq!(desk.commit_within(1, 1), Cut(1));
    assert_eq!(write(&mut desk), Ok(2));
}

// ---------------------------------------------------------- the reals in use

#[test]
fn mapped_and_given_reals_are_passed_over() {
    let mut desk = made_up(8, &[0, 1, 2, 7], &[(1, 3), (2, 5)]);
    assert_eq!(written(&mut desk, 0), Ok(4));
    assert_eq!(written(&mut desk, 3), Ok(6));
}

#[test]
fn entries_of_other_files_are_no_matter() {
    // Headers in sectors 2 and 7.
    let mut desk = two_files(1);
    assert_eq!(desk.write(1, 2, 0, 1), Done(2));
    assert_eq!(desk.read(1, 2, 0), Read::Sector(9));
    assert_eq!(written(&mut desk, 0), Ok(1));
}

/// Client 1's record keeps an entry for file 1 that is carried out already.
#[test]
fn entries_of_other_clients_are_no_matter() {
    // Headers in sectors 3 and 8.
    let mut desk = two_files(2);
    assert_eq!(desk.write(1, 1, 0, 1), Done(2));
    assert_eq!(desk.commit_within(1, 2), Cut(2));
    let mut sectors = Vec::new();
    for _ in 0..4 {
        assert_eq!(desk.begin(2), Done(1));
        assert_eq!(desk.open(2, 1), Done(1));
        assert_eq!(desk.write(2, 1, 0, 2), Done(2));
        sectors.push(sector_of_page(&desk, 2, 0));
        assert_eq!(desk.commit(2), Done(3));
    }
    assert_eq!(desk.sector(1)[..12], [0x4B, 0x49, 2, 1, 0, 0, 0, 0, 1, 0, 1, 0]);
    assert_eq!(sectors, [6, 7, 4, 5]);
}

#[test]
fn with_no_spare_real_every_write_is_refused() {
    for reals in [1, 2, 31, 32, 33, 64, 120] {
        let map: Vec<u8> = (0..reals).rev().collect();
        let mut desk = made_up(reals, &map, &[]);
        for page in 0..reals {
            assert_eq!(written(&mut desk, page), Err(11), "{reals} {page}");
        }
    }
}

/// 120 reals are mapped and 61 given; one of 182 is left.
#[test]
fn the_only_free_real_is_found_from_every_start() {
    let mut random = Random::new(1);
    for free in [0, 1, 31, 32, 63, 64, 95, 96, 127, 128, 159, 160, 180, 181] {
        let mut used: Vec<u8> = (0..182).filter(|&real| real != free).collect();
        random.shuffle(&mut used);
        let (map, rest) = used.split_at(120);
        let given: Vec<(u8, u8)> = (0..).zip(rest.iter().copied()).collect();
        let start = made_up(182, map, &given);
        for page in 61..120 {
            let mut desk = start.clone();
            assert_eq!(written(&mut desk, page), Ok(free), "page {page} in real {}", map[usize::from(page)]);
            // The record is full too, but no real is left.
            let other = if page == 61 { 62 } else { 61 };
            assert_eq!(written(&mut desk, other), Err(11));
        }
    }
}

// ------------------------------------------------------------- many volumes

/// Page 0 in every real of 240, with other pages in those right above it.
#[test]
fn every_start_and_runs_of_mapped_reals() {
    for mapped in [1, 2, 31, 32, 33, 63, 64, 65, 119, 120] {
        for first in 0..240 {
            let map: Vec<u8> = (first..first + mapped).map(|real| (real % 240) as u8).collect();
            let expected = ((first + mapped) % 240) as u8;
            assert_eq!(written(&mut made_up(240, &map, &[]), 0), Ok(expected), "{mapped} reals from {first}");
        }
    }
}

/// Every map of one to three pages in up to five reals, and every order in
/// which the pages are written.
#[test]
fn every_small_file() {
    let mut cases = 0;
    for reals in 1..=5 {
        for pages in 1..=reals.min(3) {
            for map in arrangements(reals, pages) {
                for order in arrangements(pages, pages) {
                    as_by_the_rule(reals, &map, vec![], &order);
                    cases += 1;
                }
            }
        }
    }
    // The sum of R! / (R - P)! maps by P! orders.
    assert_eq!(cases, 1 + (2 + 4) + (3 + 12 + 36) + (4 + 24 + 144) + (5 + 40 + 360));
}

/// So many different numbers below `limit`, in every order.
fn arrangements(limit: u8, length: u8) -> Vec<Vec<u8>> {
    let mut lists = vec![vec![]];
    for _ in 0..length {
        let longer = |list: &Vec<u8>| {
            let others = (0..limit).filter(|number| !list.contains(number));
            others.map(|number| [&list[..], &[number]].concat()).collect::<Vec<_>>()
        };
        lists = lists.iter().flat_map(longer).collect();
    }
    lists
}

/// Writes the pages one after the other; none of them has an entry.
fn as_by_the_rule(reals: u8, map: &[u8], mut given: Vec<(u8, u8)>, pages: &[u8]) {
    let mut desk = made_up(reals, map, &given);
    for &page in pages {
        let expected = by_the_rule(reals, map, &given, page);
        assert_eq!(written(&mut desk, page), expected, "page {page} of {map:?} in {reals} reals, given {given:?}");
        given.extend(expected.map(|real| (page, real)));
    }
}

/// Maps and entries of any number, in any order or in one run, with many free
/// reals or few.
#[test]
fn random_files() {
    let mut random = Random::new(1);
    for _ in 0..1000 {
        let pages = random.between(1, 120);
        let most = pages.min(62);
        let given = if random.chance(25) { most } else { random.between(0, most) };
        let used = pages + given;
        let reals = if random.chance(50) { used + random.between(0, 3) } else { random.between(used, 240) };
        let order = places(&mut random, reals);
        let (map, rest) = order.split_at(usize::from(pages));
        let mut shuffled: Vec<u8> = (0..pages).collect();
        random.shuffle(&mut shuffled);
        let (with_entry, without) = shuffled.split_at(usize::from(given));
        let entries = with_entry.iter().copied().zip(rest.iter().copied()).collect();
        as_by_the_rule(reals, map, entries, &without[..without.len().min(4)]);
    }
}

/// All the reals: in any order, or rising from one of them on and round.
fn places(random: &mut Random, reals: u8) -> Vec<u8> {
    let mut order: Vec<u8> = (0..reals).collect();
    if random.chance(50) {
        random.shuffle(&mut order);
    } else {
        order.rotate_left(random.below(usize::from(reals)));
    }
    order
}
