//! What is sound and what isn't, rule by rule, on V after the calls of E2.

mod common;

use common::*;
use model::volume::list;

/// Whether V in use is still sound with these bytes (sector, offset, byte).
fn sound_with(pokes: &[(usize, usize, u8)]) -> bool {
    let mut desk = in_use();
    for &(sector, offset, byte) in pokes {
        desk.volume[256 * sector + offset] = byte;
    }
    is_sound(&desk.volume)
}

#[test]
fn length() {
    let desk = in_use();
    assert!(is_sound(&desk.volume));
    assert!(!is_sound(&[]));
    assert!(!is_sound(&desk.volume[..desk.volume.len() - 1]));
    assert!(!is_sound(&desk.volume[..desk.volume.len() - 256]));
    let longer = [&desk.volume[..], &[0; 256]].concat();
    assert!(!is_sound(&longer));
    // 1,025 sectors, and sector 0 says so.
    let mut huge = [&desk.volume[..], &vec![0; 1014 * 256][..]].concat();
    huge[2..4].copy_from_slice(&[1, 4]);
    assert!(!is_sound(&huge));
    huge.truncate(1024 * 256);
    huge[2..4].copy_from_slice(&[0, 4]);
    assert!(is_sound(&huge));
}

#[test]
fn slots_and_later_sectors_are_free() {
    let mut desk = Desk::new(13, 2, &V_SHAPE);
    for sector in [4, 5, 6, 8, 9, 10, 11, 12] {
        desk.volume[256 * sector..][..256].fill(0x4B);
    }
    assert!(is_sound(&desk.volume));
}

#[test]
fn sector_0() {
    let wrong: [(usize, u8); 16] = [
        (0, 0),
        (1, 0),
        (2, 12),
        (3, 1),
        (4, 0),
        (4, 1),
        (4, 5),
        (5, 1),
        (5, 3),
        (6, 1),
        (7, 1),
        (8, 4),
        (10, 4),
        (11, 2),
        (16, 1),
        (255, 1),
    ];
    for (offset, byte) in wrong {
        assert!(!sound_with(&[(0, offset, byte)]), "{offset} {byte}");
    }
}

#[test]
fn records() {
    let wrong: [&[(usize, usize, u8)]; 14] = [
        &[(1, 0, 0)],
        &[(1, 2, 3)],
        // Idle with entries, or idle with headers that name it.
        &[(1, 2, 0)],
        &[(1, 2, 0), (1, 3, 0)],
        &[(1, 3, 63)],
        &[(1, 3, 1)],
        &[(1, 4, 1)],
        // No such file, page or real; the fourth byte.
        &[(1, 8, 0)],
        &[(1, 8, 3)],
        &[(1, 9, 2)],
        &[(1, 10, 3)],
        &[(1, 11, 1)],
        &[(1, 255, 1)],
        // A real that the map has.
        &[(1, 10, 1)],
    ];
    for pokes in wrong {
        assert!(!sound_with(pokes), "{pokes:?}");
    }
    assert!(sound_with(&[(1, 2, 2)]));
    assert!(sound_with(&[(2, 2, 1)]));
    assert!(sound_with(&[(2, 2, 2)]));
}

#[test]
fn entries_differ() {
    // A third entry for file 1, whose header names nobody.
    let third = |page, real| {
        let free = [(3, 2, 0), (1, 3, 3)];
        let entry = [(1, 16, 1), (1, 17, page), (1, 18, real)];
        sound_with(&[free[0], free[1], entry[0], entry[1], entry[2]])
    };
    assert!(third(1, 0));
    assert!(third(1, 1));
    assert!(!third(0, 1));
    assert!(!third(1, 2));
}

#[test]
fn headers() {
    let wrong: [(usize, usize, u8); 12] = [
        (3, 0, 0),
        (3, 1, 0),
        // Client 2 is idle, client 3 doesn't exist.
        (3, 2, 2),
        (3, 2, 3),
        (3, 3, 0),
        (3, 4, 1),
        (3, 7, 1),
        // A real outside, a real twice, a real that the record gives.
        (3, 8, 3),
        (3, 8, 1),
        (3, 8, 2),
        (3, 10, 1),
        (3, 255, 1),
    ];
    for poke in wrong {
        assert!(!sound_with(&[poke]), "{poke:?}");
    }
    assert!(sound_with(&[(3, 2, 0)]));
    assert!(sound_with(&[(3, 2, 0), (3, 8, 2)]));
}

/// One of file 1's three reals isn't in the map, two of file 2's.
#[test]
fn counts_of_the_headers() {
    for count in 0..=255 {
        assert_eq!(sound_with(&[(3, 3, count)]), count == 1, "{count}");
        assert_eq!(sound_with(&[(7, 3, count)]), count == 2, "{count}");
    }
    // Whatever the map is.
    for map in [[0, 1], [1, 0], [0, 2], [2, 0], [1, 2], [2, 1]] {
        for count in 0..=3 {
            let pokes = [(3, 2, 0), (3, 3, count), (3, 8, map[0]), (3, 9, map[1])];
            assert_eq!(sound_with(&pokes), count == 1, "{map:?} {count}");
        }
    }
    // A real twice doesn't make one more spare.
    assert!(!sound_with(&[(3, 2, 0), (3, 3, 2), (3, 8, 1)]));
}

/// A map of all the reals leaves none, and one page the most.
#[test]
fn counts_from_none_to_the_most() {
    for (pages, reals) in [(1, 1), (1, 240), (120, 120), (120, 240), (7, 16)] {
        let desk = Desk::new(2 + 1 + usize::from(reals), 1, &[pages, reals]);
        assert_eq!(desk.sector(2)[3], reals - pages);
        for count in 0..=255 {
            assert_eq!(is_sound(&desk.poked(2, 3, count).volume), count == reals - pages, "{pages} {reals} {count}");
        }
    }
}

#[test]
fn listings() {
    let desk = in_use();
    let text = "kiln 1 open 2\nkiln 2 idle 0\nfile 1 kiln 1 pages 2 sectors 3\nfile 2 kiln 1 pages 1 sectors 3\n";
    assert_eq!(listing(&desk.volume), text);
    assert_eq!(listing(&desk.volume[1..]), "not sound\n");
    assert_eq!(listing(&[]), "not sound\n");
    assert_eq!(listing(&vec![0; 65_536]), "not sound\n");
    assert_eq!(listing(&vec![0; 65_537]), "too long\n");
    let mut exact = vec![0; text.len()];
    assert_eq!(list(&desk.volume, &mut exact), Some(text.len()));
    assert_eq!(list(&desk.volume, &mut exact[1..]), None);
}

/// The library wants room for any listing.
#[cfg(feature = "capi")]
#[test]
fn the_library_writes_no_listing_into_less_room() {
    use model::engine::Engine;
    let (desk, mut room) = (in_use(), [0xEE; 664]);
    assert_eq!(Engine::Library.list(&desk.volume, &mut room[..663]), 0);
    assert_eq!(room, [0xEE; 664]);
    assert!(Engine::Library.list(&desk.volume, &mut room) > 0);
}
