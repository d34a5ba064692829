//! The small volumes: how many there are, their order, and that none is missing.

mod common;

use std::sync::LazyLock;

use common::*;
use model::random::Random;
use model::small::{volumes, Volume};

static VOLUMES: LazyLock<Vec<Volume>> = LazyLock::new(volumes);

/// One sector of the volume.
fn sector(volume: &Volume, number: usize) -> &[u8] {
    &volume[256 * number..][..256]
}

fn state(volume: &Volume) -> u8 {
    sector(volume, 1)[2]
}

/// The number of entries, C.
fn count(volume: &Volume) -> u8 {
    sector(volume, 1)[3]
}

fn holder(volume: &Volume) -> u8 {
    sector(volume, 2)[2]
}

fn spare(volume: &Volume) -> u8 {
    sector(volume, 2)[3]
}

fn map(volume: &Volume) -> &[u8] {
    &sector(volume, 2)[8..10]
}

/// The entries as far as C says.
fn entries(volume: &Volume) -> impl Iterator<Item = &[u8]> {
    sector(volume, 1)[8..].chunks(4).take(usize::from(count(volume)))
}

/// How many of the small volumes are such ones.
fn how_many(such: impl Fn(&Volume) -> bool) -> usize {
    VOLUMES.iter().filter(|volume| such(volume)).count()
}

#[test]
fn there_are_270_and_all_are_sound() {
    assert_eq!(VOLUMES.len(), 270);
    assert!(VOLUMES.iter().all(|volume| is_sound(volume)));
}

#[test]
fn the_table_is_the_shape_and_the_reals_are_zero() {
    let table = sector_of(&[0x4B, 0x56, 6, 0, 1, 1, 0, 0, 2, 0, 2, 3]);
    for volume in VOLUMES.iter() {
        assert_eq!(volume.len(), 1536);
        assert_eq!(sector(volume, 0), table);
        assert_eq!(volume[3 * 256..], [0; 3 * 256]);
    }
}

#[test]
fn records_rise_and_then_headers() {
    let keys: Vec<_> = VOLUMES.iter().map(|volume| (sector(volume, 1), sector(volume, 2))).collect();
    assert!(keys.windows(2).all(|pair| pair[0] < pair[1]));
}

/// The first is the layout. The last is decided, with the highest two entries
/// that differ in page and real; they leave one real, too few for the map of a
/// held file, so nobody holds the file, and the highest map is 02 01.
#[test]
fn the_first_and_the_last() {
    let [first, .., last] = &VOLUMES[..] else { panic!("fewer than two") };
    assert_eq!(sector(first, 1), sector_of(&[0x4B, 0x49]));
    assert_eq!(sector(first, 2), sector_of(&[0x4B, 0x46, 0, 1, 0, 0, 0, 0, 0, 1]));
    assert_eq!(sector(last, 1), sector_of(&[0x4B, 0x49, 2, 2, 0, 0, 0, 0, 1, 1, 2, 0, 1, 0, 1, 0]));
    assert_eq!(sector(last, 2), sector_of(&[0x4B, 0x46, 0, 1, 0, 0, 0, 0, 2, 1]));
}

/// Two of the three reals are in the map, whatever else is there.
#[test]
fn one_real_is_spare_in_each() {
    assert_eq!(how_many(|volume| spare(volume) == 1), 270);
}

/// A map is two different reals below 3, in either order: 6 maps.
#[test]
fn an_idle_record_goes_with_six_headers() {
    assert_eq!(how_many(|volume| state(volume) == 0), 6);
    assert_eq!(how_many(|volume| state(volume) == 0 && (count(volume), holder(volume)) == (0, 0)), 6);
}

/// With no entry, 6 maps for either holder. With one, of 2 pages and 3 reals,
/// all 6 maps of a free file or the 2 without the entry's real. With two, 2
/// orders of the pages and 6 of the reals, and no map of a held file is left.
#[test]
fn open_and_decided_records_by_entries_and_holder() {
    for wanted in [1, 2] {
        for (entries, free, held) in [(0, 6, 6), (1, 6 * 6, 6 * 2), (2, 12 * 6, 0), (3, 0, 0)] {
            let with =
                |name| how_many(|volume| (state(volume), count(volume), holder(volume)) == (wanted, entries, name));
            assert_eq!((with(0), with(1)), (free, held), "state {wanted}, {entries} entries");
        }
    }
    assert_eq!(how_many(|volume| state(volume) > 2 || count(volume) > 2 || holder(volume) > 1), 0);
}

#[test]
fn no_held_file_has_an_entry_with_a_real_of_its_map() {
    let clashes = |volume: &Volume| entries(volume).any(|entry| map(volume).contains(&entry[2]));
    assert_eq!(how_many(|volume| holder(volume) == 1 && clashes(volume)), 0);
    // With one entry in a free file, 4 of the 6 maps have its real; with two
    // entries, every map has one of theirs. Both open and decided.
    assert_eq!(how_many(|volume| holder(volume) == 0 && clashes(volume)), 2 * (6 * 4 + 12 * 6));
}

/// One or two bytes of the record and the header changed: what is sound
/// then is listed. Every small volume is met on the way.
#[test]
fn none_is_missing_near_the_others() {
    let mut met = vec![false; VOLUMES.len()];
    let mut random = Random::new(1);
    for _ in 0..200_000 {
        let start = random.below(VOLUMES.len());
        let mut volume = VOLUMES[start];
        for _ in 0..random.between(1, 2) {
            change(&mut random, &mut volume);
        }
        if volume != VOLUMES[start] && is_sound(&volume) {
            let found = VOLUMES.binary_search(&volume);
            met[found.expect("a sound volume isn't listed")] = true;
        }
    }
    assert!(met.iter().all(|&met| met), "{} not met", met.iter().filter(|&&met| !met).count());
}

/// Another byte in sector 1 or 2, most often a low one among those that tell
/// the small volumes apart.
fn change(random: &mut Random, volume: &mut Volume) {
    let telling = [258, 259, 264, 265, 266, 268, 269, 270, 514, 520, 521];
    let any = 256 + random.below(512);
    let place = if random.chance(75) { random.pick(&telling).unwrap_or(any) } else { any };
    volume[place] = if random.chance(75) { random.between(0, 3) } else { random.byte() };
}
