//! The decided content of a sound volume, who holds its files and what their
//! maps use, read from its bytes. And what sector 0 of any array is worth.
//!
//! This module shares no code with the calls, so that a wrong reading there
//! isn't repeated here.

use std::collections::BTreeSet;

use crate::volume::{MAX_SECTORS, SECTOR_SIZE};

/// The pages of every file in order, rising by file and then by page.
pub fn decided_pages(volume: &[u8]) -> impl Iterator<Item = &[u8]> {
    let files = volume[5];
    (1..=files).flat_map(move |file| decided_sectors(volume, file)).map(move |number| sector(volume, number))
}

/// The sectors of the decided pages of one file: by its map, changed by its
/// entries in the record of the client that holds it, if that is decided.
pub fn decided_sectors(volume: &[u8], file: u8) -> Vec<usize> {
    let header_at = header_at(volume, file);
    let mut map = map(volume, file).to_vec();
    let holder = holder(volume, file);
    if holder != 0 && is_decided(volume, holder) {
        for entry in entries(volume, holder).filter(|entry| entry[0] == file) {
            map[usize::from(entry[1])] = entry[2];
        }
    }
    map.into_iter().map(|real| header_at + 1 + usize::from(real)).collect()
}

/// How many pages the file has; none if there is no such file.
pub fn pages_of(volume: &[u8], file: u8) -> Option<u8> {
    (1..=volume[5]).contains(&file).then(|| volume[4 + 4 * usize::from(file) + 2])
}

/// How many real sectors the file has.
pub fn reals_of(volume: &[u8], file: u8) -> u8 {
    volume[4 + 4 * usize::from(file) + 3]
}

/// The reals that the file's map uses, each once.
pub fn mapped_reals(volume: &[u8], file: u8) -> BTreeSet<u8> {
    map(volume, file).iter().copied().collect()
}

/// The reals of the file that are nowhere in its map.
pub fn unmapped_reals(volume: &[u8], file: u8) -> impl Iterator<Item = u8> + '_ {
    (0..reals_of(volume, file)).filter(move |real| !map(volume, file).contains(real))
}

/// Whether the array has a right length, and sector 0 is the one that a layout
/// of its T, pages and reals would give it.
pub fn has_right_table(volume: &[u8]) -> bool {
    let sectors = volume.len() / SECTOR_SIZE;
    if !(1..=MAX_SECTORS).contains(&sectors) || volume.len() != SECTOR_SIZE * sectors {
        return false;
    }
    let (clients, files) = (volume[4], volume[5]);
    let mut table = vec![0x4B, 0x56, (sectors % 256) as u8, (sectors / 256) as u8, clients, files, 0, 0];
    let mut place = 1 + usize::from(clients);
    for entry in volume[8..SECTOR_SIZE].chunks(4).take(files.into()) {
        let (pages, reals) = (entry[2], entry[3]);
        if !(1..=120).contains(&pages) || !(pages..=240).contains(&reals) {
            return false;
        }
        table.extend([(place % 256) as u8, (place / 256) as u8, pages, reals]);
        place += 1 + usize::from(reals);
    }
    table.resize(SECTOR_SIZE, 0);
    (1..=4).contains(&clients) && (1..=16).contains(&files) && place <= sectors && table == volume[..SECTOR_SIZE]
}

/// The header of a file that sector 0 has.
pub fn header(volume: &[u8], file: u8) -> &[u8] {
    sector(volume, header_at(volume, file))
}

/// The client that the header of the file names, or 0.
pub fn holder(volume: &[u8], file: u8) -> u8 {
    header(volume, file)[2]
}

/// Whether the client's record is decided.
pub fn is_decided(volume: &[u8], client: u8) -> bool {
    sector(volume, client.into())[2] == 2
}

/// How many stores recover the client: the headers that name it and its
/// record, or none if that is idle.
pub fn recovery_stores(volume: &[u8], client: u8) -> u8 {
    match sector(volume, client.into())[2] {
        0 => 0,
        _ => 1 + (1..=volume[5]).map(|file| u8::from(holder(volume, file) == client)).sum::<u8>(),
    }
}

/// Whether the client's record has an entry for the page.
pub fn has_entry(volume: &[u8], client: u8, file: u8, page: u8) -> bool {
    entries(volume, client).any(|entry| entry[..2] == [file, page])
}

fn entries(volume: &[u8], client: u8) -> impl Iterator<Item = &[u8]> {
    let record = sector(volume, client.into());
    record[8..].chunks(4).take(usize::from(record[3]))
}

fn map(volume: &[u8], file: u8) -> &[u8] {
    let pages = volume[4 + 4 * usize::from(file) + 2];
    &header(volume, file)[8..8 + usize::from(pages)]
}

fn header_at(volume: &[u8], file: u8) -> usize {
    let entry = &sector(volume, 0)[4 + 4 * usize::from(file)..];
    usize::from(entry[0]) + 256 * usize::from(entry[1])
}

fn sector(volume: &[u8], number: usize) -> &[u8] {
    &volume[SECTOR_SIZE * number..][..SECTOR_SIZE]
}
