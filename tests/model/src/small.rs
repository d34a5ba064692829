//! Every sound volume of one small shape whose real sectors are all zero.
//!
//! The fields of the record and of the header take all the values listed
//! below, lawful or not, and [`volume::is_sound`] chooses: no rule of the
//! soundness is written down here again.

use std::collections::BTreeSet;

use crate::volume::{self, is_sound, BODY, COUNT, HOLDER, SECTOR_SIZE, SPARE, STATE};

/// The shape: one client, one file of 2 pages in 3 reals, nothing behind it.
const CLIENTS: u8 = 1;
const PAGES_AND_REALS: [u8; 2] = [2, 3];
const SECTORS: usize = 6;

/// The values that each field of the record takes.
const STATES: [u8; 4] = [0, 1, 2, 3];
const COUNTS: [u8; 4] = [0, 1, 2, 3];
const ENTRY_FILES: [u8; 3] = [0, 1, 2];
const ENTRY_PAGES: [u8; 4] = [0, 1, 2, 0xFF];
const ENTRY_REALS: [u8; 5] = [0, 1, 2, 3, 0xFF];
const ENTRY_ENDS: [u8; 3] = [0, 1, 0xFF];

/// The most entries that are put in a record, whatever its count says.
const MOST_ENTRIES: usize = 3;

/// The values that each field of the header takes.
const HOLDERS: [u8; 3] = [0, 1, 2];
const SPARES: [u8; 5] = [0, 1, 2, 3, 0xFF];
const MAP_BYTES: [u8; 5] = [0, 1, 2, 3, 0xFF];

/// Where the record and the header begin.
const RECORD: usize = SECTOR_SIZE;
const HEADER: usize = 2 * SECTOR_SIZE;

/// The bytes of one small volume.
pub const LENGTH: usize = SECTORS * SECTOR_SIZE;

pub type Volume = [u8; LENGTH];

/// All the small volumes, each once, ordered by the bytes of the record and
/// then of the header.
pub fn volumes() -> Vec<Volume> {
    // Sector 0 is the same in all of them, and the record and the header come
    // next, so this is the order of the whole volumes too.
    let found: BTreeSet<Volume> = with_records().into_iter().flat_map(with_headers).collect();
    found.into_iter().collect()
}

/// The volumes with a sound record beside the header of the layout. That one
/// names no holder, so it goes with every record that is sound by itself.
fn with_records() -> Vec<Volume> {
    let mut volume = [0; LENGTH];
    volume::format(&mut volume, CLIENTS, &PAGES_AND_REALS).expect("the shape is in range");
    let mut found = Vec::new();
    add_records(volume, 0, &mut found);
    found
}

/// Adds the volume with each state and count that make its record sound, with
/// the `length` entries that are in it. If they are sound in full number, one
/// more is put behind them. The rules are about one entry or two, so where they
/// aren't sound, a further entry mends nothing.
fn add_records(mut volume: Volume, length: usize, found: &mut Vec<Volume>) {
    let mut in_full = false;
    for [state, count] in choices([&STATES, &COUNTS]) {
        volume[RECORD + STATE] = state;
        volume[RECORD + COUNT] = count;
        if is_sound(&volume) {
            found.push(volume);
            in_full |= usize::from(count) == length;
        }
    }
    if !in_full || length == MOST_ENTRIES {
        return;
    }
    for entry in choices([&ENTRY_FILES, &ENTRY_PAGES, &ENTRY_REALS, &ENTRY_ENDS]) {
        volume[RECORD + BODY + 4 * length..][..4].copy_from_slice(&entry);
        add_records(volume, length + 1, found);
    }
}

/// The volume with each header that is sound beside its record.
fn with_headers(mut volume: Volume) -> Vec<Volume> {
    let mut found = Vec::new();
    for [holder, spare, first, second] in choices([&HOLDERS, &SPARES, &MAP_BYTES, &MAP_BYTES]) {
        volume[HEADER + HOLDER] = holder;
        volume[HEADER + SPARE] = spare;
        volume[HEADER + BODY..][..2].copy_from_slice(&[first, second]);
        if is_sound(&volume) {
            found.push(volume);
        }
    }
    found
}

/// Every choice of one value from each list.
fn choices<const N: usize>(lists: [&[u8]; N]) -> Vec<[u8; N]> {
    let mut choices = vec![[0; N]];
    for (place, list) in lists.iter().enumerate() {
        let with = |mut choice: [u8; N], value| {
            choice[place] = value;
            choice
        };
        choices = choices.iter().flat_map(|&choice| list.iter().map(move |&value| with(choice, value))).collect();
    }
    choices
}
