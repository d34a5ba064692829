//! How many stores a call has, and the session that it hands back when they
//! are made: told from the session given and the bytes before it. And what a
//! look and a question answer.

use crate::call::{Answer, Call};
use crate::content::{decided_sectors, has_entry, has_right_table, header, holder, pages_of, recovery_stores};
use crate::reply::RawSession;
use crate::volume::refusal;

/// The answer of a look at a sound volume.
pub fn look(volume: &[u8], file: u8, page: u8) -> Answer {
    match pages_of(volume, file) {
        None => Answer::Refused(refusal::FILE),
        Some(pages) if page >= pages => Answer::Refused(refusal::PAGE),
        Some(_) => Answer::Sector(decided_sectors(volume, file)[usize::from(page)] as u16),
    }
}

/// The answer of a question about a file of any array.
pub fn spare(volume: &[u8], file: u8) -> Answer {
    if !has_right_table(volume) {
        return Answer::Refused(refusal::NOT_SOUND);
    }
    if pages_of(volume, file).is_none() {
        return Answer::Refused(refusal::FILE);
    }
    match *header(volume, file) {
        [0x4B, 0x46, _, count, ..] => Answer::Count(count),
        _ => Answer::Refused(refusal::NOT_SOUND),
    }
}

/// The number of stores; a read, a look and a question make none.
pub fn count(before: &[u8], call: &Call) -> u8 {
    match *call {
        Call::Begin { client, .. } | Call::Commit { client, .. } => 1 + recovery_stores(before, client),
        Call::Abort { client, .. } => recovery_stores(before, client),
        Call::Open { client, file, .. } if holder(before, file) == client => 0,
        Call::Open { file, .. } => 1 + stores_to_free(before, file),
        Call::OpenRead { client, file, .. } if holder(before, file) == client => 0,
        Call::OpenRead { file, .. } => stores_to_free(before, file),
        Call::Write { client, file, page, .. } => 2 - u8::from(has_entry(before, client, file, page)),
        Call::Read { .. } | Call::Look { .. } | Call::Spare { .. } => 0,
    }
}

/// The stores that recover the client that holds the file, if one does.
fn stores_to_free(before: &[u8], file: u8) -> u8 {
    match holder(before, file) {
        0 => 0,
        holder => recovery_stores(before, holder),
    }
}

/// The session handed back when the call is done.
pub fn session(before: &[u8], given: RawSession, call: &Call) -> RawSession {
    let mut after = given;
    match *call {
        Call::Begin { client, .. } => after.active |= 1 << (client - 1),
        Call::Open { client, file, .. } => after.reading[usize::from(client) - 1] &= !(1 << (file - 1)),
        Call::OpenRead { client, file, .. } => {
            if holder(before, file) != client {
                after.add_hold(client, file);
            }
        }
        Call::Commit { client, .. } | Call::Abort { client, .. } => {
            after.active &= !(1 << (client - 1));
            after.reading[usize::from(client) - 1] = 0;
        }
        Call::Read { .. } | Call::Look { .. } | Call::Spare { .. } | Call::Write { .. } => {}
    }
    after
}
