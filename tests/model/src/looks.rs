//! What a look finds beside what opening and reading find after it.

use crate::call::{Answer, Call};
use crate::content::{has_entry, pages_of};
use crate::engine::Engine;
use crate::reply::RawSession;
use crate::volume::SECTOR_SIZE;

/// Whether a client that has opened a file, and didn't hold it before, reads
/// what looks at the volume before the opening find. `opened` is the volume
/// after it and the session handed back.
pub fn as_opened(
    engine: Engine,
    before: &mut [u8],
    opened: (&mut [u8], RawSession),
    client: u8,
    file: u8,
) -> Result<(), String> {
    let (after, session) = opened;
    let pages: Vec<u8> =
        (0..pages_of(before, file).unwrap_or(0)).filter(|&page| is_asked_for(before, file, page)).collect();
    for page in pages {
        let look = engine.call(before, session, &Call::Look { file, page }).answer.answer();
        let read = engine.call(after, session, &Call::Read { client, file, page }).answer.answer();
        let part = part_of(before, look);
        if look != read || part.is_none() || part != part_of(after, read) {
            return Err(format!("client {client} opens file {file} and finds another page {page} than a look before"));
        }
    }
    Ok(())
}

/// The page that was found; none on a refusal.
fn part_of(volume: &[u8], answer: Option<Answer>) -> Option<&[u8]> {
    match answer? {
        Answer::Sector(sector) => volume.chunks(SECTOR_SIZE).nth(sector.into()),
        _ => None,
    }
}

/// The first page of a file, and those that a record has.
fn is_asked_for(volume: &[u8], file: u8, page: u8) -> bool {
    page == 0 || (1..=volume[4]).any(|client| has_entry(volume, client, file, page))
}

#[cfg(test)]
mod tests {
    use super::*;
    use crate::volume;

    /// V after client 1's commit of file 1 page 0, cut behind the store that
    /// decides it, and then a begin of client 2.
    fn interrupted() -> (Vec<u8>, RawSession) {
        let mut volume = vec![0; 11 * SECTOR_SIZE];
        volume::format(&mut volume, 2, &[2, 3, 1, 3]).unwrap();
        let calls = [
            Call::Begin { client: 1, budget: 255 },
            Call::Open { client: 1, file: 1, budget: 255 },
            Call::Write { client: 1, file: 1, page: 0, data: &[7; SECTOR_SIZE], budget: 255 },
            Call::Commit { client: 1, budget: 1 },
            Call::Begin { client: 2, budget: 255 },
        ];
        let session = calls
            .iter()
            .fold(RawSession::default(), |session, call| Engine::Model.call(&mut volume, session, call).session);
        (volume, session)
    }

    #[test]
    fn another_page_than_a_look_finds_is_seen() {
        let (before, session) = interrupted();
        for open in [Call::Open { client: 2, file: 1, budget: 255 }, Call::OpenRead { client: 2, file: 1, budget: 255 }]
        {
            let mut after = before.clone();
            let session = Engine::Model.call(&mut after, session, &open).session;
            let agree = |mut before: Vec<u8>, mut after: Vec<u8>| {
                as_opened(Engine::Model, &mut before, (&mut after, session), 2, 1).is_ok()
            };
            assert!(agree(before.clone(), after.clone()));
            // The record isn't decided, or the page has other bytes, or the map
            // another real: the header is sector 3.
            let poked = |bytes: &[u8], address: usize, byte: u8| {
                let mut bytes = bytes.to_vec();
                bytes[address] = byte;
                bytes
            };
            assert!(!agree(poked(&before, SECTOR_SIZE + 2, 1), after.clone()));
            assert!(!agree(before.clone(), poked(&after, 6 * SECTOR_SIZE, 8)));
            assert!(!agree(before.clone(), poked(&after, 3 * SECTOR_SIZE + 8, 0)));
            // Neither volume is sound.
            assert!(!agree(poked(&before, 0, 0), poked(&after, 0, 0)));
        }
    }
}
