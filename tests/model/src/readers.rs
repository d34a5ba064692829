//! What the clients that hold files for reading are shown.

use crate::call::{Answer, Call};
use crate::content::decided_sectors;
use crate::engine::Engine;
use crate::reply::RawSession;
use crate::volume::SECTOR_SIZE;

/// Whether each file that a client reads in both sessions has the same pages
/// in both volumes.
pub fn steady(before: (&[u8], RawSession), after: (&[u8], RawSession)) -> Result<(), String> {
    let stays = |&(client, file): &(u8, u8)| after.1.reads(client, file);
    for (client, file) in before.1.holds().filter(stays) {
        if !decided(before.0, file).eq(decided(after.0, file)) {
            return Err(format!("file {file} changes while client {client} reads it"));
        }
    }
    Ok(())
}

/// Whether each client is shown the decided pages of the files that it reads.
pub fn shown(engine: Engine, volume: &mut [u8], session: RawSession) -> Result<(), String> {
    for (client, file) in session.holds() {
        for (page, decided) in (0..).zip(decided_sectors(volume, file)).filter(|(page, _)| is_asked_for(*page)) {
            let answer = engine.call(volume, session, &Call::Read { client, file, page }).answer.answer();
            if answer != Some(Answer::Sector(decided as u16)) {
                return Err(format!("client {client} isn't shown the decided page {page} of file {file}"));
            }
        }
    }
    Ok(())
}

/// Every page of a short file, and some of a long one.
fn is_asked_for(page: u8) -> bool {
    page < 4 || page % 16 == 15
}

fn decided(volume: &[u8], file: u8) -> impl Iterator<Item = &[u8]> {
    decided_sectors(volume, file).into_iter().map(|sector| &volume[SECTOR_SIZE * sector..][..SECTOR_SIZE])
}

#[cfg(test)]
mod tests {
    use super::*;
    use crate::volume;

    /// V, and the session in which client 1 has begun.
    fn begun() -> (Vec<u8>, RawSession) {
        let mut volume = vec![0; 11 * SECTOR_SIZE];
        volume::format(&mut volume, 2, &[2, 3, 1, 3]).unwrap();
        let begin = Call::Begin { client: 1, budget: 255 };
        let session = Engine::Model.call(&mut volume, RawSession::default(), &begin).session;
        (volume, session)
    }

    /// The session with client 1's hold of the file.
    fn reading(mut session: RawSession, file: u8) -> RawSession {
        session.add_hold(1, file);
        session
    }

    #[test]
    fn a_page_that_changes_is_seen_while_it_is_read() {
        let (before, session) = begun();
        let read = reading(session, 1);
        // Page 1 of file 1 is in sector 5, and no page in sector 6.
        for (sector, steady_there) in [(5, false), (6, true), (8, true)] {
            let mut after = before.clone();
            after[SECTOR_SIZE * sector] = 1;
            assert_eq!(steady((&before, read), (&after, read)).is_ok(), steady_there);
            assert!(steady((&before, read), (&after, session)).is_ok());
            assert!(steady((&before, session), (&after, read)).is_ok());
        }
    }

    #[test]
    fn a_reader_that_is_refused_or_shown_something_else_is_seen() {
        let (mut volume, session) = begun();
        assert!(shown(Engine::Model, &mut volume, reading(session, 1)).is_ok());
        assert!(shown(Engine::Model, &mut volume, reading(RawSession::default(), 1)).is_err());
        // Written in a transaction that isn't decided.
        let calls = [
            Call::Open { client: 1, file: 2, budget: 255 },
            Call::Write { client: 1, file: 2, page: 0, data: &[7; SECTOR_SIZE], budget: 255 },
        ];
        let after = calls.iter().fold(session, |session, call| Engine::Model.call(&mut volume, session, call).session);
        assert!(shown(Engine::Model, &mut volume, after).is_ok());
        assert!(shown(Engine::Model, &mut volume, reading(after, 2)).is_err());
    }
}
