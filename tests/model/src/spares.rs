//! What the question about a file answers beside its whole map.

use crate::call::{Answer, Call};
use crate::content::{mapped_reals, reals_of, unmapped_reals};
use crate::engine::Engine;
use crate::reply::RawSession;

/// Whether the mapped and unmapped reals of each file make all its reals, and
/// the engine answers how many of them are unmapped. The volume is sound.
pub fn counted(engine: Engine, volume: &mut [u8]) -> Result<(), String> {
    for file in 1..=volume[5] {
        let (mapped, unmapped) = (mapped_reals(volume, file).len(), unmapped_reals(volume, file).count());
        let reals = reals_of(volume, file);
        if mapped + unmapped != usize::from(reals) {
            return Err(format!("file {file} has {mapped} mapped and {unmapped} unmapped of {reals} reals"));
        }
        let answer = engine.call(volume, RawSession::default(), &Call::Spare { file }).answer.answer();
        if answer != Some(Answer::Count(unmapped as u8)) {
            return Err(format!("file {file} has {unmapped} unmapped reals, but the answer is {answer:?}"));
        }
    }
    Ok(())
}

#[cfg(test)]
mod tests {
    use super::*;
    use crate::volume::{self, SECTOR_SIZE};

    /// V: the headers are sectors 3 and 7.
    fn v() -> Vec<u8> {
        let mut volume = vec![0; 11 * SECTOR_SIZE];
        volume::format(&mut volume, 2, &[2, 3, 1, 3]).unwrap();
        volume
    }

    fn counted_with(address: usize, byte: u8) -> bool {
        let mut volume = v();
        volume[address] = byte;
        counted(Engine::Model, &mut volume).is_ok()
    }

    #[test]
    fn a_count_that_is_not_the_maps_is_seen() {
        assert!(counted(Engine::Model, &mut v()).is_ok());
        for (header, right) in [(3, 1), (7, 2)] {
            for count in 0..=255 {
                assert_eq!(counted_with(SECTOR_SIZE * header + 3, count), count == right);
            }
        }
    }

    #[test]
    fn a_map_that_is_not_sound_is_seen() {
        assert!(counted_with(3 * SECTOR_SIZE + 8, 2));
        // A real twice, or one above the last.
        assert!(!counted_with(3 * SECTOR_SIZE + 8, 1));
        assert!(!counted_with(3 * SECTOR_SIZE + 8, 3));
    }

    #[test]
    fn a_refusal_is_seen() {
        assert!(!counted_with(7 * SECTOR_SIZE + 1, 0));
        assert!(!counted_with(6, 1));
    }
}
