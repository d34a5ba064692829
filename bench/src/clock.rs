//! The time of a call: the median of many batches, the two sides by turns.

use std::hint::black_box;
use std::time::Instant;

use crate::call::Function;
use crate::reply::Reply;
use crate::scene::Scene;
use crate::side::{Side, BOTH};

const SECTOR: usize = 256;
/// Batches of each side, and how long one takes at least.
const BATCHES: usize = 41;
const BATCH_NANOS: u128 = 200_000;

/// Nanoseconds of one call, of the library and of the Rust code.
pub fn times(scene: &Scene, reply: Reply) -> [f64; 2] {
    let mut bench = Bench::new(scene, reply);
    let rounds = bench.rounds();
    let mut samples: [Vec<f64>; 2] = [Vec::new(), Vec::new()];
    for _ in 0..BATCHES {
        for (side, samples) in BOTH.into_iter().zip(&mut samples) {
            samples.push(bench.batch(side, rounds));
        }
    }
    samples.map(median)
}

fn median(mut samples: Vec<f64>) -> f64 {
    samples.sort_by(f64::total_cmp);
    samples[samples.len() / 2]
}

/// A volume that is put back into its state before each call.
struct Bench<'a> {
    scene: &'a Scene,
    reply: Reply,
    volume: Vec<u8>,
    text: Vec<u8>,
    /// Where the sectors begin that the call changes.
    changed: Vec<usize>,
}

impl<'a> Bench<'a> {
    fn new(scene: &'a Scene, reply: Reply) -> Bench<'a> {
        let (mut volume, mut text) = (scene.before.clone(), Scene::text());
        Side::Rust.make(&scene.call, &mut volume, &mut text);
        let changed = changed_sectors(scene, &volume);
        Bench { scene, reply, volume, text, changed }
    }

    fn put_back(&mut self) {
        for &start in &self.changed {
            self.volume[start..start + SECTOR].copy_from_slice(&self.scene.before[start..start + SECTOR]);
        }
        black_box(&mut self.volume);
    }

    /// How many calls fill a batch.
    fn rounds(&mut self) -> u32 {
        let mut rounds = 1;
        loop {
            let start = Instant::now();
            self.call_rounds(Side::Library, rounds);
            if start.elapsed().as_nanos() >= BATCH_NANOS {
                return rounds;
            }
            rounds *= 2;
        }
    }

    /// The time of one call in a batch, the putting back taken off.
    fn batch(&mut self, side: Side, rounds: u32) -> f64 {
        let start = Instant::now();
        self.call_rounds(side, rounds);
        let with_calls = start.elapsed();
        let start = Instant::now();
        for _ in 0..rounds {
            self.put_back();
        }
        (with_calls.as_nanos() as f64 - start.elapsed().as_nanos() as f64) / f64::from(rounds)
    }

    fn call_rounds(&mut self, side: Side, rounds: u32) {
        let ready = black_box(self.scene.ready(side, &mut self.volume, &mut self.text));
        let mut right = true;
        for _ in 0..rounds {
            self.put_back();
            // SAFETY: the arrays stand in this value and nothing else uses them.
            right &= unsafe { ready.make() } == self.reply;
        }
        assert!(right, "{}: another reply in a batch", self.scene.name);
    }
}

/// Format does the same whatever the array held, so nothing is put back.
fn changed_sectors(scene: &Scene, after: &[u8]) -> Vec<usize> {
    if scene.call.function == Function::Format {
        return Vec::new();
    }
    let differs = |&at: &usize| after[at..at + SECTOR] != scene.before[at..at + SECTOR];
    (0..after.len()).step_by(SECTOR).filter(differs).collect()
}
