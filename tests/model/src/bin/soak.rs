//! The test driver: `soak SECONDS SEED [RUN]`.
//!
//! Makes random runs for so many seconds, from the given run number on (0 if
//! left out), and prints what was counted. The runs are made in a child
//! process, so that a crash is seen as well. A failure is played again with
//! its lines noted down, shrunk and printed as a script.

use std::env;
use std::process::ExitCode;
use std::sync::atomic::Ordering;
use std::time::{Duration, Instant};

use model::check::{tally, World};
use model::engine::Engine;
use model::generate;
use model::posix::{in_child, watchdog, End, Placement, Shared};
use model::random::Random;
use model::script::{self, Line};
use model::shrink::shrink;

/// Seconds after which a run, or the replay of its lines, is taken for hung.
const RUN_PATIENCE: u32 = 60;
const REPLAY_PATIENCE: u32 = 3;

const FAILED: i32 = 1;

fn main() -> ExitCode {
    let numbers: Option<Vec<u64>> = env::args().skip(1).map(|word| word.parse().ok()).collect();
    let (seconds, seed, first) = match numbers.as_deref() {
        Some(&[seconds, seed]) => (seconds, seed, 0),
        Some(&[seconds, seed, first]) => (seconds, seed, first),
        _ => {
            eprintln!("soak SECONDS SEED [RUN]");
            return ExitCode::from(2);
        }
    };
    let shared = Shared::new();
    println!("the model beside {:?}, {seconds} seconds, seed {seed}, from run {first}", Engine::second());
    let end = in_child(|| make_runs(shared, Duration::from_secs(seconds), seed, first));
    print_counts(shared);
    if end == End::Exit(0) {
        println!("no failure");
        return ExitCode::SUCCESS;
    }
    report_failure(shared, seed, end);
    ExitCode::FAILURE
}

/// Each run's numbers follow from the seed and the run's own number.
fn random_of(seed: u64, run: u64) -> Random {
    Random::new(seed.wrapping_mul(0x1_0000_0001).wrapping_add(run))
}

/// Half of the runs have guard pages around the second engine's arrays.
fn placement_of(run: u64) -> Placement {
    match run % 4 {
        0 => Placement::BeforeGuard,
        1 => Placement::AfterGuard,
        _ => Placement::Plain,
    }
}

/// Runs until the time is over or a check fails.
fn make_runs(shared: &'static Shared, time: Duration, seed: u64, first: u64) -> i32 {
    let start = Instant::now();
    let mut worlds = [0, 1, 2].map(|run| World::new(placement_of(run), shared, false));
    for run in first.. {
        shared.run.store(run, Ordering::Relaxed);
        if start.elapsed() >= time {
            break;
        }
        watchdog(RUN_PATIENCE);
        let world = &mut worlds[(run % 4).min(2) as usize];
        if let Err(message) = generate::run(world, random_of(seed, run)) {
            eprintln!("{message}");
            return FAILED;
        }
    }
    0
}

fn print_counts(shared: &Shared) {
    let count = |place: usize| shared.tally[place].load(Ordering::Relaxed);
    println!("runs {}, layouts {}, calls {}", count(tally::RUNS), count(tally::FORMATS), count(tally::CALLS));
    println!("answers: done {}, cut {}, sector {}", count(tally::DONE), count(tally::CUT), count(tally::SECTOR));
    let refusals: Vec<String> =
        (1..=16).map(|number| format!("{number}: {}", count(tally::REFUSED + number))).collect();
    println!("refusals: {}", refusals.join(", "));
    println!(
        "contents against the book {}, reads against the book {}",
        count(tally::AGAINST_BOOK),
        count(tally::READS_AGAINST_BOOK)
    );
    println!(
        "opened for reading {} (after a recovery {}), by their reader for writing {}",
        count(tally::OPEN_READS),
        count(tally::OPEN_READS_RECOVERING),
        count(tally::UPGRADES)
    );
    println!(
        "calls with readers {} (several of one file {}), each shown the decided pages",
        count(tally::READERS_SHOWN),
        count(tally::SEVERAL_READERS)
    );
    println!(
        "looks {} (at pages of a decided record {}, of an open one {}), against the book {}",
        count(tally::LOOKS),
        count(tally::LOOKS_AT_DECIDED),
        count(tally::LOOKS_AT_OPEN),
        count(tally::LOOKS_AGAINST_BOOK)
    );
    println!("files opened by clients that didn't hold them {}, each as looked at", count(tally::OPENED_AS_LOOKED));
    println!(
        "questions {} (answered on sound volumes {}, on unsound ones {}, refused {}), all maps counted {} times",
        count(tally::QUESTIONS),
        count(tally::SPARE_SOUND),
        count(tally::SPARE_UNSOUND),
        count(tally::SPARE_REFUSED),
        count(tally::MAPS_COUNTED)
    );
    println!(
        "calls cut at every store {}, shorter budgets tried {}, listings {}",
        count(tally::CUT_SWEEPS),
        count(tally::PREFIXES),
        count(tally::LISTINGS)
    );
    println!(
        "flipped bytes {} (still sound {}), volumes made up {} (sound {})",
        count(tally::FLIPS),
        count(tally::FLIPS_SOUND),
        count(tally::CRAFTED),
        count(tally::CRAFTED_SOUND)
    );
}

/// Finds the lines of the failed run, makes them few and prints them.
fn report_failure(shared: &'static Shared, seed: u64, end: End) {
    let run = shared.run.load(Ordering::Relaxed);
    let placement = placement_of(run);
    println!("run {run} of seed {seed} failed ({end:?}, arrays {placement:?})");

    shared.cut_text(0);
    in_child(|| {
        watchdog(RUN_PATIENCE);
        let mut world = World::new(placement, shared, true);
        i32::from(generate::run(&mut world, random_of(seed, run)).is_err())
    });
    let lines: Vec<Line> = shared.text().lines().filter_map(parse_traced).collect();
    if !fails(&lines, placement, shared) {
        println!("its {} lines don't fail when they are played again", lines.len());
        return;
    }
    println!("{} lines, shrinking", lines.len());
    let short = shrink(lines, |lines| fails(lines, placement, shared));
    println!("--- script of {} lines", short.len());
    short.iter().for_each(|line| println!("{line}"));
    println!("--- {}", failure_of(&short, placement, shared));
}

/// A traced line; a byte that is no session stands there as a remark.
fn parse_traced(text: &str) -> Option<Line> {
    match text.strip_prefix("# session ") {
        Some(marks) => marks.parse().ok().map(Line::Session),
        None => script::parse(text.as_bytes()),
    }
}

/// Plays the lines in a child, so that a crash counts as a failure as well.
fn fails(lines: &[Line], placement: Placement, shared: &'static Shared) -> bool {
    shared.cut_text(0);
    let end = in_child(|| {
        watchdog(REPLAY_PATIENCE);
        // A panic is a failure like any other here.
        std::panic::set_hook(Box::new(|_| ()));
        let mut world = World::new(placement, shared, false);
        for line in lines {
            if let Err(message) = world.play(line) {
                shared.add_text(&message);
                return FAILED;
            }
        }
        0
    });
    if shared.text_length() == 0 {
        shared.add_text(&format!("{end:?}"));
    }
    end != End::Exit(0)
}

/// What is wrong with a script that fails.
fn failure_of(lines: &[Line], placement: Placement, shared: &'static Shared) -> String {
    fails(lines, placement, shared);
    shared.text()
}
