//! The wear of a file whose pages are rewritten: a table of the stores to
//! slots and control sectors, and a histogram of the slots.

use model::random::Random;

use crate::bars::ratio;
use crate::rewrites::{Run, HEADER, PAGES, RECORD, SLOTS, TABLE};

const TRANSACTIONS: usize = 10_000;
const SEED: u64 = 101;

/// The slots in one line of a histogram, and its longest bar.
const GROUP: usize = 4;
const BAR: usize = 32;

pub fn print() {
    println!("\n6. WEAR: stores of {TRANSACTIONS} transactions that rewrite a page, before and after M-101\n");
    println!("one client, one file of {PAGES} pages in {SLOTS} slots");
    let mut random = Random::new(SEED);
    let pages: Vec<u8> = (0..TRANSACTIONS).map(|_| random.between(0, PAGES - 1)).collect();
    let runs = [Run::new("always page 0", &[0; TRANSACTIONS]), Run::new("a random page", &pages)];
    print_table(&runs);
    runs.iter().for_each(print_histogram);
}

/// What a row of the table shows: of the stores to each slot, and of the run.
type Cell = fn(&[u64], &Run) -> String;

const ROWS: [(&str, Cell); 9] = [
    ("slots, lowest", |slots, _| lowest(slots).to_string()),
    ("slots, highest", |slots, _| highest(slots).to_string()),
    ("slots, mean", |slots, _| format!("{:.2}", ratio(slots.iter().sum(), slots.len() as u64))),
    ("slots with a store", |slots, _| slots.iter().filter(|&&stores| stores > 0).count().to_string()),
    ("table", |_, run| run.control[TABLE].to_string()),
    ("record", |_, run| run.control[RECORD].to_string()),
    ("header", |_, run| run.control[HEADER].to_string()),
    ("record / highest slot", |slots, run| times_highest(run.control[RECORD], slots)),
    ("header / highest slot", |slots, run| times_highest(run.control[HEADER], slots)),
];

/// Before and after of each run, in columns.
fn print_table(runs: &[Run]) {
    println!("{:26}{}", "", runs.iter().map(|run| format!("{:>20}", run.name)).collect::<String>());
    println!("{:26}{}", "", format!("{:>10}{:>10}", "before", "after").repeat(runs.len()));
    for (name, cell) in ROWS {
        let cells = runs.iter().map(|run| format!("{:>10}{:>10}", cell(&run.before, run), cell(&run.after, run)));
        println!("{name:26}{}", cells.collect::<String>());
    }
}

/// Before and after side by side, with bars of one scale.
fn print_histogram(run: &Run) {
    println!("\n{}, by groups of {GROUP} slots", run.name);
    println!("{:8}{:>8} {:BAR$}{:>8}", "slots", "before", "", "after");
    let [before, after] = [&run.before, &run.after].map(|slots| groups(slots));
    let most = highest(&before).max(highest(&after));
    for (number, (&before, &after)) in before.iter().zip(&after).enumerate() {
        let first = GROUP * number;
        let slots = format!("{first:2} to {:2}", first + GROUP - 1);
        let line = format!("{slots:8}{before:8} {:BAR$}{after:8} {}", bar(before, most), bar(after, most));
        println!("{}", line.trim_end());
    }
}

fn groups(slots: &[u64]) -> Vec<u64> {
    slots.chunks(GROUP).map(|group| group.iter().sum()).collect()
}

fn bar(stores: u64, most: u64) -> String {
    "#".repeat((BAR as f64 * stores as f64 / most as f64).round() as usize)
}

fn lowest(stores: &[u64]) -> u64 {
    stores.iter().copied().min().unwrap_or(0)
}

fn highest(stores: &[u64]) -> u64 {
    stores.iter().copied().max().unwrap_or(0)
}

/// How many times the stores of the most used slot these are.
fn times_highest(stores: u64, slots: &[u64]) -> String {
    format!("{:.1}", ratio(stores, highest(slots)))
}
