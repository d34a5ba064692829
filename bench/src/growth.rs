//! How calls grow with the number of files, pages, entries and reading holds.

use crate::bars::{ratio, Bars};
use crate::call::{Call, Function};
use crate::place::Place;
use crate::scene::Scene;
use crate::stage::{self, BUDGET};

const CLIENTS: u8 = 2;
/// The clients that hold files for reading, where some do.
const READERS: u8 = 3;

pub fn print(bars: &mut Bars) {
    println!("\n2. GROWTH: instructions of the library, and library / Rust");
    print_series("files", "of 8 pages in 16 slots, all held, with an entry each", &[1, 2, 4, 8, 16], of_files, bars);
    print_series("pages", "in a file of twice as many slots, no entry", &[1, 2, 8, 30, 60, 90, 120], of_pages, bars);
    let entries = [0, 1, 2, 4, 8, 16, 32, 48, 61, 62];
    print_series("entries", "in a file of 120 pages; the 63rd is refused by 12", &entries, of_entries, bars);
    let holds = [1, 2, 4, 8, 16].map(|files| READERS * files);
    print_series("holds", "for reading: three clients read all files, of 8 pages in 16 slots", &holds, of_holds, bars);
}

/// The calls of a row.
type Row = [Scene; 4];

fn of_files(count: u8) -> Row {
    let writes = (1..=count).map(|file| (file, 0)).collect();
    of_writer(&Place::new(CLIENTS, [8, 16].repeat(count.into()), writes), (count, 1))
}

fn of_pages(count: u8) -> Row {
    of_writer(&Place::new(CLIENTS, vec![count, 2 * count], vec![]), (1, count - 1))
}

fn of_entries(count: u8) -> Row {
    let writes = (0..count).map(|page| (1, page)).collect();
    of_writer(&Place::new(CLIENTS, vec![120, 240], writes), (1, count))
}

/// The last of the readers opens its last file, reads it and ends.
fn of_holds(count: u8) -> Row {
    let files = count / READERS;
    let read = Place::new(READERS + 1, [8, 16].repeat(files.into()), vec![]).read();
    let mut but_last = read.clone();
    but_last.session.reading[usize::from(READERS) - 1] &= !(1 << (files - 1));
    [
        Scene::on_stage("begin", &read, Function::Begin, &[READERS + 1, BUDGET]),
        Scene::on_stage("open_read", &but_last, Function::OpenRead, &[READERS, files, BUDGET]),
        Scene::on_stage("read", &read, Function::Read, &[READERS, files, 0]),
        Scene::on_stage("commit", &read, Function::Commit, &[READERS, BUDGET]),
    ]
}

/// The last client has made the place's writes, and the page is written next.
fn of_writer(place: &Place, (file, page): (u8, u8)) -> Row {
    let written = place.written(1, &place.writes);
    [
        Scene::new("is_sound", &written, Call::new(Function::IsSound, vec![])),
        Scene::on_stage("begin", &written, Function::Begin, &[1, BUDGET]),
        Scene::new("write", &written, stage::write(written.session, CLIENTS, file, page)),
        Scene::on_stage("commit", &written, Function::Commit, &[CLIENTS, BUDGET]),
    ]
}

fn print_series(name: &'static str, what: &str, counts: &[u8], row: fn(u8) -> Row, bars: &mut Bars) {
    println!("\n{name} {what}");
    let titles = row(counts[0]).map(|scene| format!("{:>10}{:>7}", scene.name, "ratio"));
    println!("{name:>8}{}", titles.concat());
    for &count in counts {
        let cells = row(count).map(|scene| {
            let counts = scene.instructions();
            bars.instructions(&format!("{name} {count}"), scene.name, counts);
            format!("{:10}{:7.2}", counts[0], ratio(counts[0], counts[1]))
        });
        println!("{count:8}{}", cells.concat());
    }
}
