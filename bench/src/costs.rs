//! The table of every call: instructions and time, library and Rust.

use crate::bars::{ratio, Bars};
use crate::clock;
use crate::place::Place;
use crate::scenes::scenes;

pub fn print(places: &[Place], bars: &mut Bars) {
    println!("1. CALLS: instructions and nanoseconds of one call, and library / Rust");
    for place in places {
        print_place(place, bars);
    }
}

fn print_place(place: &Place, bars: &mut Bars) {
    let Place { name, sectors, clients, writes, .. } = place;
    println!("\n{name}: {sectors} sectors, {clients} clients, {} files, {} entries", place.files(), writes.len());
    let header = ["library", "Rust", "ratio", "ns", "Rust ns", "ratio"];
    println!("{:26}{}", "", header.map(|title| format!("{title:>9}")).concat());
    for scene in scenes(place) {
        let counts = scene.instructions();
        let [library, rust] = counts;
        let times = clock::times(&scene, scene.reply());
        let [library_ns, rust_ns] = times;
        bars.instructions(name, scene.name, counts);
        bars.time(name, scene.name, times);
        println!(
            "{:26}{library:9}{rust:9}{:9.2}{library_ns:9.0}{rust_ns:9.0}{:9.2}",
            scene.name,
            ratio(library, rust),
            library_ns / rust_ns
        );
    }
}
