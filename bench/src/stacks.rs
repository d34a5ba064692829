//! The peak stack of every call.

use crate::bars::{Bars, STACK_LIMIT};
use crate::place::Place;
use crate::scenes::scenes;

pub fn print(places: &[Place], bars: &mut Bars) {
    println!("\n3. STACK: peak bytes of one call, painted; {STACK_LIMIT} are allowed\n");
    let titles: String = places.iter().map(|place| format!("{:>9}{:>6}", place.name, "Rust")).collect();
    println!("{:26}{titles}", "");
    let rows: Vec<_> = places.iter().map(scenes).collect();
    for row in 0..rows[0].len() {
        let cells: Vec<String> = rows
            .iter()
            .zip(places)
            .map(|(scenes, place)| {
                let [library, rust] = scenes[row].stacks();
                bars.stack(place.name, scenes[row].name, library);
                format!("{library:9}{rust:6}")
            })
            .collect();
        println!("{:26}{}", rows[0][row].name, cells.concat());
    }
}
