//! Measures what each call costs, and sets it beside the same call in Rust;
//! and how stores wear the sectors. Ends with status 1 if a bar isn't met.

mod bars;
mod call;
mod choice;
mod clock;
mod code;
mod costs;
mod growth;
mod paint;
mod place;
mod reply;
mod rewrites;
mod rust_side;
mod scene;
mod scenes;
mod side;
mod spare;
mod stacks;
mod stage;
mod steps;
mod stored;
mod trampoline;
mod wear;
mod written;

use std::process::ExitCode;

fn main() -> ExitCode {
    let places = [place::small(), place::middle(), place::largest()];
    let mut bars = bars::Bars::default();
    costs::print(&places, &mut bars);
    growth::print(&mut bars);
    stacks::print(&places, &mut bars);
    code::print();
    written::print();
    wear::print();
    spare::print(&places, &mut bars);
    if bars.verdict() {
        ExitCode::SUCCESS
    } else {
        ExitCode::FAILURE
    }
}
