//! What spare costs beside the calls that test the whole volume.

use crate::bars::{ratio, Bars};
use crate::call::{Call, Function};
use crate::place::Place;
use crate::scene::Scene;
use crate::stage::{self, Stage};

pub fn print(places: &[Place], bars: &mut Bars) {
    println!("\n7. SPARE: instructions of the library, and spare's / those of a call that tests the whole volume\n");
    let titles = ["spare", "is_sound", "ratio", "allowed", "look", "ratio"];
    println!("{:26}{}", "", titles.map(|title| format!("{title:>9}")).concat());
    for place in places {
        let free = Stage::format(place.sectors, place.clients, &place.shape);
        print_row(place, "nobody holds it", &free, bars);
        print_row(place, "record open", &place.written(1, &place.writes), bars);
    }
}

fn print_row(place: &Place, state: &str, stage: &Stage, bars: &mut Bars) {
    let &(file, page) = place.writes.last().expect("a write");
    let whole = Call::new(Function::IsSound, vec![]);
    let calls = [("spare", stage::spare(file)), ("is_sound", whole), ("look", stage::look(file, page))];
    let [spare, is_sound, look] = calls.map(|(name, call)| Scene::new(name, stage, call).instructions()[0]);
    let (name, allowed) = (format!("{}, {state}", place.name), allowed(place));
    bars.spare(&name, [spare, is_sound], allowed);
    println!(
        "{name:26}{spare:9}{is_sound:9}{:9.3}{allowed:9.3}{look:9}{:9.3}",
        ratio(spare, is_sound),
        ratio(spare, look)
    );
}

/// It reads sector 0 and one header, and `is_sound` all control sectors: a
/// share of them, so that no other sector is tested in passing.
fn allowed(place: &Place) -> f64 {
    2.0 / f64::from(1 + place.clients + place.files())
}

#[cfg(test)]
mod tests {
    use super::*;
    use crate::place::{largest, middle, small};

    #[test]
    fn two_control_sectors_of_all_are_allowed() {
        assert_eq!([small(), middle(), largest()].map(|place| allowed(&place)), [2.0 / 5.0, 2.0 / 9.0, 2.0 / 21.0]);
    }
}
