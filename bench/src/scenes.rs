//! Every call on a volume, done, cut and refused.

use model::reply::RawSession;

use crate::call::{Argument, Call, Function};
use crate::place::Place;
use crate::scene::Scene;
use crate::stage::{self, Stage, BUDGET};

pub fn scenes(place: &Place) -> Vec<Scene> {
    let mut scenes = vec![format(place)];
    scenes.extend(starts(place));
    scenes.extend(opens(place));
    scenes.extend(pages(place));
    scenes.extend(looks(place));
    scenes.extend(spares(place));
    scenes.extend(ends(place));
    scenes.extend(refusals(place));
    scenes
}

fn format(place: &Place) -> Scene {
    Scene::new("format", &Stage::junk(place.sectors), stage::format(place.clients, &place.shape))
}

/// is_sound and begin.
fn starts(place: &Place) -> Vec<Scene> {
    let last = place.clients;
    let written = place.written(1, &place.writes);
    let mut decided = written.clone();
    decided.decide(last);
    vec![
        Scene::new("is_sound", &written, Call::new(Function::IsSound, vec![])),
        Scene::on_stage("begin", &written, Function::Begin, &[1, BUDGET]),
        Scene::on_stage("begin, with a recovery", &decided, Function::Begin, &[last, BUDGET]),
        Scene::on_stage("begin, others read all", &place.read(), Function::Begin, &[last, BUDGET]),
    ]
}

/// open and open_read.
fn opens(place: &Place) -> Vec<Scene> {
    let first = [place.clients, 1, BUDGET];
    let written = place.written(1, &place.writes);
    let but_first = place.written(2, &place.writes);
    let mut begun = written.clone();
    begun.decide(place.clients).begin(1);
    let recovering = [1, place.files(), BUDGET];
    vec![
        Scene::on_stage("open", &but_first, Function::Open, &first),
        Scene::on_stage("open, held already", &written, Function::Open, &first),
        Scene::on_stage("open, with a recovery", &begun, Function::Open, &recovering),
        Scene::on_stage("open_read", &but_first, Function::OpenRead, &first),
        Scene::on_stage("open_read, held already", &written, Function::OpenRead, &first),
        Scene::on_stage("open_read, with a recovery", &begun, Function::OpenRead, &recovering),
    ]
}

/// read and write. A page in the last slot of its file takes a lower one.
fn pages(place: &Place) -> Vec<Scene> {
    let last = place.clients;
    let (&(file, page), before) = place.writes.split_last().expect("a write");
    let (old_file, old_page) = place.unwritten();
    let written = place.written(1, &place.writes);
    let write = stage::write(written.session, last, file, page);
    let unwritten = place.written(1, before);
    let mut in_last_slot = unwritten.clone();
    in_last_slot.volume[256 * place.last_header() + 8 + usize::from(page)] = place.last_slot();
    vec![
        Scene::on_stage("read, own write", &written, Function::Read, &[last, file, page]),
        Scene::on_stage("read, by the map", &written, Function::Read, &[last, old_file, old_page]),
        Scene::on_stage("read, by a reader", &place.read(), Function::Read, &[1, old_file, old_page]),
        Scene::new("write, new page", &unwritten, write.clone()),
        Scene::new("write, from slot 0 again", &in_last_slot, write.clone()),
        Scene::new("write, the same page again", &written, write),
    ]
}

/// look: nobody holds the file, or the last client does, with all its entries.
fn looks(place: &Place) -> Vec<Scene> {
    let &(file, page) = place.writes.last().expect("a write");
    let (old_file, old_page) = place.unwritten();
    let pages = place.shape[2 * usize::from(file) - 2];
    let free = Stage::format(place.sectors, place.clients, &place.shape);
    let open = place.written(1, &place.writes);
    let mut decided = open.clone();
    decided.decide(place.clients);
    vec![
        Scene::new("look, nobody holds it", &free, stage::look(file, page)),
        Scene::new("look, record open", &open, stage::look(file, page)),
        Scene::new("look, decided, last entry", &decided, stage::look(file, page)),
        Scene::new("look, decided, by the map", &decided, stage::look(old_file, old_page)),
        Scene::new("look, refused by 9", &decided, stage::look(file, pages)),
    ]
}

/// spare of the last file. A wrong byte behind the map, as in the refusals
/// below, doesn't make it refuse: the header that is refused has a wrong mark.
fn spares(place: &Place) -> Vec<Scene> {
    let last = place.files();
    let free = Stage::format(place.sectors, place.clients, &place.shape);
    let open = place.written(1, &place.writes);
    let mut unmarked = open.clone();
    unmarked.volume[256 * place.last_header() + 1] ^= 1;
    vec![
        Scene::new("spare, nobody holds it", &free, stage::spare(last)),
        Scene::new("spare, record open", &open, stage::spare(last)),
        Scene::new("spare, refused by 1", &unmarked, stage::spare(last)),
        Scene::new("spare, refused by 6", &open, stage::spare(last + 1)),
    ]
}

/// commit, abort and list.
fn ends(place: &Place) -> Vec<Scene> {
    let last = place.clients;
    let written = place.written(1, &place.writes);
    vec![
        Scene::on_stage("commit", &written, Function::Commit, &[last, BUDGET]),
        Scene::on_stage("commit, cut after a store", &written, Function::Commit, &[last, 1]),
        Scene::on_stage("abort", &written, Function::Abort, &[last, BUDGET]),
        Scene::new("list", &written, Call::new(Function::List, vec![Argument::Text])),
    ]
}

/// The volume that isn't sound has a wrong last byte in the last header. The
/// session that is none has the mark of a fifth client.
fn refusals(place: &Place) -> Vec<Scene> {
    let last = place.clients;
    let written = place.written(1, &place.writes);
    let mut unsound = written.clone();
    unsound.volume[256 * place.last_header() + 255] = 1;
    let no_session = Stage { session: RawSession::of_marks(16), ..written.clone() };
    let (file, page) = place.writes[0];
    let short = stage::write_bytes(written.session, last, file, page, vec![0; 255]);
    vec![
        Scene::on_stage("begin, refused by 1", &unsound, Function::Begin, &[1, BUDGET]),
        Scene::on_stage("begin, refused by 2", &no_session, Function::Begin, &[last, BUDGET]),
        Scene::on_stage("begin, refused by 4", &written, Function::Begin, &[last, BUDGET]),
        Scene::new("write, refused by 10", &written, short),
    ]
}

#[cfg(test)]
mod tests {
    use super::*;
    use crate::place::{largest, middle, small};

    /// What the name says of the reply: done, cut, refused, a sector or a count.
    fn kind(scene: &Scene) -> u8 {
        match scene.call.function {
            _ if scene.name.contains("refused") => 2,
            _ if scene.name.contains("cut") => 1,
            Function::Read | Function::Look => 3,
            Function::Spare => 4,
            _ => 0,
        }
    }

    /// A session without holds would be measured for one with many.
    #[test]
    fn readers_hold_all_files() {
        let sessions = [small(), middle(), largest()].map(|place| place.read().session);
        let [small, middle, largest] = sessions.map(|session| (session.active, session.reading));
        assert_eq!(small, (1, [0b11, 0, 0, 0]));
        assert_eq!(middle, (7, [0b1111, 0b1111, 0b1111, 0]));
        assert_eq!(largest, (7, [0xFFFF, 0xFFFF, 0xFFFF, 0]));
    }

    /// A page by the map would be measured for one that an entry has.
    #[test]
    fn looks_find_what_the_names_say() {
        let numbers = |place: &Place| looks(place).iter().map(|scene| scene.reply().number()).collect::<Vec<_>>();
        assert_eq!(numbers(&small()), [8, 8, 9, 5, 9]);
        assert_eq!(numbers(&largest()), [642, 642, 762, 700, 9]);
    }

    /// A transaction takes no slot from the count.
    #[test]
    fn spares_count_what_the_map_leaves() {
        let numbers = |place: &Place| spares(place).iter().map(|scene| scene.reply().number()).collect::<Vec<_>>();
        assert_eq!(numbers(&small()), [2, 2, 1, 6]);
        assert_eq!(numbers(&middle()), [30, 30, 1, 6]);
        assert_eq!(numbers(&largest()), [120, 120, 1, 6]);
    }

    /// A call that is refused by mistake would be measured for a done one.
    #[test]
    fn replies_are_as_the_names_say() {
        for place in [small(), middle(), largest()] {
            for scene in scenes(&place) {
                if !matches!(scene.call.function, Function::IsSound | Function::List) {
                    assert_eq!(scene.reply().kind(), kind(&scene), "{}, {}", place.name, scene.name);
                }
            }
        }
    }
}
