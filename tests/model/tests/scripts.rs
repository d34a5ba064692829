//! The scripts of the examples, and what the reader takes.

use std::fs;
use std::path::Path;

use model::engine::Engine;
use model::script::{parse, run};
use model::wrong_lines::WRONG_LINES;

/// What a script prints, the same on both engines.
fn output_of(script: &[u8]) -> String {
    let [first, second] = [Engine::Model, Engine::second()].map(|engine| {
        let mut out = Vec::new();
        run(engine, script, &mut out).unwrap();
        String::from_utf8(out).unwrap()
    });
    assert_eq!(first, second);
    first
}

#[test]
fn examples() {
    let folder = Path::new(env!("CARGO_MANIFEST_DIR")).join("../../examples/scripts");
    let names =
        (1..=11).map(|number| format!("e{number}")).chain(["rewrites", "readers", "looks", "spare"].map(String::from));
    for name in names {
        let script = fs::read(folder.join(format!("{name}.txt"))).unwrap();
        let expected = fs::read_to_string(folder.join(format!("{name}.out"))).unwrap();
        assert_eq!(output_of(&script), expected, "{name}");
    }
}

#[test]
fn lines_that_are_not_understood() {
    for line in WRONG_LINES {
        assert_eq!(parse(line.as_bytes()), None, "{line:?}");
    }
    assert_eq!(parse(b""), None);
    let many = "format 2816 1".to_string() + &" 1".repeat(65);
    assert_eq!(parse(many.as_bytes()), None);
    assert!(parse(&many.as_bytes()[..many.len() - 2]).is_some());
}

#[test]
fn lines_come_back_as_they_were() {
    let right = [
        "format 2816 2 2 3 1 3",
        "format 0 255",
        "begin 1",
        "begin 1 0",
        "open 255 0 254",
        "read 1 2 3",
        "look 1 0",
        "look 0 255",
        "look 255 0",
        "spare 1",
        "spare 0",
        "spare 255",
        "write 1 2 3 255 512",
        "write 1 2 3 0 0 7",
        "commit 4 1",
        "abort 0",
        "open_read 4 16",
        "open_read 255 0 254",
        "session",
        "session 15",
        "reading 1 1",
        "reading 4 16",
        "poke 999999 255",
        "dump 7",
        "list",
    ];
    for line in right {
        assert_eq!(parse(line.as_bytes()).unwrap().to_string(), line);
    }
    assert_eq!(parse(b"begin 1 255"), parse(b"begin 1"));
}

#[test]
fn a_run_ends_at_the_first_line_not_understood() {
    assert_eq!(
        output_of(b"# remark\n\nformat 2816 2 2 3 1 3\nbegin 1\nend\nbegin 2\n"),
        "done\ndone 1\nline 5: not understood\n"
    );
    assert_eq!(output_of(b"begin 1\n"), "refused 1\n");
    assert_eq!(output_of(b"list\n"), "not sound\n");
    assert_eq!(output_of(b"dump 0\n"), "line 1: not understood\n");
    assert_eq!(output_of(b"poke 0 0\n"), "line 1: not understood\n");
    assert_eq!(output_of(b"format 300 2 2 3 1 3\npoke 299 1\ndump 1\n"), "refused 13\nline 3: not understood\n");
    assert_eq!(output_of(b"format 2816 2 2 3 1 3\ndump 11\n"), "done\nline 2: not understood\n");
    assert_eq!(output_of(b""), "");
    assert_eq!(output_of(b"list"), "line 1: not understood\n");
}

#[test]
fn a_layout_gives_a_new_session() {
    let script = b"format 2816 2 2 3 1 3\nbegin 1\nformat 2816 2 2 3 1 3\nbegin 1\nformat 2816 0\ncommit 1\nbegin 1\n";
    assert_eq!(output_of(script), "done\ndone 1\ndone\ndone 1\nrefused 14\nrefused 5\ndone 2\n");
}

#[test]
fn a_session_can_be_set() {
    let script = b"format 2816 2 2 3 1 3\nbegin 1\nsession 0\ncommit 1\nsession 1\ncommit 1\nsession 4\nbegin 1\n";
    assert_eq!(output_of(script), "done\ndone 1\nrefused 5\ndone 2\nrefused 2\n");
}

/// On any volume, or none: the line makes no call.
#[test]
fn holds_are_added_to_the_session() {
    let script = b"session\nreading 4 1\nreading 1 16\nreading 1 2\nreading 4 1\nsession\n";
    assert_eq!(output_of(script), "session 0\nsession 0\nkiln 1 reads 2\nkiln 1 reads 16\nkiln 4 reads 1\n");
    let script = b"session 9\nreading 2 3\nsession\nsession 9\nsession\nreading 02 003\nsession 0\nsession\n";
    assert_eq!(output_of(script), "session 9\nkiln 2 reads 3\nsession 9\nsession 0\n");
}

#[test]
fn calls_take_and_hand_back_the_holds() {
    let script = b"format 2816 2 2 3 1 3\nbegin 2\nopen_read 2 1\nsession\nread 2 1 9\nopen_read 2 1 0\nsession\n\
        reading 2 2\ncommit 2\nsession\n";
    let reading = "session 2\nkiln 2 reads 1\n";
    let expected = format!("done\ndone 1\ndone 0\n{reading}refused 9\ndone 0\n{reading}done 2\nsession 0\n");
    assert_eq!(output_of(script), expected);
    // Refused, whatever is in the session.
    let script = b"format 2816 2 2 3 1 3\nreading 3 7\nbegin 1\nsession\nread 1 1 0\nsession 0\nbegin 1\n";
    assert_eq!(output_of(script), "done\nrefused 2\nsession 0\nkiln 3 reads 7\nrefused 2\ndone 1\n");
}

/// On any volume, or none, and whatever the session is.
#[test]
fn looks_print_what_reads_print() {
    let v = "format 2816 2 2 3 1 3\n";
    let zeros = "00".repeat(256);
    let script = format!("look 1 0\n{v}look 1 0\nlook 2 0\nlook 02 000\nlook 3 0\nlook 0 9\nlook 1 2\nlook 255 255\n");
    let found = format!("sector 4 {zeros}\nsector 8 {zeros}\nsector 8 {zeros}\n");
    let refused = "refused 6\nrefused 6\nrefused 9\nrefused 6\n";
    assert_eq!(output_of(script.as_bytes()), format!("refused 1\ndone\n{found}{refused}"));
    let script = format!("{v}session 12\nreading 3 7\nlook 1 1\nsession\npoke 0 0\nlook 1 1\nsession\n");
    let session = "session 12\nkiln 3 reads 7\n";
    assert_eq!(output_of(script.as_bytes()), format!("done\nsector 5 {zeros}\n{session}refused 1\n{session}"));
}

/// The old one while the transaction runs, the new one from the deciding store
/// on.
#[test]
fn a_look_prints_the_decided_page() {
    let script = b"format 2816 2 2 3 1 3\nbegin 1\nopen 1 2\nwrite 1 2 0 254 256\nlook 2 0\ncommit 1 1\nlook 2 0\n";
    let old = "00".repeat(256);
    let new: String = (0..256).map(|index| format!("{:02X}", (254 + index) % 256)).collect();
    let expected = format!("done\ndone 1\ndone 1\ndone 2\nsector 8 {old}\ncut 1\nsector 9 {new}\n");
    assert_eq!(output_of(script), expected);
}

/// On any volume, or none, and whatever the session is.
#[test]
fn questions_print_the_count() {
    let v = "format 2816 2 2 3 1 3\n";
    let script = format!("spare 1\nspare 0\n{v}spare 1\nspare 2\nspare 002\nspare 3\nspare 0\nspare 255\n");
    let expected = "refused 1\nrefused 1\ndone\nspare 1\nspare 2\nspare 2\nrefused 6\nrefused 6\nrefused 6\n";
    assert_eq!(output_of(script.as_bytes()), expected);
    let script = format!("{v}session 12\nreading 3 7\nspare 2\nsession\npoke 0 0\nspare 2\nsession\n");
    let session = "session 12\nkiln 3 reads 7\n";
    assert_eq!(output_of(script.as_bytes()), format!("done\nspare 2\n{session}refused 1\n{session}"));
    // Byte 3 of the header in sector 7 as it is, on a volume that isn't sound.
    let script = format!("{v}poke 1795 200\nspare 2\nlist\nbegin 1\npoke 1793 0\nspare 2\nspare 1\n");
    assert_eq!(output_of(script.as_bytes()), "done\nspare 200\nnot sound\nrefused 1\nrefused 1\nspare 1\n");
}

#[test]
fn a_layout_and_a_cut_leave_no_hold() {
    let v = "format 2816 2 2 3 1 3\n";
    for lines in ["format 2816 2 2 3 1 3\n", "format 2816 0\n", "begin 2 0\n", "abort 1 0\n", "open 1 1 0\n"] {
        let script = format!("{v}begin 1\nopen_read 1 1\n{lines}session\n");
        assert!(output_of(script.as_bytes()).ends_with("\nsession 0\n"), "{lines}");
    }
}

#[test]
fn long_volumes_are_not_listed() {
    assert_eq!(output_of(b"format 65792 1 1 1\nlist\n"), "done\ntoo long\n");
    assert_eq!(output_of(b"format 65536 1 1 1\nlist\n"), "done\nkiln 1 idle 0\nfile 1 kiln 0 pages 1 sectors 1\n");
}
