//! The programs `run_script` and `list_volume` beside the model: on random
//! scripts, right and wrong, and on volumes, whole and damaged. Then the
//! program `small_volumes`, which must write the model's small volumes.
//!
//!     programs DIRECTORY COUNT SEED

use std::io::{self, Write};
use std::path::Path;
use std::process::{Command, ExitCode, Stdio};
use std::{env, thread};

use model::engine::Engine;
use model::random::Random;
use model::script::{listing, run, MAX_INPUT};
use model::small;
use model::volume::{self, Session, SECTOR_SIZE};
use model::wrong_lines::WRONG_LINES;

fn main() -> ExitCode {
    let words: Vec<String> = env::args().collect();
    let [_, directory, count, seed] = &words[..] else {
        println!("usage: programs DIRECTORY COUNT SEED");
        return ExitCode::FAILURE;
    };
    let mut random = Random::new(seed.parse().expect("SEED is a number"));
    let count = count.parse().expect("COUNT is a number");
    let small_volumes = small::volumes();
    let agree = agrees(directory, "run_script", scripts(&mut random, count), played)
        && agrees(directory, "list_volume", volumes(&mut random, count), listed)
        && writes(directory, "small_volumes", &small_volumes.concat());
    if !agree {
        return ExitCode::FAILURE;
    }
    let small = small_volumes.len();
    println!("programs: {count} scripts, {count} volumes and {small} small volumes, no difference from the model");
    ExitCode::SUCCESS
}

/// Whether the program prints what the model does, on each of the inputs.
fn agrees(directory: &str, name: &str, inputs: impl Iterator<Item = Vec<u8>>, model: fn(&[u8]) -> Vec<u8>) -> bool {
    let program = Path::new(directory).join(name);
    let mut inputs = inputs;
    match inputs.find(|input| output(&program, input) != model(input)) {
        None => true,
        Some(input) => {
            println!("{name} differs from the model on this input:");
            io::stdout().write_all(&input).expect("the output takes all");
            false
        }
    }
}

/// What the program prints for the input.
fn output(program: &Path, input: &[u8]) -> Vec<u8> {
    let mut child =
        Command::new(program).stdin(Stdio::piped()).stdout(Stdio::piped()).spawn().expect("the program runs");
    let mut pipe = child.stdin.take().expect("its input is a pipe");
    thread::scope(|scope| {
        // The program needn't read all of an input that is too long.
        scope.spawn(move || pipe.write_all(input).unwrap_or(()));
        child.wait_with_output().expect("the program ends").stdout
    })
}

/// What the model's `run_script` prints for the script.
fn played(script: &[u8]) -> Vec<u8> {
    if script.len() > MAX_INPUT {
        return b"too long\n".into();
    }
    let mut out = Vec::new();
    run(Engine::Model, script, &mut out).expect("a vector takes all");
    out
}

/// What the model's listing has for the volume.
fn listed(volume: &[u8]) -> Vec<u8> {
    listing(Engine::Model, volume).into_bytes()
}

// -------------------------------------------------------------- the scripts

/// Each wrong line between two right ones, scripts of 65,535 to 65,537 bytes,
/// and scripts of many lines.
fn scripts(random: &mut Random, count: usize) -> impl Iterator<Item = Vec<u8>> + '_ {
    let wrong = WRONG_LINES.map(|line| format!("session\n{line}\nsession\n").into_bytes());
    let longest = [MAX_INPUT - 1, MAX_INPUT, MAX_INPUT + 1].map(|length| {
        let mut script = vec![b'#'; length];
        script[length - 1] = b'\n';
        script
    });
    wrong.into_iter().chain(longest).chain((0..count).map(|_| script(random)))
}

/// A transaction that writes a page, which goes on to the next free real.
const REWRITE: &str = "begin 1\nopen 1 2\nwrite 1 2 0 7 256\nread 1 2 0\nlook 2 0\ncommit 1\nlook 2 0\n";

/// Both clients read file 1, and client 1 writes to it once it reads alone.
const READERS: &str =
    "session 0\nbegin 1\nbegin 2\nopen_read 1 1\nopen_read 2 1\nsession\nwrite 1 1 0 8 256\nopen 1 1\n\
    abort 2\nopen 1 1\nwrite 1 1 0 8 256\nsession\n";

/// Client 1's commit is cut, and client 2 reads its file.
const ORPHANED: &str = "session 0\nbegin 1\nopen 1 1\nwrite 1 1 0 7 256\ncommit 1 1\nbegin 2\nopen_read 2 1\n\
    read 2 1 0\nsession\n";

/// A look at every page.
const LOOKS: &str = "look 1 0\nlook 1 1\nlook 2 0\n";

/// Looks before and after a commit of both files, which is cut at any store.
fn looks(random: &mut Random) -> String {
    let write = "session 0\nbegin 2\nopen 2 1\nopen 2 2\nwrite 2 1 1 9 256\nwrite 2 2 0 9 256\n";
    format!("{write}{LOOKS}commit 2 {}\n{LOOKS}session\n", random.below(5))
}

/// Questions about both files and about one that isn't there.
const SPARES: &str = "spare 1\nspare 2\nspare 3\n";

/// Questions in a transaction, after its commit, which is cut or not, and
/// after a poke in a control sector; then V is laid out anew.
fn spares(random: &mut Random) -> String {
    let write = "session 0\nbegin 1\nopen 1 1\nwrite 1 1 0 9 256\n";
    let sector = random.pick(&[0, 1, 2, 3, 7]).unwrap_or(0);
    let (address, byte) = (256 * sector + random.below(16), random.below(4));
    let commit = random.below(4);
    format!("{write}{SPARES}commit 1 {commit}\n{SPARES}poke {address} {byte}\n{SPARES}list\nformat 2816 2 2 3 1 3\n")
}

fn script(random: &mut Random) -> Vec<u8> {
    let mut text = String::from("format 2816 2 2 3 1 3\n");
    if random.chance(30) {
        text += &REWRITE.repeat(random.below(6));
    }
    for _ in 0..random.below(40) {
        match random.below(20) {
            0 => text += READERS,
            1 => text += ORPHANED,
            2 => text += &looks(random),
            3 => text += &spares(random),
            _ => {
                text += &line(random);
                text.push('\n');
            }
        }
    }
    let mut text = text.into_bytes();
    if random.chance(30) {
        damage(random, &mut text);
    }
    text
}

const WORDS: [&str; 17] = [
    "begin",
    "open",
    "open_read",
    "write",
    "read",
    "look",
    "spare",
    "commit",
    "abort",
    "session",
    "reading",
    "poke",
    "dump",
    "list",
    "format",
    "# remark",
    "",
];

/// A line, most often with small numbers in the right places.
fn line(random: &mut Random) -> String {
    if random.chance(1) {
        return String::from(random.pick(&WRONG_LINES).unwrap_or(""));
    }
    let word = random.pick(&WORDS).unwrap_or("");
    let mut line = String::from(word);
    for place in 1..=arguments(random, word) {
        let number = match (word, place) {
            ("write", 5) if random.chance(95) => 256,
            ("format", 1) => [0, 300, 2560, 2816, 65_536, 65_792, 262_144, 262_400, 262_401][random.below(9)],
            ("poke", 1) => random.below(2900),
            ("dump", 1) => random.below(12),
            ("session", 1) => random.below(17),
            ("reading", _) if random.chance(80) => 1 + random.below(2),
            ("reading", 1) => 1 + random.below(4),
            ("reading", 2) => 1 + random.below(16),
            _ if random.chance(97) => random.below(4),
            _ => [255, 256, 512, 513, 999_999, 1_000_000, usize::MAX][random.below(7)],
        };
        line += &format!(" {number}");
    }
    line
}

/// How many numbers follow the word: one too few or too many now and then.
fn arguments(random: &mut Random, word: &str) -> usize {
    let right = match word {
        "session" if random.chance(50) => 0,
        "begin" | "commit" | "abort" | "session" | "dump" | "spare" => 1,
        "open" | "open_read" | "look" | "reading" | "poke" => 2,
        "read" => 3,
        "write" => 5,
        "format" => 2 + 2 * random.below(4),
        _ => 0,
    };
    let takes_budget = matches!(word, "begin" | "commit" | "abort" | "open" | "open_read" | "write");
    match random.below(100) {
        0 => right + 2,
        1 if right > 0 => right - 1,
        2..30 if takes_budget => right + 1,
        _ => right,
    }
}

/// Another byte somewhere, one left out, or one put in.
fn damage(random: &mut Random, text: &mut Vec<u8>) {
    let place = random.below(text.len());
    let byte = random.pick(b" \n#0129a\r\0\xFF").unwrap_or(0);
    match random.below(3) {
        0 => text[place] = byte,
        1 => text.insert(place, byte),
        _ => drop(text.remove(place)),
    }
}

// -------------------------------------------------------------- the volumes

/// Volumes in use, half of them damaged in a control sector, and volumes of
/// eight lengths around 0 and around the longest that is listed.
fn volumes(random: &mut Random, count: usize) -> impl Iterator<Item = Vec<u8>> + '_ {
    let around = [0, 1, 255, 256, MAX_INPUT - 256, MAX_INPUT, MAX_INPUT + 1, MAX_INPUT + 256].map(|length| {
        let mut volume = vec![0; length];
        let _ = volume::format(&mut volume, 2, &[1, 1, 1, 1]);
        volume
    });
    around.into_iter().chain((0..count).map(|_| {
        let mut volume = in_use(random);
        if random.chance(50) {
            let place = random.below(volume.len().min(1024));
            volume[place] = random.byte();
        }
        volume
    }))
}

/// A volume of a random shape, after some calls of its clients.
fn in_use(random: &mut Random) -> Vec<u8> {
    let clients = random.between(1, 4);
    let files = random.between(1, 16);
    let shape: Vec<u8> = (0..files).flat_map(|_| pages_and_slots(random)).collect();
    let needed = 1 + usize::from(clients) + shape.chunks(2).map(|file| 1 + usize::from(file[1])).sum::<usize>();
    let mut volume = vec![0; 256 * (needed + random.below(3))];
    let _ = volume::format(&mut volume, clients, &shape);
    let mut session = Session::new();
    for _ in 0..random.below(30) {
        session = call(random, &mut volume, session, clients, files);
    }
    volume
}

fn pages_and_slots(random: &mut Random) -> [u8; 2] {
    let pages = random.between(1, 15);
    [pages, pages + random.between(0, 15)]
}

/// One call, cut now and then; the session that it hands back.
fn call(random: &mut Random, volume: &mut [u8], session: Session, clients: u8, files: u8) -> Session {
    let (client, file, page) = (random.between(1, clients), random.between(1, files), random.below(4) as u8);
    let budget = if random.chance(10) { random.between(0, 3) } else { 255 };
    let (session, _) = match random.below(9) {
        0 => volume::begin(volume, session, client, budget),
        1..4 => volume::open(volume, session, client, file, budget),
        4 => volume::open_read(volume, session, client, file, budget),
        5..8 => volume::write(volume, session, client, file, page, &[7; 256], budget),
        _ => volume::commit(volume, session, client, budget),
    };
    session
}

// -------------------------------------------------------- the small volumes

/// Whether the program writes just these small volumes, whatever its input.
fn writes(directory: &str, name: &str, wanted: &[u8]) -> bool {
    let program = Path::new(directory).join(name);
    let inputs: [(&str, &[u8]); 2] = [("on an empty input", b""), ("on an input of bytes", b"list\n")];
    for (when, input) in inputs {
        let written = output(&program, input);
        if written != wanted {
            println!("{name} differs from the model {when}:");
            println!("{}", difference(&written, wanted));
            return false;
        }
    }
    true
}

/// The first difference, what the volume with it is, and both numbers of
/// volumes.
fn difference(written: &[u8], wanted: &[u8]) -> String {
    let place = written.iter().zip(wanted).take_while(|(one, other)| one == other).count();
    let (index, offset) = (place / small::LENGTH, place % small::LENGTH);
    let byte = |bytes: &[u8]| bytes.get(place).map_or(String::from("nothing"), |byte| format!("{byte:02X}"));
    format!(
        "volume {index} (the first is 0), sector {}, byte {}: {} instead of {}; {}\n{} written, {} in the model",
        offset / SECTOR_SIZE,
        offset % SECTOR_SIZE,
        byte(written),
        byte(wanted),
        judgement(written.chunks(small::LENGTH).nth(index).unwrap_or(&[]), wanted),
        number_of_volumes(written),
        number_of_volumes(wanted),
    )
}

/// What a volume that the program wrote is to the model.
fn judgement(volume: &[u8], wanted: &[u8]) -> String {
    match wanted.chunks(small::LENGTH).position(|other| other == volume) {
        Some(index) => format!("it is the model's volume {index}"),
        None if volume.len() < small::LENGTH => format!("only {} of its bytes are there", volume.len()),
        None if volume::is_sound(volume) => String::from("it is sound, but none of the model's"),
        None => String::from("it isn't sound"),
    }
}

/// How many volumes the bytes are, and how many bytes are left over.
fn number_of_volumes(bytes: &[u8]) -> String {
    match bytes.len() % small::LENGTH {
        0 => format!("{} volumes", bytes.len() / small::LENGTH),
        left => format!("{} volumes and {left} bytes", bytes.len() / small::LENGTH),
    }
}
