//! Scripts of calls: one line each, read, printed and run.
//!
//! A line is a word and decimal numbers with single spaces between them,
//! ended by 0A. Empty lines and lines that begin with `#` are passed over.

use std::fmt;
use std::io::{self, Write};

use crate::call::{Answer, Call};
use crate::engine::Engine;
use crate::reply::RawSession;
use crate::volume::{MAX_CLIENTS, MAX_FILES, MAX_LISTING, SECTOR_SIZE};

/// The bytes that a script can lend: one sector more than a volume may have.
pub const MAX_VOLUME: usize = 262_400;
pub const MAX_SHAPE: usize = 64;
pub const MAX_DATA: usize = 512;
/// The longest script, and the longest volume of the listing program.
pub const MAX_INPUT: usize = 65_536;

/// One line that does something.
#[derive(Clone, Debug, PartialEq, Eq)]
pub enum Line {
    Format {
        length: usize,
        clients: u8,
        shape: Vec<u8>,
    },
    Call(Call<'static>),
    /// The session becomes these marks, a byte of bits, without holds.
    Session(u8),
    /// The session gets this hold for reading.
    Reading {
        client: u8,
        file: u8,
    },
    ShowSession,
    Poke {
        address: usize,
        byte: u8,
    },
    Dump(usize),
    List,
}

// ---------------------------------------------------------------- the data

/// The bytes 0, 1, 2 .. over and over: every data of a script is a part of it.
static RAMP: [u8; 255 + MAX_DATA] = ramp();

const fn ramp() -> [u8; 255 + MAX_DATA] {
    let mut bytes = [0; 255 + MAX_DATA];
    let mut index = 0;
    while index < bytes.len() {
        bytes[index] = (index % 256) as u8;
        index += 1;
    }
    bytes
}

/// Data of `length` bytes, at most 512; byte i is (seed + i) mod 256.
pub fn data(seed: u8, length: usize) -> &'static [u8] {
    &RAMP[usize::from(seed)..][..length]
}

// -------------------------------------------------------------- the reading

/// Reads one line without its 0A.
pub fn parse(text: &[u8]) -> Option<Line> {
    let mut words = text.split(|&byte| byte == b' ');
    let word = words.next()?;
    let numbers: Vec<usize> = words.map(number).collect::<Option<_>>()?;
    Some(match (word, &numbers[..]) {
        (b"format", &[length, clients, ref shape @ ..]) if length <= MAX_VOLUME && shape.len() <= MAX_SHAPE => {
            let shape = shape.iter().map(|&value| byte(value)).collect::<Option<_>>()?;
            Line::Format { length, clients: byte(clients)?, shape }
        }
        (b"session", []) => Line::ShowSession,
        (b"session", &[marks]) if marks < 16 => Line::Session(byte(marks)?),
        (b"reading", &[client @ 1..=MAX_CLIENTS, file @ 1..=MAX_FILES]) => {
            Line::Reading { client: byte(client)?, file: byte(file)? }
        }
        (b"poke", &[address, value]) => Line::Poke { address, byte: byte(value)? },
        (b"dump", &[sector]) => Line::Dump(sector),
        (b"list", []) => Line::List,
        _ => Line::Call(parse_call(word, &numbers)?),
    })
}

fn parse_call(word: &[u8], numbers: &[usize]) -> Option<Call<'static>> {
    Some(match (word, numbers) {
        (b"begin", &[client, ref rest @ ..]) => Call::Begin { client: byte(client)?, budget: budget(rest)? },
        (b"open", &[client, file, ref rest @ ..]) => {
            Call::Open { client: byte(client)?, file: byte(file)?, budget: budget(rest)? }
        }
        (b"open_read", &[client, file, ref rest @ ..]) => {
            Call::OpenRead { client: byte(client)?, file: byte(file)?, budget: budget(rest)? }
        }
        (b"read", &[client, file, page]) => Call::Read { client: byte(client)?, file: byte(file)?, page: byte(page)? },
        (b"look", &[file, page]) => Call::Look { file: byte(file)?, page: byte(page)? },
        (b"spare", &[file]) => Call::Spare { file: byte(file)? },
        (b"write", &[client, file, page, seed, length, ref rest @ ..]) if length <= MAX_DATA => Call::Write {
            client: byte(client)?,
            file: byte(file)?,
            page: byte(page)?,
            data: data(byte(seed)?, length),
            budget: budget(rest)?,
        },
        (b"commit", &[client, ref rest @ ..]) => Call::Commit { client: byte(client)?, budget: budget(rest)? },
        (b"abort", &[client, ref rest @ ..]) => Call::Abort { client: byte(client)?, budget: budget(rest)? },
        _ => return None,
    })
}

/// A decimal number: one digit or more and nothing else.
fn number(word: &[u8]) -> Option<usize> {
    if word.is_empty() {
        return None;
    }
    word.iter().try_fold(0usize, |value, digit| {
        let digit = digit.is_ascii_digit().then(|| usize::from(digit - b'0'))?;
        value.checked_mul(10)?.checked_add(digit)
    })
}

fn byte(value: usize) -> Option<u8> {
    value.try_into().ok()
}

/// The budget at the end of a line; 255 if it is left out.
fn budget(rest: &[usize]) -> Option<u8> {
    match *rest {
        [] => Some(255),
        [value] => byte(value),
        _ => None,
    }
}

// ------------------------------------------------------------- the printing

impl fmt::Display for Line {
    fn fmt(&self, f: &mut fmt::Formatter) -> fmt::Result {
        match self {
            Line::Format { length, clients, shape } => {
                write!(f, "format {length} {clients}")?;
                shape.iter().try_for_each(|number| write!(f, " {number}"))
            }
            Line::Call(call) => write!(f, "{call}"),
            Line::Session(marks @ ..16) => write!(f, "session {marks}"),
            // No script can give such a byte, so it stands there as a remark.
            Line::Session(marks) => write!(f, "# session {marks}"),
            Line::Reading { client, file } => write!(f, "reading {client} {file}"),
            Line::ShowSession => f.write_str("session"),
            Line::Poke { address, byte } => write!(f, "poke {address} {byte}"),
            Line::Dump(sector) => write!(f, "dump {sector}"),
            Line::List => f.write_str("list"),
        }
    }
}

/// The data of a call is taken to be a part of the ramp.
impl fmt::Display for Call<'_> {
    fn fmt(&self, f: &mut fmt::Formatter) -> fmt::Result {
        match *self {
            Call::Begin { client, .. } => write!(f, "begin {client}")?,
            Call::Open { client, file, .. } => write!(f, "open {client} {file}")?,
            Call::OpenRead { client, file, .. } => write!(f, "open_read {client} {file}")?,
            Call::Read { client, file, page } => write!(f, "read {client} {file} {page}")?,
            Call::Look { file, page } => write!(f, "look {file} {page}")?,
            Call::Spare { file } => write!(f, "spare {file}")?,
            Call::Write { client, file, page, data, .. } => {
                let seed = data.first().unwrap_or(&0);
                write!(f, "write {client} {file} {page} {seed} {}", data.len())?;
            }
            Call::Commit { client, .. } => write!(f, "commit {client}")?,
            Call::Abort { client, .. } => write!(f, "abort {client}")?,
        }
        match self.budget() {
            None | Some(255) => Ok(()),
            Some(budget) => write!(f, " {budget}"),
        }
    }
}

// -------------------------------------------------------------- the running

/// Runs a script on an engine and writes what its lines print.
pub fn run(engine: Engine, input: &[u8], out: &mut impl Write) -> io::Result<()> {
    let mut player = Player::new(engine);
    for (index, line) in input.split_inclusive(|&byte| byte == b'\n').enumerate() {
        // A rest without its 0A isn't a line.
        let understood = match line.split_last() {
            Some((b'\n', [] | [b'#', ..])) => true,
            Some((b'\n', text)) => match parse(text) {
                Some(line) => player.play(&line, out)?,
                None => false,
            },
            _ => false,
        };
        if !understood {
            return writeln!(out, "line {}: not understood", index + 1);
        }
    }
    Ok(())
}

/// What the listing program prints for a volume.
pub fn listing(engine: Engine, volume: &[u8]) -> String {
    if volume.len() > MAX_INPUT {
        return "too long\n".into();
    }
    let mut text = [0; MAX_LISTING];
    match engine.list(volume, &mut text) {
        0 => "not sound\n".into(),
        length => String::from_utf8_lossy(&text[..length]).into_owned(),
    }
}

/// The volume and session of a running script.
struct Player {
    engine: Engine,
    buffer: Vec<u8>,
    /// The volume is the first so many bytes of the buffer.
    length: usize,
    session: RawSession,
}

impl Player {
    fn new(engine: Engine) -> Player {
        Player { engine, buffer: vec![0; MAX_VOLUME], length: 0, session: RawSession::default() }
    }

    fn volume(&mut self) -> &mut [u8] {
        &mut self.buffer[..self.length]
    }

    /// Answers false if the line names a place outside the volume.
    fn play(&mut self, line: &Line, out: &mut impl Write) -> io::Result<bool> {
        let engine = self.engine;
        match line {
            Line::Format { length, clients, shape } => {
                self.length = *length;
                self.session = RawSession::default();
                match engine.format(self.volume(), *clients, shape).answer() {
                    Some(Answer::Refused(number)) => writeln!(out, "refused {number}")?,
                    Some(Answer::Done(0)) => writeln!(out, "done")?,
                    _ => return Err(no_reply()),
                }
            }
            Line::Call(call) => self.call(call, out)?,
            Line::Session(marks @ ..16) => self.session = RawSession::of_marks(*marks),
            Line::Session(_) => return Ok(false),
            Line::Reading { client, file } => self.session.add_hold(*client, *file),
            Line::ShowSession => writeln!(out, "{}", self.session)?,
            Line::Poke { address, byte } => match self.volume().get_mut(*address) {
                Some(place) => *place = *byte,
                None => return Ok(false),
            },
            Line::Dump(number) => match self.volume().chunks_exact(SECTOR_SIZE).nth(*number) {
                Some(sector) => writeln!(out, "{}", hex(sector))?,
                None => return Ok(false),
            },
            Line::List => out.write_all(listing(engine, self.volume()).as_bytes())?,
        }
        Ok(true)
    }

    fn call(&mut self, call: &Call, out: &mut impl Write) -> io::Result<()> {
        let (engine, session) = (self.engine, self.session);
        let reply = engine.call(self.volume(), session, call);
        let answer = reply.answer.answer().ok_or_else(no_reply)?;
        self.session = reply.session;
        if let Answer::Sector(sector) = answer {
            let part = self.volume().chunks_exact(SECTOR_SIZE).nth(sector.into()).ok_or_else(no_reply)?;
            return writeln!(out, "{answer} {}", hex(part));
        }
        writeln!(out, "{answer}")
    }
}

fn no_reply() -> io::Error {
    io::Error::other("the engine's reply is none")
}

fn hex(bytes: &[u8]) -> String {
    bytes.iter().map(|byte| format!("{byte:02X}")).collect()
}
