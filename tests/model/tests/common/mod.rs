//! A volume and the session that goes from call to call. Every call is made
//! on both engines, which must agree in the reply and in every byte.

// Each test file uses its own part of this.
#![allow(dead_code, unused_imports)]

use std::fmt::Debug;

use model::call::{Answer, Call};
use model::engine::Engine;
use model::reply::{RawSession, Reply};
use model::script::{self, data};
use model::volume::{self, Outcome, Read, Session, SECTOR_SIZE};

pub use model::volume::Outcome::{Cut, Done, Refused};

/// The small volume V: 11 sectors, two clients, file 1 (P 2, R 3), file 2
/// (P 1, R 3).
pub const V_LENGTH: usize = 11 * SECTOR_SIZE;
pub const V_SHAPE: [u8; 4] = [2, 3, 1, 3];

#[derive(Clone)]
pub struct Desk {
    pub volume: Vec<u8>,
    pub session: Session,
}

/// Does the same on both engines, on the volume and on a copy of it.
fn both<T: Debug + PartialEq>(volume: &mut [u8], act: impl Fn(Engine, &mut [u8]) -> T) -> T {
    let mut copy = volume.to_vec();
    let [first, second] = [act(Engine::Model, volume), act(Engine::second(), &mut copy)];
    assert_eq!(first, second, "the replies differ");
    assert!(volume == copy, "the volumes differ");
    first
}

/// Makes a call with any numbers as its session.
pub fn make_raw(volume: &mut [u8], session: RawSession, call: Call) -> Reply {
    both(volume, |engine, volume| engine.call(volume, session, &call))
}

/// Makes a call; a read, a look and a question hand back the session given.
pub fn make(volume: &mut [u8], session: Session, call: Call) -> (Session, Answer) {
    let reply = make_raw(volume, session.into(), call);
    (reply.session.session().unwrap(), reply.answer.answer().unwrap())
}

/// The session with these bits as marks and these holds (client, file) for
/// reading.
pub fn session(marks: u8, holds: &[(u8, u8)]) -> Session {
    let mut raw = RawSession::of_marks(marks);
    holds.iter().for_each(|&(client, file)| raw.add_hold(client, file));
    raw.session().unwrap()
}

/// The refusal, if there is one.
pub fn format(volume: &mut [u8], clients: u8, shape: &[u8]) -> Result<(), u8> {
    match both(volume, |engine, volume| engine.format(volume, clients, shape)).answer() {
        Some(Answer::Done(0)) => Ok(()),
        Some(Answer::Refused(number)) => Err(number),
        other => panic!("a format answers {other:?}"),
    }
}

pub fn is_sound(volume: &[u8]) -> bool {
    let sound = Engine::Model.is_sound(volume);
    assert_eq!(Engine::second().is_sound(volume), sound);
    sound
}

pub fn listing(volume: &[u8]) -> String {
    let text = script::listing(Engine::Model, volume);
    assert_eq!(script::listing(Engine::second(), volume), text);
    text
}

impl Desk {
    pub fn new(sectors: usize, clients: u8, shape: &[u8]) -> Desk {
        let mut volume = vec![0xEE; SECTOR_SIZE * sectors];
        assert_eq!(format(&mut volume, clients, shape), Ok(()));
        Desk { volume, session: Session::new() }
    }

    pub fn v() -> Desk {
        Desk::new(11, 2, &V_SHAPE)
    }

    pub fn call(&mut self, call: Call) -> Outcome {
        let (session, answer) = make(&mut self.volume, self.session, call);
        self.session = session;
        match answer {
            Answer::Done(count) => Done(count),
            Answer::Cut(count) => Cut(count),
            Answer::Refused(number) => Refused(number),
            Answer::Sector(_) | Answer::Count(_) => panic!("{call:?} answers {answer}"),
        }
    }

    pub fn begin(&mut self, client: u8) -> Outcome {
        self.call(Call::Begin { client, budget: 255 })
    }

    pub fn open(&mut self, client: u8, file: u8) -> Outcome {
        self.open_within(client, file, 255)
    }

    pub fn open_within(&mut self, client: u8, file: u8, budget: u8) -> Outcome {
        self.call(Call::Open { client, file, budget })
    }

    pub fn open_read(&mut self, client: u8, file: u8) -> Outcome {
        self.open_read_within(client, file, 255)
    }

    pub fn open_read_within(&mut self, client: u8, file: u8, budget: u8) -> Outcome {
        self.call(Call::OpenRead { client, file, budget })
    }

    /// Writes the page that begins with `seed`.
    pub fn write(&mut self, client: u8, file: u8, page: u8, seed: u8) -> Outcome {
        self.write_data(client, file, page, data(seed, SECTOR_SIZE))
    }

    pub fn write_data(&mut self, client: u8, file: u8, page: u8, data: &[u8]) -> Outcome {
        self.call(Call::Write { client, file, page, data, budget: 255 })
    }

    pub fn commit(&mut self, client: u8) -> Outcome {
        self.commit_within(client, 255)
    }

    pub fn commit_within(&mut self, client: u8, budget: u8) -> Outcome {
        self.call(Call::Commit { client, budget })
    }

    pub fn abort(&mut self, client: u8) -> Outcome {
        self.abort_within(client, 255)
    }

    pub fn abort_within(&mut self, client: u8, budget: u8) -> Outcome {
        self.call(Call::Abort { client, budget })
    }

    pub fn read(&self, client: u8, file: u8, page: u8) -> Read {
        self.find(Call::Read { client, file, page })
    }

    pub fn look(&self, file: u8, page: u8) -> Read {
        self.find(Call::Look { file, page })
    }

    /// How many reals of the file are spare, or the refusal.
    pub fn spare(&self, file: u8) -> Result<u8, u8> {
        let call = Call::Spare { file };
        match self.answer_of(call) {
            Answer::Count(count) => Ok(count),
            Answer::Refused(number) => Err(number),
            other => panic!("{call} answers {other:?}"),
        }
    }

    /// The sector that a read or a look finds.
    fn find(&self, call: Call) -> Read {
        match self.answer_of(call) {
            Answer::Sector(sector) => Read::Sector(sector),
            Answer::Refused(number) => Read::Refused(number),
            other => panic!("{call} answers {other:?}"),
        }
    }

    /// What a call answers that changes nothing.
    fn answer_of(&self, call: Call) -> Answer {
        let mut copy = self.volume.clone();
        let (session, answer) = make(&mut copy, self.session, call);
        assert!(copy == self.volume && session == self.session, "{call} changed something");
        answer
    }

    pub fn page(&self, client: u8, file: u8, page: u8) -> &[u8] {
        volume::page(&self.volume, self.session, client, file, page)
    }

    /// The page that a look finds.
    pub fn look_page(&self, file: u8, page: u8) -> &[u8] {
        volume::look_page(&self.volume, file, page)
    }

    /// With one byte changed.
    pub fn poked(&self, sector: usize, offset: usize, byte: u8) -> Desk {
        let mut desk = self.clone();
        desk.volume[SECTOR_SIZE * sector + offset] = byte;
        desk
    }

    pub fn sector(&self, number: usize) -> &[u8] {
        &self.volume[SECTOR_SIZE * number..][..SECTOR_SIZE]
    }

    /// The marks of the session as a byte of bits.
    pub fn marks(&self) -> u8 {
        self.session.bits()
    }
}

/// The new contents of file 1 page 0 and file 2 page 0.
pub const FIRST: u8 = 10;
pub const SECOND: u8 = 20;

/// V after the calls of E2: headers in 3 and 7, record 1 open with the
/// entries 01 00 02 00 and 02 00 01 00.
pub fn e2() -> Desk {
    let mut desk = Desk::v();
    assert_eq!(desk.begin(1), Done(1));
    assert_eq!(desk.open(1, 1), Done(1));
    assert_eq!(desk.open(1, 2), Done(1));
    assert_eq!(desk.write(1, 1, 0, FIRST), Done(2));
    assert_eq!(desk.write(1, 2, 0, SECOND), Done(2));
    desk
}

/// V with both files open for client 1 and a page of each written.
pub fn in_use() -> Desk {
    let mut desk = Desk::v();
    desk.begin(1);
    desk.open(1, 1);
    desk.open(1, 2);
    desk.write(1, 1, 0, 1);
    desk.write(1, 2, 0, 2);
    desk
}

/// A sector that begins with `start` and is 00 behind it.
pub fn sector_of(start: &[u8]) -> Vec<u8> {
    let mut sector = start.to_vec();
    sector.resize(SECTOR_SIZE, 0);
    sector
}

/// The page written with `seed`.
pub fn page_of(seed: u8) -> &'static [u8] {
    data(seed, SECTOR_SIZE)
}

/// The page as layout leaves it.
pub const ZERO_PAGE: &[u8] = &[0; SECTOR_SIZE];
