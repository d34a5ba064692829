//! Sessions and answers as the C library has them: plain numbers, whether
//! they mean something or not.

use std::fmt;

use crate::call::Answer;
use crate::volume::{Session, MAX_CLIENTS, MAX_FILES};

/// A session of any numbers.
#[repr(C)]
#[derive(Clone, Copy, Debug, Default, PartialEq, Eq)]
pub struct RawSession {
    /// Bit k - 1: client k has a transaction running. Above 15 it is none.
    pub active: u8,
    /// Bit f - 1 of the k-th number: client k holds file f for reading.
    pub reading: [u16; MAX_CLIENTS],
}

impl RawSession {
    /// A session without holds.
    pub const fn of_marks(active: u8) -> RawSession {
        RawSession { active, reading: [0; MAX_CLIENTS] }
    }

    /// None if `active` is above 15.
    pub fn session(self) -> Option<Session> {
        let marks = Session::from_bits(self.active)?;
        Some(Session { reading: self.reading, ..marks })
    }

    pub fn is_new(self) -> bool {
        self == RawSession::default()
    }

    pub fn marks(self, client: u8) -> bool {
        self.active >> (client - 1) & 1 == 1
    }

    pub fn reads(self, client: u8, file: u8) -> bool {
        self.reading[usize::from(client) - 1] >> (file - 1) & 1 == 1
    }

    pub fn add_hold(&mut self, client: u8, file: u8) {
        self.reading[usize::from(client) - 1] |= 1 << (file - 1);
    }

    /// The reading holds (client, file), rising by client and then by file.
    pub fn holds(self) -> impl Iterator<Item = (u8, u8)> {
        let pairs = (1..=MAX_CLIENTS as u8).flat_map(|client| (1..=MAX_FILES as u8).map(move |file| (client, file)));
        pairs.filter(move |&(client, file)| self.reads(client, file))
    }
}

impl From<Session> for RawSession {
    fn from(session: Session) -> RawSession {
        RawSession { active: session.bits(), reading: session.reading }
    }
}

/// One line for the marks and one for each hold, as a script prints them.
impl fmt::Display for RawSession {
    fn fmt(&self, f: &mut fmt::Formatter) -> fmt::Result {
        write!(f, "session {}", self.active)?;
        self.holds().try_for_each(|(client, file)| write!(f, "\nkiln {client} reads {file}"))
    }
}

/// An answer of any numbers. Kind: 0 done, 1 cut, 2 refused, 3 sector, 4 count.
#[repr(C)]
#[derive(Clone, Copy, Debug, PartialEq, Eq)]
pub struct RawAnswer {
    pub kind: u8,
    pub number: u16,
}

impl RawAnswer {
    /// None if the numbers are no answer.
    pub fn answer(self) -> Option<Answer> {
        let small = u8::try_from(self.number);
        Some(match self.kind {
            0 => Answer::Done(small.ok()?),
            1 => Answer::Cut(small.ok()?),
            2 => Answer::Refused(small.ok()?),
            3 => Answer::Sector(self.number),
            4 => Answer::Count(small.ok()?),
            _ => return None,
        })
    }
}

impl From<Answer> for RawAnswer {
    fn from(answer: Answer) -> RawAnswer {
        let (kind, number) = match answer {
            Answer::Done(count) => (0, count.into()),
            Answer::Cut(count) => (1, count.into()),
            Answer::Refused(number) => (2, number.into()),
            Answer::Sector(sector) => (3, sector),
            Answer::Count(count) => (4, count.into()),
        };
        RawAnswer { kind, number }
    }
}

/// What a call hands back. For a read, a look and a question, which hand back
/// no session, it is the one given.
#[derive(Clone, Copy, Debug, PartialEq, Eq)]
pub struct Reply {
    pub session: RawSession,
    pub answer: RawAnswer,
}
