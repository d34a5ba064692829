//! One call and one answer as values, for the book, the scripts and the
//! driver.

use std::fmt;

use crate::volume::{self, Outcome, Read, Session};

/// A call with its arguments, the volume and the session apart.
#[derive(Clone, Copy, Debug, PartialEq, Eq)]
pub enum Call<'a> {
    Begin { client: u8, budget: u8 },
    Open { client: u8, file: u8, budget: u8 },
    OpenRead { client: u8, file: u8, budget: u8 },
    Read { client: u8, file: u8, page: u8 },
    Look { file: u8, page: u8 },
    Spare { file: u8 },
    Write { client: u8, file: u8, page: u8, data: &'a [u8], budget: u8 },
    Commit { client: u8, budget: u8 },
    Abort { client: u8, budget: u8 },
}

/// What a call answers.
#[derive(Clone, Copy, Debug, PartialEq, Eq)]
pub enum Answer {
    Done(u8),
    Cut(u8),
    Refused(u8),
    Sector(u16),
    /// How many reals of a file are spare.
    Count(u8),
}

impl From<Outcome> for Answer {
    fn from(outcome: Outcome) -> Answer {
        match outcome {
            Outcome::Done(count) => Answer::Done(count),
            Outcome::Cut(count) => Answer::Cut(count),
            Outcome::Refused(number) => Answer::Refused(number),
        }
    }
}

impl From<Read> for Answer {
    fn from(read: Read) -> Answer {
        match read {
            Read::Sector(sector) => Answer::Sector(sector),
            Read::Refused(number) => Answer::Refused(number),
        }
    }
}

/// What the question about a file answers.
impl From<Result<u8, u8>> for Answer {
    fn from(spare: Result<u8, u8>) -> Answer {
        match spare {
            Ok(count) => Answer::Count(count),
            Err(number) => Answer::Refused(number),
        }
    }
}

impl fmt::Display for Answer {
    fn fmt(&self, f: &mut fmt::Formatter) -> fmt::Result {
        match self {
            Answer::Done(count) => write!(f, "done {count}"),
            Answer::Cut(count) => write!(f, "cut {count}"),
            Answer::Refused(number) => write!(f, "refused {number}"),
            Answer::Sector(sector) => write!(f, "sector {sector}"),
            Answer::Count(count) => write!(f, "spare {count}"),
        }
    }
}

impl Call<'_> {
    /// Makes the call. A read, a look and a question hand back the session
    /// given, which the last two don't see.
    pub fn make(&self, volume: &mut [u8], session: Session) -> (Session, Answer) {
        let (after, outcome) = match *self {
            Call::Begin { client, budget } => volume::begin(volume, session, client, budget),
            Call::Open { client, file, budget } => volume::open(volume, session, client, file, budget),
            Call::OpenRead { client, file, budget } => volume::open_read(volume, session, client, file, budget),
            Call::Read { client, file, page } => {
                return (session, volume::read(volume, session, client, file, page).into());
            }
            Call::Look { file, page } => return (session, volume::look(volume, file, page).into()),
            Call::Spare { file } => return (session, volume::spare(volume, file).into()),
            Call::Write { client, file, page, data, budget } => {
                volume::write(volume, session, client, file, page, data, budget)
            }
            Call::Commit { client, budget } => volume::commit(volume, session, client, budget),
            Call::Abort { client, budget } => volume::abort(volume, session, client, budget),
        };
        (after, outcome.into())
    }

    /// The budget; a read, a look and a question have none.
    pub fn budget(&self) -> Option<u8> {
        match *self {
            Call::Begin { budget, .. }
            | Call::Open { budget, .. }
            | Call::OpenRead { budget, .. }
            | Call::Write { budget, .. }
            | Call::Commit { budget, .. }
            | Call::Abort { budget, .. } => Some(budget),
            Call::Read { .. } | Call::Look { .. } | Call::Spare { .. } => None,
        }
    }

    /// The same call with another budget; one that has none stays as it is.
    pub fn with_budget(mut self, new: u8) -> Self {
        match &mut self {
            Call::Begin { budget, .. }
            | Call::Open { budget, .. }
            | Call::OpenRead { budget, .. }
            | Call::Write { budget, .. }
            | Call::Commit { budget, .. }
            | Call::Abort { budget, .. } => *budget = new,
            Call::Read { .. } | Call::Look { .. } | Call::Spare { .. } => {}
        }
        self
    }
}
