//! A call as a function and its arguments, which either side can make.

use model::reply::RawSession;

use crate::reply::{session_words, Form, Registers, Reply};

/// The functions of `include/volume.h`.
#[derive(Clone, Copy, Debug, PartialEq, Eq)]
pub enum Function {
    Format,
    IsSound,
    Begin,
    Open,
    OpenRead,
    Read,
    Look,
    Spare,
    Write,
    Commit,
    Abort,
    List,
}

impl Function {
    fn form(self) -> Form {
        match self {
            Function::Format | Function::Read | Function::Look | Function::Spare => Form::Answer,
            Function::IsSound | Function::List => Form::Number,
            _ => Form::Reply,
        }
    }
}

#[derive(Clone, Debug)]
pub enum Argument {
    Byte(u8),
    Session(RawSession),
    /// A slice that is only read.
    Bytes(Vec<u8>),
    /// The room for a listing.
    Text,
}

#[derive(Clone, Debug)]
pub struct Call {
    pub function: Function,
    /// What follows the volume.
    pub arguments: Vec<Argument>,
}

/// The most words that a call takes: a slice is two of them, and so is a
/// session.
pub const WORDS: usize = 10;

/// A function takes these by the calling convention of C on x86-64, in which
/// words that it doesn't ask for do no harm. What it hands back stands in the
/// first of two registers, or in both.
type Entry = unsafe extern "C" fn(u64, u64, u64, u64, u64, u64, u64, u64, u64, u64) -> Registers;

/// The words of a call, ready to be made.
pub struct Ready {
    pub entry: usize,
    pub words: [u64; WORDS],
    pub count: usize,
    pub form: Form,
}

impl Call {
    pub fn new(function: Function, arguments: Vec<Argument>) -> Call {
        Call { function, arguments }
    }

    /// A call with this session whose other arguments are bytes.
    pub fn with_session(function: Function, session: RawSession, bytes: &[u8]) -> Call {
        let bytes = bytes.iter().map(|&byte| Argument::Byte(byte));
        Call::new(function, [Argument::Session(session)].into_iter().chain(bytes).collect())
    }

    /// The same call with another budget, its last argument.
    pub fn with_budget(&self, budget: u8) -> Call {
        let mut call = self.clone();
        *call.arguments.last_mut().expect("a budget") = Argument::Byte(budget);
        call
    }

    /// The call of the function at `entry` on these arrays.
    pub fn ready(&self, entry: usize, volume: &mut [u8], text: &mut [u8]) -> Ready {
        let mut ready = Ready { entry, words: [0; WORDS], count: 0, form: self.function.form() };
        ready.push_slice(volume.as_mut_ptr(), volume.len());
        for argument in &self.arguments {
            match argument {
                Argument::Byte(byte) => ready.push(u64::from(*byte)),
                Argument::Session(session) => session_words(*session).into_iter().for_each(|word| ready.push(word)),
                Argument::Bytes(bytes) => ready.push_slice(bytes.as_ptr(), bytes.len()),
                Argument::Text => ready.push_slice(text.as_mut_ptr(), text.len()),
            }
        }
        ready
    }
}

impl Ready {
    fn push(&mut self, word: u64) {
        self.words[self.count] = word;
        self.count += 1;
    }

    fn push_slice(&mut self, at: *const u8, len: usize) {
        self.push(at as u64);
        self.push(len as u64);
    }

    /// # Safety
    ///
    /// The arrays that the call was made ready with still stand, and nothing
    /// else uses them.
    #[inline(always)]
    pub unsafe fn make(&self) -> Reply {
        let entry: Entry = std::mem::transmute(self.entry);
        let [a, b, c, d, e, f, g, h, i, j] = self.words;
        Reply::new(self.form, entry(a, b, c, d, e, f, g, h, i, j))
    }
}
