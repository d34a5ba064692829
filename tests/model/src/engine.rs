//! The implementations that are set side by side, behind one face: the
//! sessions and answers of both are the C library's.

use crate::call::{Answer, Call};
#[cfg(feature = "capi")]
use crate::capi;
use crate::reply::{RawAnswer, RawSession, Reply};
use crate::volume::{self, refusal};

#[derive(Clone, Copy, Debug, PartialEq, Eq)]
pub enum Engine {
    /// The volume of this package.
    Model,
    /// The C library.
    #[cfg(feature = "capi")]
    Library,
}

impl Engine {
    /// The engine to be compared with the model.
    pub fn second() -> Engine {
        #[cfg(feature = "capi")]
        return Engine::Library;
        #[cfg(not(feature = "capi"))]
        return Engine::Model;
    }

    pub fn format(self, volume: &mut [u8], clients: u8, shape: &[u8]) -> RawAnswer {
        match self {
            Engine::Model => match volume::format(volume, clients, shape) {
                Ok(()) => Answer::Done(0).into(),
                Err(number) => Answer::Refused(number).into(),
            },
            #[cfg(feature = "capi")]
            // SAFETY: both slices are lent for the time of the call.
            Engine::Library => unsafe {
                capi::vol_format(volume.as_mut_ptr(), volume.len(), clients, shape.as_ptr(), shape.len())
            },
        }
    }

    /// Makes a call with any session; a look and a question see none.
    pub fn call(self, volume: &mut [u8], session: RawSession, call: &Call) -> Reply {
        match self {
            Engine::Model => model_call(volume, session, call),
            #[cfg(feature = "capi")]
            Engine::Library => library_call(volume, session, call),
        }
    }

    pub fn is_sound(self, volume: &[u8]) -> bool {
        match self {
            Engine::Model => volume::is_sound(volume),
            #[cfg(feature = "capi")]
            // SAFETY: the slice is lent for the time of the call.
            Engine::Library => unsafe { capi::vol_is_sound(volume.as_ptr(), volume.len()) == 1 },
        }
    }

    /// The length of the listing written into `out`, or 0.
    pub fn list(self, volume: &[u8], out: &mut [u8]) -> usize {
        match self {
            Engine::Model => volume::list(volume, out).unwrap_or(0),
            #[cfg(feature = "capi")]
            // SAFETY: both slices are lent for the time of the call.
            Engine::Library => unsafe {
                capi::vol_list(volume.as_ptr(), volume.len(), out.as_mut_ptr(), out.len()) as usize
            },
        }
    }
}

fn model_call(volume: &mut [u8], given: RawSession, call: &Call) -> Reply {
    let (session, answer) = match (call, given.session()) {
        (Call::Look { file, page }, _) => (given, volume::look(volume, *file, *page).into()),
        (Call::Spare { file }, _) => (given, volume::spare(volume, *file).into()),
        (_, Some(session)) => {
            let (after, answer) = call.make(volume, session);
            (after.into(), answer)
        }
        _ if volume::is_sound(volume) => (given, Answer::Refused(refusal::SESSION)),
        _ => (given, Answer::Refused(refusal::NOT_SOUND)),
    };
    Reply { session, answer: answer.into() }
}

#[cfg(feature = "capi")]
fn library_call(volume: &mut [u8], session: RawSession, call: &Call) -> Reply {
    let (at, len) = (volume.as_mut_ptr(), volume.len());
    // SAFETY: the volume and the data are lent for the time of the call.
    let reply = unsafe {
        match *call {
            Call::Begin { client, budget } => capi::vol_begin(at, len, session, client, budget),
            Call::Open { client, file, budget } => capi::vol_open(at, len, session, client, file, budget),
            Call::OpenRead { client, file, budget } => capi::vol_open_read(at, len, session, client, file, budget),
            Call::Read { client, file, page } => {
                return Reply { session, answer: capi::vol_read(at, len, session, client, file, page) };
            }
            Call::Look { file, page } => return Reply { session, answer: capi::vol_look(at, len, file, page) },
            Call::Spare { file } => return Reply { session, answer: capi::vol_spare(at, len, file) },
            Call::Write { client, file, page, data, budget } => {
                capi::vol_write(at, len, session, client, file, page, data.as_ptr(), data.len(), budget)
            }
            Call::Commit { client, budget } => capi::vol_commit(at, len, session, client, budget),
            Call::Abort { client, budget } => capi::vol_abort(at, len, session, client, budget),
        }
    };
    Reply { session: reply.session, answer: RawAnswer { kind: reply.kind, number: reply.number } }
}
