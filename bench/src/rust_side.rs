//! The calls in Rust, behind the border of the C library: slices and bytes;
//! sessions, replies and answers as structs by value.

use std::slice::{from_raw_parts, from_raw_parts_mut};

use model::volume::{self, refusal, Outcome, Read, Session, MAX_CLIENTS, MAX_LISTING};

const DONE: u8 = 0;
const CUT: u8 = 1;
const REFUSED: u8 = 2;
const SECTOR: u8 = 3;
const COUNT: u8 = 4;

#[repr(C)]
pub struct RawSession {
    active: u8,
    reading: [u16; MAX_CLIENTS],
}

/// What a call hands back that takes a session and a budget.
#[repr(C)]
pub struct RawReply {
    session: RawSession,
    kind: u8,
    number: u16,
}

/// What a call hands back that hands back no session.
#[repr(C)]
pub struct RawAnswer {
    kind: u8,
    number: u16,
}

/// The session, unless it has other bits than marks.
fn session(&RawSession { active, reading }: &RawSession) -> Option<Session> {
    Session::from_bits(active).map(|marks| Session { reading, ..marks })
}

fn reply((session, outcome): (Session, Outcome)) -> RawReply {
    let (kind, number) = match outcome {
        Outcome::Done(count) => (DONE, count),
        Outcome::Cut(count) => (CUT, count),
        Outcome::Refused(number) => (REFUSED, number),
    };
    let session = RawSession { active: session.bits(), reading: session.reading };
    RawReply { session, kind, number: number.into() }
}

fn refused(number: u8) -> RawAnswer {
    RawAnswer { kind: REFUSED, number: number.into() }
}

/// The answer of a read or a look.
fn found(read: Read) -> RawAnswer {
    match read {
        Read::Sector(sector) => RawAnswer { kind: SECTOR, number: sector },
        Read::Refused(number) => refused(number),
    }
}

/// The answer to a session that has other bits than marks.
fn foreign(volume: &[u8]) -> RawAnswer {
    refused(if volume::is_sound(volume) { refusal::SESSION } else { refusal::NOT_SOUND })
}

/// A call that may store, with the session given.
fn called(
    volume: &mut [u8],
    given: RawSession,
    call: impl FnOnce(&mut [u8], Session) -> (Session, Outcome),
) -> RawReply {
    match session(&given) {
        Some(session) => reply(call(volume, session)),
        None => {
            let RawAnswer { kind, number } = foreign(volume);
            RawReply { session: given, kind, number }
        }
    }
}

#[inline(never)]
pub unsafe extern "C" fn format(at: *mut u8, len: usize, clients: u8, shape: *const u8, shape_len: usize) -> RawAnswer {
    match volume::format(from_raw_parts_mut(at, len), clients, from_raw_parts(shape, shape_len)) {
        Ok(()) => RawAnswer { kind: DONE, number: 0 },
        Err(number) => refused(number),
    }
}

#[inline(never)]
pub unsafe extern "C" fn is_sound(at: *const u8, len: usize) -> u64 {
    volume::is_sound(from_raw_parts(at, len)).into()
}

#[inline(never)]
pub unsafe extern "C" fn begin(at: *mut u8, len: usize, session: RawSession, client: u8, budget: u8) -> RawReply {
    called(from_raw_parts_mut(at, len), session, |volume, session| volume::begin(volume, session, client, budget))
}

#[inline(never)]
pub unsafe extern "C" fn open(
    at: *mut u8,
    len: usize,
    session: RawSession,
    client: u8,
    file: u8,
    budget: u8,
) -> RawReply {
    called(from_raw_parts_mut(at, len), session, |volume, session| volume::open(volume, session, client, file, budget))
}

#[inline(never)]
pub unsafe extern "C" fn open_read(
    at: *mut u8,
    len: usize,
    session: RawSession,
    client: u8,
    file: u8,
    budget: u8,
) -> RawReply {
    called(from_raw_parts_mut(at, len), session, |volume, session| {
        volume::open_read(volume, session, client, file, budget)
    })
}

#[inline(never)]
pub unsafe extern "C" fn read(
    at: *const u8,
    len: usize,
    given: RawSession,
    client: u8,
    file: u8,
    page: u8,
) -> RawAnswer {
    let volume = from_raw_parts(at, len);
    let Some(session) = session(&given) else {
        return foreign(volume);
    };
    found(volume::read(volume, session, client, file, page))
}

#[inline(never)]
pub unsafe extern "C" fn look(at: *const u8, len: usize, file: u8, page: u8) -> RawAnswer {
    found(volume::look(from_raw_parts(at, len), file, page))
}

#[inline(never)]
pub unsafe extern "C" fn spare(at: *const u8, len: usize, file: u8) -> RawAnswer {
    match volume::spare(from_raw_parts(at, len), file) {
        Ok(count) => RawAnswer { kind: COUNT, number: count.into() },
        Err(number) => refused(number),
    }
}

#[inline(never)]
pub unsafe extern "C" fn write(
    at: *mut u8,
    len: usize,
    session: RawSession,
    client: u8,
    file: u8,
    page: u8,
    bytes: *const u8,
    bytes_len: usize,
    budget: u8,
) -> RawReply {
    let bytes = from_raw_parts(bytes, bytes_len);
    called(from_raw_parts_mut(at, len), session, |volume, session| {
        volume::write(volume, session, client, file, page, bytes, budget)
    })
}

#[inline(never)]
pub unsafe extern "C" fn commit(at: *mut u8, len: usize, session: RawSession, client: u8, budget: u8) -> RawReply {
    called(from_raw_parts_mut(at, len), session, |volume, session| volume::commit(volume, session, client, budget))
}

#[inline(never)]
pub unsafe extern "C" fn abort(at: *mut u8, len: usize, session: RawSession, client: u8, budget: u8) -> RawReply {
    called(from_raw_parts_mut(at, len), session, |volume, session| volume::abort(volume, session, client, budget))
}

#[inline(never)]
pub unsafe extern "C" fn list(at: *const u8, len: usize, out: *mut u8, out_len: usize) -> u64 {
    if out_len < MAX_LISTING {
        return 0;
    }
    volume::list(from_raw_parts(at, len), from_raw_parts_mut(out, out_len)).map_or(0, |length| length as u64)
}
