//! The C library `libcapi.a`, which makes the same calls. The structs go in
//! and out by value, as `include/volume.h` declares them.

use std::mem::offset_of;

use crate::reply::{RawAnswer, RawSession};

/// What a call hands back that takes a session and a budget.
#[repr(C)]
#[derive(Clone, Copy)]
pub struct LibraryReply {
    pub session: RawSession,
    pub kind: u8,
    pub number: u16,
}

// The places and sizes that the library was built for.
const _: () = assert!(size_of::<RawSession>() == 10 && offset_of!(RawSession, reading) == 2);
const _: () = assert!(size_of::<RawAnswer>() == 4 && offset_of!(RawAnswer, number) == 2);
const _: () = assert!(size_of::<LibraryReply>() == 14 && offset_of!(LibraryReply, kind) == 10);
const _: () = assert!(offset_of!(LibraryReply, number) == 12);

extern "C" {
    pub fn vol_format(volume: *mut u8, len: usize, clients: u8, shape: *const u8, shape_len: usize) -> RawAnswer;
    pub fn vol_begin(volume: *mut u8, len: usize, session: RawSession, client: u8, budget: u8) -> LibraryReply;
    pub fn vol_commit(volume: *mut u8, len: usize, session: RawSession, client: u8, budget: u8) -> LibraryReply;
    pub fn vol_abort(volume: *mut u8, len: usize, session: RawSession, client: u8, budget: u8) -> LibraryReply;
    pub fn vol_open(volume: *mut u8, len: usize, session: RawSession, client: u8, file: u8, budget: u8)
        -> LibraryReply;
    pub fn vol_open_read(
        volume: *mut u8,
        len: usize,
        session: RawSession,
        client: u8,
        file: u8,
        budget: u8,
    ) -> LibraryReply;
    pub fn vol_read(volume: *const u8, len: usize, session: RawSession, client: u8, file: u8, page: u8) -> RawAnswer;
    pub fn vol_look(volume: *const u8, len: usize, file: u8, page: u8) -> RawAnswer;
    pub fn vol_spare(volume: *const u8, len: usize, file: u8) -> RawAnswer;
    pub fn vol_write(
        volume: *mut u8,
        len: usize,
        session: RawSession,
        client: u8,
        file: u8,
        page: u8,
        bytes: *const u8,
        bytes_len: usize,
        budget: u8,
    ) -> LibraryReply;
    pub fn vol_is_sound(volume: *const u8, len: usize) -> u64;
    pub fn vol_list(volume: *const u8, len: usize, out: *mut u8, out_len: usize) -> u64;
}
