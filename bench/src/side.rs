//! The two sides that are compared: the C library and the Rust code. Both
//! have the same functions with the same types.

use model::capi;

use crate::call::{Call, Function};
use crate::reply::Reply;
use crate::rust_side;

#[derive(Clone, Copy, Debug, PartialEq, Eq)]
pub enum Side {
    Library,
    Rust,
}

pub const BOTH: [Side; 2] = [Side::Library, Side::Rust];

impl Side {
    /// Where the function's code begins.
    pub fn entry(self, function: Function) -> usize {
        match self {
            Side::Library => library_entry(function),
            Side::Rust => rust_entry(function),
        }
    }

    /// Makes the call.
    pub fn make(self, call: &Call, volume: &mut [u8], text: &mut [u8]) -> Reply {
        let ready = call.ready(self.entry(call.function), volume, text);
        // SAFETY: the arrays are lent for the time of the call.
        unsafe { ready.make() }
    }
}

fn library_entry(function: Function) -> usize {
    match function {
        Function::Format => capi::vol_format as *const () as usize,
        Function::IsSound => capi::vol_is_sound as *const () as usize,
        Function::Begin => capi::vol_begin as *const () as usize,
        Function::Open => capi::vol_open as *const () as usize,
        Function::OpenRead => capi::vol_open_read as *const () as usize,
        Function::Read => capi::vol_read as *const () as usize,
        Function::Look => capi::vol_look as *const () as usize,
        Function::Spare => capi::vol_spare as *const () as usize,
        Function::Write => capi::vol_write as *const () as usize,
        Function::Commit => capi::vol_commit as *const () as usize,
        Function::Abort => capi::vol_abort as *const () as usize,
        Function::List => capi::vol_list as *const () as usize,
    }
}

fn rust_entry(function: Function) -> usize {
    match function {
        Function::Format => rust_side::format as *const () as usize,
        Function::IsSound => rust_side::is_sound as *const () as usize,
        Function::Begin => rust_side::begin as *const () as usize,
        Function::Open => rust_side::open as *const () as usize,
        Function::OpenRead => rust_side::open_read as *const () as usize,
        Function::Read => rust_side::read as *const () as usize,
        Function::Look => rust_side::look as *const () as usize,
        Function::Spare => rust_side::spare as *const () as usize,
        Function::Write => rust_side::write as *const () as usize,
        Function::Commit => rust_side::commit as *const () as usize,
        Function::Abort => rust_side::abort as *const () as usize,
        Function::List => rust_side::list as *const () as usize,
    }
}
