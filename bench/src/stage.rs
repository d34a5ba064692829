//! A volume that calls are made on, to bring it into the state that a scene
//! starts from. The Rust code makes them.

use model::reply::RawSession;

use crate::call::{Argument, Call, Function};
use crate::side::Side;

pub const BUDGET: u8 = 255;

#[derive(Clone)]
pub struct Stage {
    pub volume: Vec<u8>,
    pub session: RawSession,
}

impl Stage {
    /// A new volume.
    pub fn format(sectors: usize, clients: u8, shape: &[u8]) -> Stage {
        let mut stage = Stage::junk(sectors);
        stage.done(&format(clients, shape));
        stage
    }

    /// Bytes that are no volume.
    pub fn junk(sectors: usize) -> Stage {
        Stage { volume: vec![0xA5; 256 * sectors], session: RawSession::default() }
    }

    /// A call with the session, whose other arguments are bytes.
    pub fn call(&self, function: Function, bytes: &[u8]) -> Call {
        Call::with_session(function, self.session, bytes)
    }

    pub fn begin(&mut self, client: u8) -> &mut Stage {
        self.done(&self.call(Function::Begin, &[client, BUDGET]))
    }

    pub fn open(&mut self, client: u8, file: u8) -> &mut Stage {
        self.done(&self.call(Function::Open, &[client, file, BUDGET]))
    }

    pub fn open_read(&mut self, client: u8, file: u8) -> &mut Stage {
        self.done(&self.call(Function::OpenRead, &[client, file, BUDGET]))
    }

    pub fn write(&mut self, client: u8, file: u8, page: u8) -> &mut Stage {
        self.done(&write(self.session, client, file, page))
    }

    /// A commit that is cut after its first store, the deciding one.
    pub fn decide(&mut self, client: u8) -> &mut Stage {
        let reply = Side::Rust.make(&self.call(Function::Commit, &[client, 1]), &mut self.volume, &mut []);
        assert!((reply.kind(), reply.number()) == (1, 1), "the commit was not cut: {reply:?}");
        self.session = reply.session();
        self
    }

    fn done(&mut self, call: &Call) -> &mut Stage {
        let reply = Side::Rust.make(call, &mut self.volume, &mut []);
        assert!(reply.kind() == 0, "{call:?} is not done: {reply:?}");
        self.session = reply.session();
        self
    }
}

pub fn format(clients: u8, shape: &[u8]) -> Call {
    Call::new(Function::Format, vec![Argument::Byte(clients), Argument::Bytes(shape.to_vec())])
}

/// It takes no session.
pub fn look(file: u8, page: u8) -> Call {
    Call::new(Function::Look, vec![Argument::Byte(file), Argument::Byte(page)])
}

/// Nor does it.
pub fn spare(file: u8) -> Call {
    Call::new(Function::Spare, vec![Argument::Byte(file)])
}

/// A write of bytes that differ from page to page.
pub fn write(session: RawSession, client: u8, file: u8, page: u8) -> Call {
    let bytes = (0..=255).map(|at: u8| at ^ page.wrapping_mul(29) ^ file).collect();
    write_bytes(session, client, file, page, bytes)
}

pub fn write_bytes(session: RawSession, client: u8, file: u8, page: u8, bytes: Vec<u8>) -> Call {
    let mut call = Call::with_session(Function::Write, session, &[client, file, page]);
    call.arguments.extend([Argument::Bytes(bytes), Argument::Byte(BUDGET)]);
    call
}
