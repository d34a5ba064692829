//! What a call hands back, as it stands in two registers.

use std::fmt;

use model::reply::RawSession;

/// Rax and rdx after a call.
#[repr(C)]
#[derive(Clone, Copy)]
pub struct Registers(u64, u64);

/// What a function hands back.
#[derive(Clone, Copy, Debug, PartialEq, Eq)]
pub enum Form {
    /// `vol_reply`: a session, a kind and a number.
    Reply,
    /// `vol_answer`: a kind and a number.
    Answer,
    /// A number.
    Number,
}

impl Form {
    /// The bits that are handed back. The others are gaps, or are left over.
    fn bits(self) -> [u64; 2] {
        match self {
            Form::Reply => [!0xFF00, 0xFFFF_00FF_FFFF],
            Form::Answer => [0xFFFF_00FF, 0],
            Form::Number => [!0, 0],
        }
    }
}

#[derive(Clone, Copy, PartialEq, Eq)]
pub struct Reply {
    form: Form,
    words: [u64; 2],
}

impl Reply {
    #[inline(always)]
    pub fn new(form: Form, registers: Registers) -> Reply {
        let [first, second] = form.bits();
        Reply { form, words: [registers.0 & first, registers.1 & second] }
    }

    /// 0 done, 1 cut, 2 refused, 3 sector, 4 count; 0 if there is only a number.
    pub fn kind(self) -> u8 {
        match self.form {
            Form::Reply => (self.words[1] >> 16) as u8,
            Form::Answer => self.words[0] as u8,
            Form::Number => 0,
        }
    }

    pub fn number(self) -> u64 {
        match self.form {
            Form::Reply => self.words[1] >> 32,
            Form::Answer => self.words[0] >> 16,
            Form::Number => self.words[0],
        }
    }

    /// The session for the next call; a new one if none is handed back.
    pub fn session(self) -> RawSession {
        match self.form {
            Form::Reply => session_from(self.words),
            _ => RawSession::default(),
        }
    }
}

impl fmt::Debug for Reply {
    fn fmt(&self, f: &mut fmt::Formatter) -> fmt::Result {
        write!(f, "kind {}, number {}, {:?}", self.kind(), self.number(), self.session())
    }
}

/// A session as an argument: two words.
pub fn session_words(RawSession { active, reading: [first, second, third, fourth] }: RawSession) -> [u64; 2] {
    let readers = [first, second, third].into_iter().rev().fold(0, |word, files| word << 16 | u64::from(files));
    [readers << 16 | u64::from(active), fourth.into()]
}

fn session_from([first, second]: [u64; 2]) -> RawSession {
    let reading = [first >> 16, first >> 32, first >> 48, second].map(|files| files as u16);
    RawSession { active: first as u8, reading }
}

#[cfg(test)]
mod tests {
    use super::*;
    use model::capi::LibraryReply;
    use model::reply::RawAnswer;
    use std::mem::{size_of, transmute};

    const SESSION: RawSession = RawSession { active: 0x5A, reading: [0x1122, 0x3344, 0x5566, 0x7788] };
    const LEFT_OVER: u8 = 0xEE;

    /// The value in registers. Where it has no bytes, some are left over.
    fn in_registers<T>(value: T, gaps: &[usize]) -> Registers {
        let mut bytes = [LEFT_OVER; 16];
        let size = size_of::<T>();
        // SAFETY: the structs below are that long. Their gaps are written before anything is read.
        unsafe { std::ptr::copy_nonoverlapping((&raw const value).cast::<u8>(), bytes.as_mut_ptr(), size) };
        gaps.iter().for_each(|&gap| bytes[gap] = LEFT_OVER);
        // SAFETY: any bytes are two words.
        unsafe { transmute::<[u8; 16], Registers>(bytes) }
    }

    #[test]
    fn replies_are_read_as_the_structs_stand() {
        let given = LibraryReply { session: SESSION, kind: 2, number: 0x99AA };
        let reply = Reply::new(Form::Reply, in_registers(given, &[1, 11]));
        assert_eq!((reply.kind(), reply.number(), reply.session()), (2, 0x99AA, SESSION));
        assert_eq!(reply.words[0] & 0xFF00, 0);
    }

    #[test]
    fn answers_are_read_as_the_structs_stand() {
        let given = RawAnswer { kind: 3, number: 0x99AA };
        let reply = Reply::new(Form::Answer, in_registers(given, &[1]));
        assert_eq!((reply.kind(), reply.number(), reply.session()), (3, 0x99AA, RawSession::default()));
        let reply = Reply::new(Form::Number, in_registers(0x1234_5678_9ABC_DEF0_u64, &[]));
        assert_eq!((reply.kind(), reply.number(), reply.session()), (0, 0x1234_5678_9ABC_DEF0, RawSession::default()));
    }

    #[test]
    fn sessions_are_given_as_the_structs_stand() {
        let Registers(first, second) = in_registers(SESSION, &[1]);
        assert_eq!(session_words(SESSION), [first & !0xFF00, second & 0xFFFF]);
    }
}
