//! Sessions that no call handed back.

use super::{holder, state, Check, FileSpot, Run};
use crate::reply::RawSession;
use crate::script::Line;
use crate::volume::{MAX_CLIENTS, MAX_FILES};

impl Run<'_> {
    /// A session that fits the volume, or nearly does, or any.
    pub(super) fn foreign_session(&mut self) -> Check {
        let session = match self.random.below(20) {
            0..=8 => self.fitting_session(),
            9..=14 => self.nearly_fitting_session(),
            15..=17 => RawSession { active: self.random.between(0, 15), reading: self.any_holds() },
            18 => RawSession { active: self.random.byte(), reading: self.any_holds() },
            _ => RawSession { active: 0, reading: self.any_holds() },
        };
        self.world.play(&Line::Session(session.active))?;
        for (client, file) in session.holds() {
            self.world.play(&Line::Reading { client, file })?;
        }
        Ok(())
    }

    /// Marks clients whose record is open, most often all of them, and lets
    /// them read files that nobody holds.
    fn fitting_session(&mut self) -> RawSession {
        let all = self.random.chance(70);
        let often = self.random.pick(&[0, 10, 40]).unwrap_or(0);
        let free = self.files_held(false);
        let mut session = RawSession::default();
        for client in 1..=self.layout.clients {
            if state(self.world.volume(), client) != Some(1) || !(all || self.random.chance(50)) {
                continue;
            }
            session.active |= 1 << (client - 1);
            for file in &free {
                if self.random.chance(often) {
                    session.add_hold(client, file.number);
                }
            }
        }
        session
    }

    /// One thing more than fits: a hold of a client that isn't marked, of a
    /// file that is held or above the last, or a bit that is no mark.
    fn nearly_fitting_session(&mut self) -> RawSession {
        let mut session = self.fitting_session();
        let (marked, unmarked): (Vec<u8>, Vec<u8>) = (1..=MAX_CLIENTS as u8).partition(|&client| session.marks(client));
        let (free, held) = (self.files_held(false), self.files_held(true));
        let above: Vec<u8> = (self.layout.files.len() as u8 + 1..=MAX_FILES as u8).collect();
        let number = |file: FileSpot| file.number;
        let hold = match self.random.below(4) {
            0 => self.random.pick(&unmarked).zip(self.random.pick(&free).map(number)),
            1 => self.random.pick(&marked).zip(self.random.pick(&held).map(number)),
            2 => self.random.pick(&marked).zip(self.random.pick(&above)),
            _ => None,
        };
        match hold {
            Some((client, file)) => session.add_hold(client, file),
            None => session.active |= 16 << self.random.below(4),
        }
        session
    }

    /// Few holds or many, of any clients and files.
    fn any_holds(&mut self) -> [u16; MAX_CLIENTS] {
        let often = self.random.pick(&[2, 5, 50]).unwrap_or(0);
        let mut holds = [0; MAX_CLIENTS];
        for bit in 0..MAX_CLIENTS * MAX_FILES {
            holds[bit / MAX_FILES] |= u16::from(self.random.chance(often)) << (bit % MAX_FILES);
        }
        holds
    }

    /// The files that some client holds for writing, or the others.
    fn files_held(&self, wanted: bool) -> Vec<FileSpot> {
        let volume = self.world.volume();
        let is_held = |file: &FileSpot| holder(volume, file).is_some_and(|holder| holder != 0);
        self.layout.files.iter().filter(|file| is_held(file) == wanted).copied().collect()
    }
}
