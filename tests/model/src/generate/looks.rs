//! Looks after every step, and what a client finds that opens a file instead.

use super::{state, Check, Run};
use crate::call::{Answer, Call};
use crate::script::Line;
use crate::volume::SECTOR_SIZE;

/// Up to so many pages are looked at all at once.
const ALL_AT_ONCE: usize = 64;

impl Run<'_> {
    /// Looks at a page after a call, at some more after a cut, and now and
    /// then at all pages.
    pub(super) fn look_around(&mut self, answer: Option<Answer>) -> Check {
        let count = match answer {
            Some(Answer::Cut(_)) => 4,
            _ => 1,
        };
        let mut pages: Vec<(u8, u8)> = (0..count).map(|_| self.page_to_look_at()).collect();
        if self.random.chance(1) {
            let all = self.layout.files.iter().flat_map(|file| (0..file.pages).map(|page| (file.number, page)));
            pages.extend(all.take(ALL_AT_ONCE));
        }
        self.world.look_around(&pages)
    }

    /// A file and a page of it, often one that a record has; either or both
    /// are wrong now and then.
    pub(super) fn page_to_look_at(&mut self) -> (u8, u8) {
        let (file, page) = self.pick_page(&[]);
        match self.random.below(30) {
            0 => (self.wrong_file(), page),
            1 => (file, self.wrong_page(file)),
            2 => (self.wrong_file(), self.wrong_page(file)),
            3..=14 => self.page_of_an_entry().unwrap_or((file, page)),
            _ => (file, page),
        }
    }

    /// The file and page of an entry, if the client chosen has any: one with
    /// a decided record, where there is one.
    fn page_of_an_entry(&mut self) -> Option<(u8, u8)> {
        let any = self.random.between(1, self.layout.clients.max(1));
        let volume = self.world.volume();
        let decided: Vec<u8> = (1..=self.layout.clients).filter(|&client| state(volume, client) == Some(2)).collect();
        let client = self.random.pick(&decided).unwrap_or(any);
        let record = volume.chunks_exact(SECTOR_SIZE).nth(client.into())?;
        let entries: Vec<(u8, u8)> = record[8..].chunks(4).map(|entry| (entry[0], entry[1])).collect();
        self.random.pick(&entries[..entries.len().min(record[3].into())])
    }

    /// The first number above the files, or any.
    pub(super) fn wrong_file(&mut self) -> u8 {
        let above = self.layout.files.len() as u8 + 1;
        if self.random.chance(30) {
            above
        } else {
            self.odd_number()
        }
    }

    /// The first number above the pages of the file, or any.
    fn wrong_page(&mut self, file: u8) -> u8 {
        let above = self.layout.files.get(usize::from(file) - 1).map_or(0, |file| file.pages);
        if self.random.chance(30) {
            above
        } else {
            self.odd_number()
        }
    }

    /// A client opens a file, in the session at hand or in a new one, and
    /// must read what a look found before. Then everything is as before.
    pub(super) fn open_for_a_look(&mut self) -> Check {
        let start = self.world.snapshot();
        if self.random.chance(50) {
            self.world.play(&Line::Session(0))?;
        }
        let client = self.random.between(1, self.layout.clients.max(1));
        if !self.world.session().marks(client) {
            self.world.play(&Line::Call(Call::Begin { client, budget: 255 }))?;
        }
        let open = self.open_either(client);
        self.world.play(&Line::Call(open))?;
        self.world.restore(&start);
        Ok(())
    }
}
