//! The plain book: what the files must hold, told by the calls alone.
//!
//! The book looks at no sector. It is fed the arguments of each call and its
//! answer, and keeps the bytes of every page and a slip for each client.

use std::collections::BTreeMap;

use crate::call::{Answer, Call};
use crate::volume::{Session, MAX_CLIENTS, SECTOR_SIZE};

type Page = [u8; SECTOR_SIZE];

/// Pages with their bytes, each (file, page) at most once.
type Slip = BTreeMap<(u8, u8), Page>;

#[derive(Clone)]
pub struct Book {
    /// The pages of each file; file 1 comes first.
    files: Vec<Vec<Page>>,
    slips: [Slip; MAX_CLIENTS],
}

impl Book {
    /// The book after a layout with the list `shape` of (pages, reals).
    pub fn new(shape: &[u8]) -> Book {
        let pages = shape.chunks(2).map(|pair| usize::from(pair[0]));
        Book { files: pages.map(|count| vec![[0; SECTOR_SIZE]; count]).collect(), slips: Default::default() }
    }

    /// Takes note of one call, the session it was given and its answer.
    pub fn feed(&mut self, session: Session, call: &Call, answer: Answer) {
        if let Call::Read { .. } | Call::Look { .. } | Call::Spare { .. } = call {
            return;
        }
        if session.has_no_mark() {
            self.empty_slips();
        }
        match (*call, answer) {
            (_, Answer::Refused(_)) => {}
            (Call::Write { client, file, page, data, .. }, Answer::Done(_)) => {
                // A write that is done has 256 bytes of data.
                if let Ok(bytes) = data.try_into() {
                    self.slip(client).insert((file, page), bytes);
                }
            }
            (Call::Commit { client, .. }, Answer::Done(_) | Answer::Cut(1..)) => self.take_over(client),
            (Call::Abort { client, .. }, Answer::Done(_)) => self.slip(client).clear(),
            _ => {}
        }
        if let Answer::Cut(_) = answer {
            self.empty_slips();
        }
    }

    /// The page that a read shows to the client: the one on its slip, else
    /// the book's.
    pub fn shows(&self, client: u8, file: u8, page: u8) -> Option<&[u8]> {
        let slip = self.slips.get(usize::from(client).checked_sub(1)?)?;
        slip.get(&(file, page)).map(|bytes| bytes.as_slice()).or_else(|| self.shows_anyone(file, page))
    }

    /// The page that a look shows: the book's, whatever is on the slips.
    pub fn shows_anyone(&self, file: u8, page: u8) -> Option<&[u8]> {
        let pages = self.files.get(usize::from(file).checked_sub(1)?)?;
        pages.get(usize::from(page)).map(|bytes| bytes.as_slice())
    }

    /// Whether a page of the file is on the client's slip.
    pub fn has_on_slip(&self, client: u8, file: u8) -> bool {
        self.slips[usize::from(client) - 1].keys().any(|key| key.0 == file)
    }

    /// The book's pages in order, rising by file and then by page.
    pub fn pages(&self) -> impl Iterator<Item = &[u8]> {
        self.files.iter().flatten().map(|page| page.as_slice())
    }

    /// The pages on the client's slip replace the book's.
    fn take_over(&mut self, client: u8) {
        for ((file, page), bytes) in std::mem::take(self.slip(client)) {
            self.files[usize::from(file) - 1][usize::from(page)] = bytes;
        }
    }

    fn empty_slips(&mut self) {
        self.slips.iter_mut().for_each(BTreeMap::clear);
    }

    fn slip(&mut self, client: u8) -> &mut Slip {
        &mut self.slips[usize::from(client) - 1]
    }
}
