//! Two engines side by side, and the book beside them.
//!
//! A [`World`] plays the lines of a script on both engines. After every call
//! it compares answers, sessions and every byte of the two volumes, tests the
//! rules that each call keeps whatever its arguments and asks what readers are
//! shown. Looks must find the decided pages, and a client that opens a file
//! what a look found before. The question about each file must answer what its
//! map leaves over. From a layout on, without damage or foreign sessions, it
//! sets the decided content, each read and each look against the book.

use crate::book::Book;
use crate::call::{Answer, Call};
use crate::content;
use crate::engine::Engine;
use crate::expected;
use crate::looks;
use crate::posix::{Lender, Placement, Shared};
use crate::readers;
use crate::reply::{RawSession, Reply};
use crate::script::{Line, MAX_DATA, MAX_VOLUME};
use crate::spares;
use crate::volume::{self, refusal, Session, MAX_FILES, MAX_LISTING, SECTOR_SIZE};

/// What the driver counts, as places in the shared tallies.
pub mod tally {
    pub const RUNS: usize = 0;
    pub const FORMATS: usize = 1;
    pub const CALLS: usize = 2;
    pub const DONE: usize = 3;
    pub const CUT: usize = 4;
    pub const SECTOR: usize = 5;
    /// Refusal n is counted at this place + n.
    pub const REFUSED: usize = 6;
    pub const AGAINST_BOOK: usize = 23;
    pub const READS_AGAINST_BOOK: usize = 24;
    pub const LISTINGS: usize = 25;
    pub const FLIPS: usize = 26;
    pub const FLIPS_SOUND: usize = 27;
    pub const CRAFTED: usize = 28;
    pub const CRAFTED_SOUND: usize = 29;
    pub const CUT_SWEEPS: usize = 30;
    pub const PREFIXES: usize = 31;
    /// Files opened for reading, those of an interrupted client, and those
    /// opened for writing by their only reader.
    pub const OPEN_READS: usize = 32;
    pub const OPEN_READS_RECOVERING: usize = 33;
    pub const UPGRADES: usize = 34;
    /// Steps after which readers were asked what they are shown, and those
    /// after which several read one file.
    pub const READERS_SHOWN: usize = 35;
    pub const SEVERAL_READERS: usize = 36;
    /// Looks, those at a page that the holder's record has, decided or open,
    /// and those against the book.
    pub const LOOKS: usize = 37;
    pub const LOOKS_AT_DECIDED: usize = 38;
    pub const LOOKS_AT_OPEN: usize = 39;
    pub const LOOKS_AGAINST_BOOK: usize = 40;
    /// Files opened by clients that didn't hold them.
    pub const OPENED_AS_LOOKED: usize = 41;
    /// Questions about a file, those answered on sound volumes and on others,
    /// and those refused.
    pub const QUESTIONS: usize = 42;
    pub const SPARE_SOUND: usize = 43;
    pub const SPARE_UNSOUND: usize = 44;
    pub const SPARE_REFUSED: usize = 45;
    /// Steps after which every file's answer was set against its whole map.
    pub const MAPS_COUNTED: usize = 46;
}

/// Up to this length every shorter budget of a call is tried as well.
const PREFIX_LIMIT: usize = 64 * SECTOR_SIZE;

pub struct World {
    engines: [Engine; 2],
    volumes: [Lender; 2],
    /// The second engine's data, shapes and listings stand here.
    lent: Lender,
    /// The script's buffer, whose first bytes the volumes are copies of. It
    /// is brought up to date when another length is lent.
    buffer: Vec<u8>,
    length: usize,
    session: RawSession,
    /// The session that the last call handed back.
    handed: RawSession,
    book: Option<Book>,
    /// The volume before the call in progress.
    before: Vec<u8>,
    shared: &'static Shared,
    /// Whether each line is noted in the shared text before it is played.
    tracing: bool,
}

/// A state to come back to.
pub struct Snapshot {
    bytes: Vec<u8>,
    session: RawSession,
    handed: RawSession,
    book: Option<Book>,
    text_length: usize,
}

type Check = Result<(), String>;

impl World {
    /// The second engine's arrays stand at `placement`.
    pub fn new(placement: Placement, shared: &'static Shared, tracing: bool) -> World {
        World {
            engines: [Engine::Model, Engine::second()],
            volumes: [Lender::new(MAX_VOLUME, Placement::Plain), Lender::new(MAX_VOLUME, placement)],
            lent: Lender::new(MAX_DATA.max(MAX_LISTING), placement),
            buffer: vec![0; MAX_VOLUME],
            length: 0,
            session: RawSession::default(),
            handed: RawSession::default(),
            book: None,
            before: Vec::with_capacity(MAX_VOLUME),
            shared,
            tracing,
        }
    }

    /// As before the first line of a script.
    pub fn reset(&mut self) {
        self.buffer.fill(0);
        self.length = 0;
        self.session = RawSession::default();
        self.handed = RawSession::default();
        self.book = None;
    }

    pub fn volume(&self) -> &[u8] {
        self.volumes[0].bytes(self.length)
    }

    pub fn session(&self) -> RawSession {
        self.session
    }

    pub fn shared(&self) -> &'static Shared {
        self.shared
    }

    pub fn snapshot(&self) -> Snapshot {
        Snapshot {
            bytes: self.volume().to_vec(),
            session: self.session,
            handed: self.handed,
            book: self.book.clone(),
            text_length: self.shared.text_length(),
        }
    }

    /// Goes back to a state of the same length; the lines since then are
    /// forgotten.
    pub fn restore(&mut self, snapshot: &Snapshot) {
        for lender in &mut self.volumes {
            lender.array(self.length).copy_from_slice(&snapshot.bytes);
        }
        self.session = snapshot.session;
        self.handed = snapshot.handed;
        self.book.clone_from(&snapshot.book);
        if self.tracing {
            self.shared.cut_text(snapshot.text_length);
        }
    }

    /// Plays one line and answers what the call or layout answered.
    pub fn play(&mut self, line: &Line) -> Result<Option<Answer>, String> {
        self.trace(line);
        match line {
            Line::Format { length, clients, shape } => return self.format(*length, *clients, shape).map(Some),
            Line::Call(Call::Look { file, page }) => return self.look(*file, *page).map(Some),
            Line::Call(Call::Spare { file }) => return self.spare(*file).map(Some),
            Line::Call(call) => return self.call(call).map(Some),
            Line::Session(marks) => self.session = RawSession::of_marks(*marks),
            Line::Reading { client, file } => self.session.add_hold(*client, *file),
            Line::Poke { address, byte } => self.poke(*address, *byte),
            Line::Dump(_) | Line::ShowSession => {}
            Line::List => self.list()?,
        }
        Ok(None)
    }

    /// Looks at pages (file, page) with no store between them, one line each.
    pub fn look_around(&mut self, pages: &[(u8, u8)]) -> Check {
        let sound = volume::is_sound(self.volume());
        for &(file, page) in pages {
            self.trace(&Line::Call(Call::Look { file, page }));
            self.find(file, page, sound)?;
        }
        // The model is lent its volume for reading only.
        self.same_bytes()
    }

    /// Asks about files with no store between the questions, one line each.
    pub fn ask_around(&mut self, files: &[u8]) -> Check {
        let sound = volume::is_sound(self.volume());
        for &file in files {
            self.trace(&Line::Call(Call::Spare { file }));
            self.ask(file, sound)?;
        }
        self.same_bytes()
    }

    fn trace(&self, line: &Line) {
        if self.tracing {
            self.shared.add_text(&format!("{line}\n"));
        }
    }

    // ------------------------------------------------------------ the lines

    fn poke(&mut self, address: usize, byte: u8) {
        for lender in &mut self.volumes {
            if let Some(place) = lender.array(self.length).get_mut(address) {
                *place = byte;
            }
        }
        self.book = None;
    }

    fn list(&mut self) -> Check {
        self.shared.count(tally::LISTINGS);
        let mut text = [0; MAX_LISTING];
        let expected = self.engines[0].list(self.volumes[0].bytes(self.length), &mut text);
        let room = self.lent.array(MAX_LISTING);
        room.fill(0);
        let found = self.engines[1].list(self.volumes[1].bytes(self.length), room);
        expect(found == expected, || format!("listings of {expected} and {found} bytes"))?;
        expect(*room == text, || "the listings differ".into())
    }

    fn format(&mut self, length: usize, clients: u8, shape: &[u8]) -> Result<Answer, String> {
        self.shared.count(tally::FORMATS);
        self.relend(length);
        self.keep_before();
        let copy = self.lent.array(shape.len());
        copy.copy_from_slice(shape);
        let answers = [
            self.engines[0].format(self.volumes[0].array(length), clients, shape),
            self.engines[1].format(self.volumes[1].array(length), clients, copy),
        ];
        expect(answers[0] == answers[1], || format!("the layouts answer {answers:?}"))?;
        self.same_bytes()?;
        self.session = RawSession::default();
        self.handed = self.session;
        self.book = None;
        let answer = answers[0].answer().ok_or("the answer of the layout is none")?;
        self.count_answer(answer);
        if let Answer::Refused(_) = answer {
            self.unchanged()?;
        } else {
            expect(volume::is_sound(self.volume()), || "not sound after the layout".into())?;
            self.book = Some(Book::new(shape));
            self.content_as_booked()?;
            self.spares_counted()?;
        }
        Ok(answer)
    }

    /// Lends another number of bytes from the start of the same buffer.
    fn relend(&mut self, length: usize) {
        self.buffer[..self.length].copy_from_slice(self.volumes[0].bytes(self.length));
        for lender in &mut self.volumes {
            lender.array(length).copy_from_slice(&self.buffer[..length]);
        }
        self.length = length;
    }

    fn call(&mut self, call: &Call) -> Result<Answer, String> {
        self.shared.count(tally::CALLS);
        self.keep_before();
        let given = self.session;
        // A new session is a crash between calls, which the book allows; any
        // other session that wasn't handed back is foreign to it.
        if !given.is_new() && given != self.handed {
            self.book = None;
        }
        let replies = self.replies(given, call);
        expect(replies[0] == replies[1], || differing(replies))?;
        self.same_bytes()?;
        self.same_soundness()?;
        let Reply { session, answer } = replies[0];
        let answer = answer.answer().ok_or("the answer is none")?;
        self.count_answer(answer);
        self.rules_kept(given, call, session, answer)?;
        self.session = session;
        self.handed = session;
        self.against_book(given, call, answer)?;
        self.readers_kept(given, call, answer)?;
        self.opened_as_looked(given, call, answer)?;
        self.spares_counted()?;
        Ok(answer)
    }

    /// A look takes no session, so sessions and book stay as they are.
    fn look(&mut self, file: u8, page: u8) -> Result<Answer, String> {
        self.keep_before();
        let answer = self.find(file, page, volume::is_sound(&self.before))?;
        self.same_bytes()?;
        self.unchanged()?;
        Ok(answer)
    }

    /// A question takes no session either.
    fn spare(&mut self, file: u8) -> Result<Answer, String> {
        self.keep_before();
        let answer = self.ask(file, volume::is_sound(&self.before))?;
        self.same_soundness()?;
        self.same_bytes()?;
        self.unchanged()?;
        self.spares_counted()?;
        Ok(answer)
    }

    fn replies(&mut self, given: RawSession, call: &Call) -> [Reply; 2] {
        let first = self.engines[0].call(self.volumes[0].array(self.length), given, call);
        let mut lent = *call;
        if let Call::Write { data, .. } = &mut lent {
            let copy = self.lent.array(data.len());
            copy.copy_from_slice(data);
            *data = copy;
        }
        let second = self.engines[1].call(self.volumes[1].array(self.length), given, &lent);
        [first, second]
    }

    // ------------------------------------------------------- the comparisons

    fn same_bytes(&self) -> Check {
        let [first, second] = [0, 1].map(|index| self.volumes[index].bytes(self.length));
        expect(first == second, || {
            let at = first.iter().zip(second).position(|(a, b)| a != b).unwrap_or(0);
            format!("byte {at} (sector {}) is {:02X} and {:02X}", at / SECTOR_SIZE, first[at], second[at])
        })
    }

    fn same_soundness(&self) -> Check {
        let [first, second] = [0, 1].map(|index| self.engines[index].is_sound(self.volumes[index].bytes(self.length)));
        expect(first == second, || format!("sound: {first} and {second}"))
    }

    // ------------------------------------------- the rules of every call

    fn rules_kept(&mut self, given: RawSession, call: &Call, after: RawSession, answer: Answer) -> Check {
        match answer {
            Answer::Refused(number) => {
                self.unchanged()?;
                self.empty_page(given, call)?;
                // From a layout on, the session handed back always fits.
                expect(self.book.is_none() || number > 2, || format!("refused {number} without damage"))?;
                expect(after == given, || "a refusal changed the session".into())
            }
            Answer::Sector(sector) => {
                self.unchanged()?;
                self.page_is_sector(given, call, sector)
            }
            Answer::Count(_) => Err("a call answers a count".into()),
            Answer::Done(count) => {
                expect(Some(count) <= call.budget(), || "done above the budget".into())?;
                self.stored(given, call, count)?;
                let stores = expected::count(&self.before, call);
                expect(count == stores, || format!("done with {count} stores in place of {stores}"))?;
                let session = expected::session(&self.before, given, call);
                expect(after == session, || "done with a wrong session".into())
            }
            Answer::Cut(count) => {
                expect(Some(count) == call.budget(), || "cut before the budget was used".into())?;
                expect(after.is_new(), || "a cut keeps a mark or a hold".into())?;
                self.stored(given, call, count)?;
                expect(count < expected::count(&self.before, call), || "cut with all stores made".into())
            }
        }
    }

    fn unchanged(&self) -> Check {
        expect(self.volume() == self.before, || "bytes were changed without a store".into())
    }

    /// The volume after `count` stores of a call that wasn't refused.
    fn stored(&self, given: RawSession, call: &Call, count: u8) -> Check {
        expect(volume::is_sound(&self.before), || "a call on an unsound volume".into())?;
        expect(volume::is_sound(self.volume()), || "not sound after the call".into())?;
        let changed = sectors_that_differ(&self.before, self.volume());
        expect(changed <= usize::from(count), || format!("{changed} sectors changed by {count} stores"))?;
        if self.length <= PREFIX_LIMIT {
            self.prefixes_kept(given, call, count)?;
        }
        Ok(())
    }

    /// Each shorter budget makes one store more than the one before it, and
    /// the last of them is one store short of what was made.
    fn prefixes_kept(&self, given: RawSession, call: &Call, count: u8) -> Check {
        let session = given.session().ok_or("a byte above 15 was taken")?;
        let mut last = self.before.clone();
        for budget in 0..count {
            self.shared.count(tally::PREFIXES);
            let mut next = self.before.clone();
            let reply = call.with_budget(budget).make(&mut next, session);
            let expected = (Session::new(), Answer::Cut(budget));
            expect(reply == expected, || format!("with budget {budget} the call answers {reply:?}"))?;
            let changed = sectors_that_differ(&last, &next);
            expect(changed <= 1, || format!("store {budget} changes {changed} sectors"))?;
            last = next;
        }
        let changed = sectors_that_differ(&last, self.volume());
        expect(changed <= 1, || format!("the last store changes {changed} sectors"))
    }

    /// The second call of read hands back the very part of the lent array.
    fn page_is_sector(&self, given: RawSession, call: &Call, sector: u16) -> Check {
        let part = self.page(given, call);
        let expected = sector_of(self.volume(), sector);
        expect(part.as_ptr_range() == expected.as_ptr_range(), || "the page isn't the sector itself".into())
    }

    fn empty_page(&self, given: RawSession, call: &Call) -> Check {
        expect(self.page(given, call).is_empty(), || "a refusal hands back a page".into())
    }

    fn page(&self, given: RawSession, call: &Call) -> &[u8] {
        match (*call, given.session()) {
            (Call::Read { client, file, page }, Some(session)) => {
                volume::page(self.volume(), session, client, file, page)
            }
            (Call::Look { file, page }, _) => volume::look_page(self.volume(), file, page),
            _ => &[],
        }
    }

    // --------------------------------------------------------- the looks

    /// Both engines find the page of the decided content, and the book's if
    /// there is one. All looks between two stores are set against the same
    /// book, so they are of one moment.
    fn find(&mut self, file: u8, page: u8, sound: bool) -> Result<Answer, String> {
        self.shared.count(tally::LOOKS);
        let (given, look) = (self.session, Call::Look { file, page });
        let answers = self.replies(given, &look).map(|reply| reply.answer);
        expect(answers[0] == answers[1], || format!("the looks answer {answers:?}"))?;
        let answer = answers[0].answer().ok_or("the answer of the look is none")?;
        let expected = match sound {
            true => expected::look(self.volume(), file, page),
            false => Answer::Refused(refusal::NOT_SOUND),
        };
        expect(answer == expected, || format!("the look answers {answer} in place of {expected}"))?;
        match answer {
            Answer::Sector(sector) => {
                self.count_look(file, page);
                self.page_is_sector(given, &look, sector)?;
            }
            _ => self.empty_page(given, &look)?,
        }
        self.look_as_booked(file, page, answer)?;
        Ok(answer)
    }

    fn look_as_booked(&self, file: u8, page: u8, answer: Answer) -> Check {
        let Some(book) = &self.book else {
            return Ok(());
        };
        self.shared.count(tally::LOOKS_AGAINST_BOOK);
        let found = match answer {
            Answer::Sector(sector) => Some(sector_of(self.volume(), sector)),
            _ => None,
        };
        expect(found == book.shows_anyone(file, page), || "the look isn't what the book shows".into())
    }

    /// A client that opens a file, and held it neither way, reads what a look
    /// before it finds.
    fn opened_as_looked(&mut self, given: RawSession, call: &Call, answer: Answer) -> Check {
        let (Call::Open { client, file, .. } | Call::OpenRead { client, file, .. }, Answer::Done(_)) = (*call, answer)
        else {
            return Ok(());
        };
        if content::holder(&self.before, file) == client || given.reads(client, file) {
            return Ok(());
        }
        self.shared.count(tally::OPENED_AS_LOOKED);
        for (engine, volume) in self.engines.into_iter().zip(&mut self.volumes) {
            let opened = (volume.array(self.length), self.session);
            looks::as_opened(engine, &mut self.before, opened, client, file)?;
        }
        Ok(())
    }

    fn count_look(&self, file: u8, page: u8) {
        let volume = self.volume();
        let holder = content::holder(volume, file);
        if holder != 0 && content::has_entry(volume, holder, file, page) {
            let is_decided = content::is_decided(volume, holder);
            self.shared.count(if is_decided { tally::LOOKS_AT_DECIDED } else { tally::LOOKS_AT_OPEN });
        }
    }

    // ----------------------------------------------------- the questions

    /// Both engines answer what sector 0 and the header tell, whatever else is
    /// wrong.
    fn ask(&mut self, file: u8, sound: bool) -> Result<Answer, String> {
        self.shared.count(tally::QUESTIONS);
        let answers = self.replies(self.session, &Call::Spare { file }).map(|reply| reply.answer);
        expect(answers[0] == answers[1], || format!("the questions answer {answers:?}"))?;
        let answer = answers[0].answer().ok_or("the answer of the question is none")?;
        let expected = expected::spare(self.volume(), file);
        expect(answer == expected, || format!("the question answers {answer} in place of {expected}"))?;
        self.shared.count(match answer {
            Answer::Refused(_) => tally::SPARE_REFUSED,
            _ if sound => tally::SPARE_SOUND,
            _ => tally::SPARE_UNSOUND,
        });
        Ok(answer)
    }

    /// On a sound volume both engines answer for every file what a count over
    /// its whole map gives.
    fn spares_counted(&mut self) -> Check {
        if !volume::is_sound(self.volume()) {
            return Ok(());
        }
        self.shared.count(tally::MAPS_COUNTED);
        for (engine, volume) in self.engines.into_iter().zip(&mut self.volumes) {
            spares::counted(engine, volume.array(self.length))?;
        }
        // The model is lent its volume for reading only.
        self.same_bytes()
    }

    // --------------------------------------------------------- the book

    fn against_book(&mut self, given: RawSession, call: &Call, answer: Answer) -> Check {
        let (Some(book), Some(session)) = (&mut self.book, given.session()) else {
            return Ok(());
        };
        book.feed(session, call, answer);
        if let (Call::Read { client, file, page }, Answer::Sector(sector)) = (*call, answer) {
            self.shared.count(tally::READS_AGAINST_BOOK);
            let shown = book.shows(client, file, page);
            let found = sector_of(self.volumes[0].bytes(self.length), sector);
            expect(shown == Some(found), || "the read isn't what the book shows".into())?;
        }
        self.content_as_booked()
    }

    fn content_as_booked(&self) -> Check {
        self.shared.count(tally::AGAINST_BOOK);
        match &self.book {
            Some(book) => expect(content::decided_pages(self.volume()).eq(book.pages()), || {
                "the decided content isn't the book's".into()
            }),
            None => Ok(()),
        }
    }

    // -------------------------------------------------------- the readers

    /// Readers keep their pages over a call that is done, and these are the
    /// decided ones. Other answers leave bytes and holds, or no hold.
    fn readers_kept(&mut self, given: RawSession, call: &Call, answer: Answer) -> Check {
        let Answer::Done(count) = answer else {
            return Ok(());
        };
        let session = self.session;
        readers::steady((&self.before, given), (self.volume(), session))?;
        for (engine, volume) in self.engines.into_iter().zip(&mut self.volumes) {
            readers::shown(engine, volume.array(self.length), session)?;
        }
        self.count_readers(given, call, count);
        self.readers_have_no_slip()
    }

    fn readers_have_no_slip(&self) -> Check {
        let Some(book) = &self.book else {
            return Ok(());
        };
        let found = self.session.holds().find(|&(client, file)| book.has_on_slip(client, file));
        expect(found.is_none(), || format!("pages of a file on its reader's slip: {found:?}"))
    }

    fn count_readers(&self, given: RawSession, call: &Call, stores: u8) {
        let session = self.session;
        match *call {
            Call::OpenRead { .. } if session != given => {
                self.shared.count(tally::OPEN_READS);
                if stores > 0 {
                    self.shared.count(tally::OPEN_READS_RECOVERING);
                }
            }
            Call::Open { .. } if session != given => self.shared.count(tally::UPGRADES),
            _ => {}
        }
        if session.holds().next().is_some() {
            self.shared.count(tally::READERS_SHOWN);
        }
        let several = |file| (1..=4).filter(|&client| session.reads(client, file)).count() > 1;
        if (1..=MAX_FILES as u8).any(several) {
            self.shared.count(tally::SEVERAL_READERS);
        }
    }

    // -------------------------------------------------- parts of the checks

    fn keep_before(&mut self) {
        self.before.clear();
        self.before.extend_from_slice(self.volumes[0].bytes(self.length));
    }

    fn count_answer(&self, answer: Answer) {
        self.shared.count(match answer {
            Answer::Done(_) => tally::DONE,
            Answer::Cut(_) => tally::CUT,
            Answer::Sector(_) => tally::SECTOR,
            // Questions are counted by themselves.
            Answer::Count(_) => return,
            Answer::Refused(number) => tally::REFUSED + usize::from(number.min(16)),
        });
    }
}

fn expect(holds: bool, message: impl FnOnce() -> String) -> Check {
    if holds {
        Ok(())
    } else {
        Err(message())
    }
}

fn differing(replies: [Reply; 2]) -> String {
    let [first, second] = replies.map(|Reply { session, answer }| {
        let answer = answer.answer().map_or_else(|| format!("{answer:?}"), |answer| answer.to_string());
        format!("{answer} with {}", session.to_string().replace('\n', ", "))
    });
    format!("the model answers {first}, the other {second}")
}

fn sectors_that_differ(first: &[u8], second: &[u8]) -> usize {
    first.chunks(SECTOR_SIZE).zip(second.chunks(SECTOR_SIZE)).filter(|(a, b)| a != b).count()
}

fn sector_of(volume: &[u8], number: u16) -> &[u8] {
    &volume[SECTOR_SIZE * usize::from(number)..][..SECTOR_SIZE]
}
