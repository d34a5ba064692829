//! The volume as bytes and stores.
//!
//! Every call works on the lent byte array itself: there is no heap, no copy
//! of the volume and one working sector of 256 bytes. A call first tests its
//! arguments in the order of the refusal numbers, then makes its stores one
//! by one through [`Stores`], which counts them against the budget. Holds for
//! reading are in the session alone: no store makes or ends one.

use core::fmt::{self, Write as _};

pub const SECTOR_SIZE: usize = 256;
pub const MAX_SECTORS: usize = 1024;
pub const MAX_CLIENTS: usize = 4;
pub const MAX_FILES: usize = 16;
pub const MAX_PAGES: u8 = 120;
pub const MAX_REALS: u8 = 240;
pub const MAX_ENTRIES: usize = 62;

/// The longest listing: four lines of a client and sixteen of a file.
pub const MAX_LISTING: usize = MAX_CLIENTS * 18 + MAX_FILES * 37;

const TABLE_MARK: [u8; 2] = [0x4B, 0x56];
const RECORD_MARK: [u8; 2] = [0x4B, 0x49];
const HEADER_MARK: [u8; 2] = [0x4B, 0x46];

const IDLE: u8 = 0;
const OPEN: u8 = 1;
const DECIDED: u8 = 2;

/// Where the named bytes stand in their sectors.
const CLIENTS: usize = 4;
const FILES: usize = 5;
pub(crate) const STATE: usize = 2;
pub(crate) const COUNT: usize = 3;
pub(crate) const HOLDER: usize = 2;
pub(crate) const SPARE: usize = 3;
/// Table entries, record entries and map bytes all begin here.
pub(crate) const BODY: usize = 8;

/// The refusals by number. The lowest that applies is given, but 16 is tested
/// after 8 and before 9, and the question about a file tests its header's mark
/// after 6.
pub mod refusal {
    pub const NOT_SOUND: u8 = 1;
    pub const SESSION: u8 = 2;
    pub const CLIENT: u8 = 3;
    pub const ALREADY_BEGUN: u8 = 4;
    pub const NOT_BEGUN: u8 = 5;
    pub const FILE: u8 = 6;
    pub const HELD_BY_ANOTHER: u8 = 7;
    pub const NOT_HELD: u8 = 8;
    pub const PAGE: u8 = 9;
    pub const DATA_LENGTH: u8 = 10;
    pub const NO_FREE_REAL: u8 = 11;
    pub const RECORD_FULL: u8 = 12;
    pub const VOLUME_LENGTH: u8 = 13;
    pub const SHAPE: u8 = 14;
    pub const TOO_SMALL: u8 = 15;
    pub const READ_ONLY: u8 = 16;
}

/// Which clients (1 to 4) have a transaction running, and which files each of
/// them holds for reading.
#[derive(Clone, Copy, Debug, Default, PartialEq, Eq)]
pub struct Session {
    /// The mark of client 1 comes first.
    pub marks: [bool; MAX_CLIENTS],
    /// Bit f - 1 of the k-th number: client k holds file f for reading.
    pub reading: [u16; MAX_CLIENTS],
}

impl Session {
    /// A new session has no client open and no hold.
    pub const fn new() -> Session {
        Session { marks: [false; MAX_CLIENTS], reading: [0; MAX_CLIENTS] }
    }

    /// The session without holds whose marks are these bits, k - 1 for client
    /// k; a byte above 15 is none.
    pub fn from_bits(bits: u8) -> Option<Session> {
        (bits < 16).then(|| Session { marks: [0, 1, 2, 3].map(|bit| bits >> bit & 1 == 1), ..Session::new() })
    }

    /// The marks as bits.
    pub fn bits(self) -> u8 {
        (0..).zip(self.marks).map(|(bit, mark)| u8::from(mark) << bit).sum()
    }

    /// Whether no client is marked, whatever holds there are.
    pub fn has_no_mark(self) -> bool {
        self.marks == [false; MAX_CLIENTS]
    }

    fn is_marked(self, client: u8) -> bool {
        self.marks[usize::from(client) - 1]
    }

    /// Whether the client holds the file for reading.
    pub fn reads(self, client: u8, file: u8) -> bool {
        self.reading[usize::from(client) - 1] & file_bit(file) != 0
    }

    fn is_read_by_another(self, client: u8, file: u8) -> bool {
        (1..=MAX_CLIENTS as u8).any(|other| other != client && self.reads(other, file))
    }

    fn with_mark(mut self, client: u8) -> Session {
        self.marks[usize::from(client) - 1] = true;
        self
    }

    /// Without the client's mark and holds.
    fn without(mut self, client: u8) -> Session {
        self.marks[usize::from(client) - 1] = false;
        self.reading[usize::from(client) - 1] = 0;
        self
    }

    fn with_hold(mut self, client: u8, file: u8) -> Session {
        self.reading[usize::from(client) - 1] |= file_bit(file);
        self
    }

    fn without_hold(mut self, client: u8, file: u8) -> Session {
        self.reading[usize::from(client) - 1] &= !file_bit(file);
        self
    }
}

/// The bit of a file, 1 to 16, among those that a client reads.
const fn file_bit(file: u8) -> u16 {
    1 << (file - 1)
}

/// What every call with a budget answers.
#[derive(Clone, Copy, Debug, PartialEq, Eq)]
pub enum Outcome {
    /// All stores were made; their number.
    Done(u8),
    /// The budget ran out; the number of stores made.
    Cut(u8),
    /// Nothing was changed; the refusal's number.
    Refused(u8),
}

/// What read and look answer.
#[derive(Clone, Copy, Debug, PartialEq, Eq)]
pub enum Read {
    Sector(u16),
    Refused(u8),
}

type Sector = [u8; SECTOR_SIZE];

/// An entry of a record: file, page, real, 00.
type Entry = [u8; 4];

// ---------------------------------------------------------------- the calls

/// Lays out a volume of `clients` records and one file for each pair (pages,
/// reals) of `shape`.
pub fn format(volume: &mut [u8], clients: u8, shape: &[u8]) -> Result<(), u8> {
    let (sectors, rest) = volume.as_chunks_mut::<SECTOR_SIZE>();
    if !rest.is_empty() || sectors.len() > MAX_SECTORS {
        return Err(refusal::VOLUME_LENGTH);
    }
    let files = good_shape(clients, shape).ok_or(refusal::SHAPE)?;
    if sectors_needed(clients, files) > sectors.len() {
        return Err(refusal::TOO_SMALL);
    }

    sectors.fill([0; SECTOR_SIZE]);
    lay_out_table(sectors, clients, files);
    for record in &mut sectors[1..=usize::from(clients)] {
        record[..2].copy_from_slice(&RECORD_MARK);
    }
    let mut place = usize::from(clients) + 1;
    for &[pages, reals] in files {
        let header = &mut sectors[place];
        header[..2].copy_from_slice(&HEADER_MARK);
        let map = &mut header[BODY..][..usize::from(pages)];
        for (byte, real) in map.iter_mut().zip(0..) {
            *byte = real;
        }
        header[SPARE] = unmapped(map, reals);
        place += 1 + usize::from(reals);
    }
    Ok(())
}

/// Starts a transaction of `client`, after recovering an interrupted one.
pub fn begin(volume: &mut [u8], session: Session, client: u8, budget: u8) -> (Session, Outcome) {
    if let Err(number) = may_begin(volume, session, client) {
        return (session, Outcome::Refused(number));
    }
    make(volume, budget, session.with_mark(client), |stores| {
        if Record(&stores.sectors[usize::from(client)]).state() != IDLE {
            stores.recover(client)?;
        }
        stores.store_new_record(client, OPEN)
    })
}

/// Gives `file` to `client` for writing, after recovering an interrupted
/// holder. The client's hold for reading ends.
pub fn open(volume: &mut [u8], session: Session, client: u8, file: u8, budget: u8) -> (Session, Outcome) {
    let header = match may_open(volume, session, client, file) {
        Ok(header) => header,
        Err(number) => return (session, Outcome::Refused(number)),
    };
    make(volume, budget, session.without_hold(client, file), |stores| {
        let holder = stores.sectors[header][HOLDER];
        if holder == client {
            return Ok(());
        }
        // A holder other than the client is interrupted here: were it marked,
        // the call would have been refused.
        if holder != 0 {
            stores.recover(holder)?;
        }
        stores.work = stores.sectors[header];
        stores.work[HOLDER] = client;
        stores.store_work(header)
    })
}

/// Gives `file` to `client` for reading, after recovering an interrupted
/// holder. The hold itself takes no store.
pub fn open_read(volume: &mut [u8], session: Session, client: u8, file: u8, budget: u8) -> (Session, Outcome) {
    let header = match may_open_read(volume, session, client, file) {
        Ok(header) => header,
        Err(number) => return (session, Outcome::Refused(number)),
    };
    let holder = sectors(volume)[header][HOLDER];
    if holder == client {
        return (session, Outcome::Done(0));
    }
    make(volume, budget, session.with_hold(client, file), |stores| match holder {
        0 => Ok(()),
        // Interrupted, as in `open`.
        _ => stores.recover(holder),
    })
}

/// Writes one page in the transaction of `client`; seen by others only after
/// its commit.
pub fn write(
    volume: &mut [u8],
    session: Session,
    client: u8,
    file: u8,
    page: u8,
    data: &[u8],
    budget: u8,
) -> (Session, Outcome) {
    let plan = match may_write(volume, session, client, file, page, data) {
        Ok(plan) => plan,
        Err(number) => return (session, Outcome::Refused(number)),
    };
    make(volume, budget, session, |stores| {
        stores.store(plan.sector, plan.data)?;
        match plan.new_real {
            Some(real) => stores.append_entry(client, [file, page, real, 0]),
            None => Ok(()),
        }
    })
}

/// Decides the transaction of `client` and carries it out.
pub fn commit(volume: &mut [u8], session: Session, client: u8, budget: u8) -> (Session, Outcome) {
    if let Err(number) = admit(volume, session, client) {
        return (session, Outcome::Refused(number));
    }
    make(volume, budget, session.without(client), |stores| {
        let record = usize::from(client);
        stores.work = stores.sectors[record];
        stores.work[STATE] = DECIDED;
        stores.store_work(record)?;
        stores.recover(client)
    })
}

/// Drops the transaction of `client`.
pub fn abort(volume: &mut [u8], session: Session, client: u8, budget: u8) -> (Session, Outcome) {
    if let Err(number) = admit(volume, session, client) {
        return (session, Outcome::Refused(number));
    }
    make(volume, budget, session.without(client), |stores| stores.recover(client))
}

/// The number of the sector in which `client` finds the page.
pub fn read(volume: &[u8], session: Session, client: u8, file: u8, page: u8) -> Read {
    match held(volume, session, client, file).and_then(|held| held.find(page)) {
        // At most 1,024 sectors, so the number fits.
        Ok(found) => Read::Sector(found.sector() as u16),
        Err(number) => Read::Refused(number),
    }
}

/// The page itself, as a part of the lent array; empty on a refusal.
pub fn page(volume: &[u8], session: Session, client: u8, file: u8, page: u8) -> &[u8] {
    match held(volume, session, client, file).and_then(|held| held.find(page)) {
        Ok(found) => &found.held.sectors[found.sector()],
        Err(_) => &[],
    }
}

/// The number of the sector in which anyone finds the page as it was decided
/// last, whoever has the file. No session is needed.
pub fn look(volume: &[u8], file: u8, page: u8) -> Read {
    match decided_sector(volume, file, page) {
        // As in `read`.
        Ok(sector) => Read::Sector(sector as u16),
        Err(number) => Read::Refused(number),
    }
}

/// The page that a look finds, as a part of the lent array; empty on a
/// refusal.
pub fn look_page(volume: &[u8], file: u8, page: u8) -> &[u8] {
    match decided_sector(volume, file, page) {
        Ok(sector) => &sectors(volume)[sector],
        Err(_) => &[],
    }
}

/// How many reals of the file its map doesn't use, by the count in its
/// header. Sector 0 and that header's mark are tested, and nothing else.
pub fn spare(volume: &[u8], file: u8) -> Result<u8, u8> {
    let sectors = with_sound_table(volume).ok_or(refusal::NOT_SOUND)?;
    let header = &sectors[Table(&sectors[0]).find(file).ok_or(refusal::FILE)?.header];
    if header[..2] != HEADER_MARK {
        return Err(refusal::NOT_SOUND);
    }
    Ok(header[SPARE])
}

/// Writes the listing into `out` and answers its length; none if the volume
/// isn't sound or the text doesn't fit.
pub fn list(volume: &[u8], out: &mut [u8]) -> Option<usize> {
    if !is_sound(volume) {
        return None;
    }
    let mut text = Text { out, length: 0 };
    write_listing(sectors(volume), &mut text).ok()?;
    Some(text.length)
}

// ------------------------------------------------------------ the soundness

/// Whether every control sector keeps the rules. One pass over the control
/// sectors; the slots of the files and the sectors behind them aren't read.
pub fn is_sound(volume: &[u8]) -> bool {
    let Some(sectors) = with_sound_table(volume) else {
        return false;
    };
    let table = Table(&sectors[0]);
    let records = &sectors[1..=usize::from(table.clients())];
    records.iter().all(|record| record_is_sound(table, record))
        && table.files().all(|(number, file)| header_is_sound(sectors, number, file))
}

/// The sectors of the array, if its length and sector 0 keep the rules.
fn with_sound_table(volume: &[u8]) -> Option<&[Sector]> {
    let (sectors, rest) = volume.as_chunks();
    let table = sectors.first()?;
    (rest.is_empty() && table_is_sound(table, sectors.len())).then_some(sectors)
}

/// Sector 0 of a volume of `length` sectors. If it is sound, every sector
/// that it speaks of lies inside the volume.
fn table_is_sound(table: &Sector, length: usize) -> bool {
    let (clients, files) = (table[CLIENTS], usize::from(table[FILES]));
    if table[..2] != TABLE_MARK
        || length > MAX_SECTORS
        || word(table[2], table[3]) != length
        || !(1..=MAX_CLIENTS).contains(&usize::from(clients))
        || !(1..=MAX_FILES).contains(&files)
        || !is_zero(&table[6..BODY])
    {
        return false;
    }
    let (entries, rest) = table[BODY..].split_at(4 * files);
    let mut place = usize::from(clients) + 1;
    for &[low, high, pages, reals] in entries.as_chunks::<4>().0 {
        if word(low, high) != place || !good_file(pages, reals) {
            return false;
        }
        place += 1 + usize::from(reals);
    }
    place <= length && is_zero(rest)
}

/// One intentions record by itself, with the shape of the files known.
fn record_is_sound(table: Table, sector: &Sector) -> bool {
    let count = usize::from(sector[COUNT]);
    if sector[..2] != RECORD_MARK
        || sector[STATE] > DECIDED
        || count > MAX_ENTRIES
        || (sector[STATE] == IDLE && count != 0)
        || !is_zero(&sector[4..BODY])
        || !is_zero(&sector[BODY + 4 * count..])
    {
        return false;
    }
    let entries = Record(sector).entries();
    entries.iter().all(|entry| entry_fits(table, entry)) && entries_differ(entries)
}

/// Whether an entry names an existing file, page and real.
fn entry_fits(table: Table, &[number, page, real, last]: &Entry) -> bool {
    match table.find(number) {
        Some(file) => page < file.pages && real < file.reals && last == 0,
        None => false,
    }
}

/// Whether no two entries share (file, page) or (file, real). An entry is
/// compared as one 32-bit number with each one before it, without a branch.
fn entries_differ(entries: &[Entry]) -> bool {
    entries.iter().enumerate().all(|(index, &entry)| {
        let entry = u32::from_le_bytes(entry);
        !entries[..index].iter().fold(false, |clash, &other| {
            let difference = entry ^ u32::from_le_bytes(other);
            clash | (difference & 0x00_00_FF_FF == 0) | (difference & 0x00_FF_00_FF == 0)
        })
    })
}

/// One file header, with the records known to be sound.
fn header_is_sound(sectors: &[Sector], number: u8, file: File) -> bool {
    let sector = &sectors[file.header];
    let (map, rest) = sector[BODY..].split_at(usize::from(file.pages));
    if sector[..2] != HEADER_MARK
        || sector[SPARE] != unmapped(map, file.reals)
        || !is_zero(&sector[4..BODY])
        || !is_zero(rest)
    {
        return false;
    }
    let mut mapped = RealSet::default();
    if !map.iter().all(|&real| real < file.reals && mapped.insert(real)) {
        return false;
    }
    let holder = sector[HOLDER];
    holder == 0
        || (holder <= Table(&sectors[0]).clients()
            && holder_is_sound(Record(&sectors[usize::from(holder)]), number, mapped))
}

/// How many of a file's reals its map doesn't use. The bytes of a map are
/// distinct, so each of them uses one real.
fn unmapped(map: &[u8], reals: u8) -> u8 {
    reals - map.len() as u8
}

/// The rules between a header and the record of the client that it names.
fn holder_is_sound(record: Record, number: u8, mapped: RealSet) -> bool {
    record.state() != IDLE && record.reals_of(number).all(|real| !mapped.contains(real))
}

// ------------------------------------------------------------- the refusals

/// Refusals 1 to 3, tested by every call that takes a session.
fn known_client(volume: &[u8], session: Session, client: u8) -> Result<&[Sector], u8> {
    if !is_sound(volume) {
        return Err(refusal::NOT_SOUND);
    }
    let sectors = sectors(volume);
    if !session_fits(sectors, session) {
        return Err(refusal::SESSION);
    }
    if client == 0 || client > Table(&sectors[0]).clients() {
        return Err(refusal::CLIENT);
    }
    Ok(sectors)
}

fn session_fits(sectors: &[Sector], session: Session) -> bool {
    (1..=MAX_CLIENTS as u8).filter(|&client| session.is_marked(client)).all(|client| mark_fits(sectors, client))
        && holds_fit(sectors, session)
}

/// Whether a marked client exists, has an open record and is the holder of
/// every file that its record has an entry for.
fn mark_fits(sectors: &[Sector], client: u8) -> bool {
    let table = Table(&sectors[0]);
    if client > table.clients() {
        return false;
    }
    let record = Record(&sectors[usize::from(client)]);
    let holds = |&[file, ..]: &Entry| sectors[table.file(file).header][HOLDER] == client;
    record.state() == OPEN && record.entries().iter().all(holds)
}

/// Whether only marked clients read, and only files that exist and whose
/// headers name no holder.
fn holds_fit(sectors: &[Sector], session: Session) -> bool {
    let read = session.reading.iter().fold(0, |all, files| all | files);
    if read == 0 {
        return true;
    }
    let table = Table(&sectors[0]);
    let is_free = |file: u8| table.find(file).is_some_and(|file| sectors[file.header][HOLDER] == 0);
    session.marks.iter().zip(session.reading).all(|(&marked, files)| marked || files == 0)
        && (1..=MAX_FILES as u8).filter(|&file| read & file_bit(file) != 0).all(is_free)
}

fn may_begin(volume: &[u8], session: Session, client: u8) -> Result<(), u8> {
    known_client(volume, session, client)?;
    if session.is_marked(client) {
        return Err(refusal::ALREADY_BEGUN);
    }
    Ok(())
}

/// Refusals 1 to 5 for the calls other than begin.
fn admit(volume: &[u8], session: Session, client: u8) -> Result<&[Sector], u8> {
    let sectors = known_client(volume, session, client)?;
    if !session.is_marked(client) {
        return Err(refusal::NOT_BEGUN);
    }
    Ok(sectors)
}

/// Answers the header's sector if the file may be opened for reading.
fn may_open_read(volume: &[u8], session: Session, client: u8, file: u8) -> Result<usize, u8> {
    let sectors = admit(volume, session, client)?;
    let header = Table(&sectors[0]).find(file).ok_or(refusal::FILE)?.header;
    let holder = sectors[header][HOLDER];
    if holder != 0 && holder != client && session.is_marked(holder) {
        return Err(refusal::HELD_BY_ANOTHER);
    }
    Ok(header)
}

/// Answers the header's sector if the file may be opened for writing.
fn may_open(volume: &[u8], session: Session, client: u8, file: u8) -> Result<usize, u8> {
    let header = may_open_read(volume, session, client, file)?;
    if session.is_read_by_another(client, file) {
        return Err(refusal::HELD_BY_ANOTHER);
    }
    Ok(header)
}

/// A file that a client holds, for writing or for reading.
struct Held<'a> {
    sectors: &'a [Sector],
    number: u8,
    file: File,
    record: Record<'a>,
    for_writing: bool,
}

/// Refusals 1 to 8 of read and write.
fn held(volume: &[u8], session: Session, client: u8, number: u8) -> Result<Held<'_>, u8> {
    let sectors = admit(volume, session, client)?;
    let file = Table(&sectors[0]).find(number).ok_or(refusal::FILE)?;
    let for_writing = sectors[file.header][HOLDER] == client;
    if !for_writing && !session.reads(client, number) {
        return Err(refusal::NOT_HELD);
    }
    let record = Record(&sectors[usize::from(client)]);
    Ok(Held { sectors, number, file, record, for_writing })
}

impl<'a> Held<'a> {
    /// Refusal 9.
    fn find(self, page: u8) -> Result<Found<'a>, u8> {
        if page >= self.file.pages {
            return Err(refusal::PAGE);
        }
        let given = self.record.real_of(self.number, page);
        Ok(Found { held: self, page, given })
    }
}

/// A page that a client may read, and where it is.
struct Found<'a> {
    held: Held<'a>,
    page: u8,
    /// The real that the client's record gives for the page.
    given: Option<u8>,
}

impl<'a> Found<'a> {
    fn header(&self) -> &'a Sector {
        &self.held.sectors[self.held.file.header]
    }

    /// The real that the map gives for the page.
    fn mapped(&self) -> u8 {
        self.header()[BODY + usize::from(self.page)]
    }

    /// The sector that shows the page to the client.
    fn sector(&self) -> usize {
        self.held.file.sector_of(self.given.unwrap_or_else(|| self.mapped()))
    }

    /// The first real above the one mapped for the page, and from 0 again
    /// after the last, that is neither mapped nor given for the file.
    fn free_real(&self) -> Option<u8> {
        let Held { number, file, record, .. } = self.held;
        let map = &self.header()[BODY..][..usize::from(file.pages)];
        let mut used = RealSet::default();
        for real in map.iter().copied().chain(record.reals_of(number)) {
            used.insert(real);
        }
        let from = |start| used.lowest_absent(start).filter(|&real| real < file.reals);
        // The real mapped is below 240, so the sum fits.
        from(self.mapped() + 1).or_else(|| from(0))
    }
}

/// Refusals 1, 6 and 9 of look, and the sector of the decided page: by the
/// holder's record if that is decided and has the page, else by the map.
fn decided_sector(volume: &[u8], number: u8, page: u8) -> Result<usize, u8> {
    if !is_sound(volume) {
        return Err(refusal::NOT_SOUND);
    }
    let sectors = sectors(volume);
    let file = Table(&sectors[0]).find(number).ok_or(refusal::FILE)?;
    if page >= file.pages {
        return Err(refusal::PAGE);
    }
    let header = &sectors[file.header];
    let given = decided_record(sectors, header[HOLDER]).and_then(|record| record.real_of(number, page));
    Ok(file.sector_of(given.unwrap_or(header[BODY + usize::from(page)])))
}

/// The record of the client that a header names, if it names one and the
/// record is decided.
fn decided_record(sectors: &[Sector], holder: u8) -> Option<Record<'_>> {
    if holder == 0 {
        return None;
    }
    Some(Record(&sectors[usize::from(holder)])).filter(|record| record.state() == DECIDED)
}

/// What a write is going to store.
struct WritePlan<'a> {
    sector: usize,
    data: &'a Sector,
    /// The real of the entry to append, if the page has none yet.
    new_real: Option<u8>,
}

fn may_write<'a>(
    volume: &[u8],
    session: Session,
    client: u8,
    file: u8,
    page: u8,
    data: &'a [u8],
) -> Result<WritePlan<'a>, u8> {
    let held = held(volume, session, client, file)?;
    if !held.for_writing {
        return Err(refusal::READ_ONLY);
    }
    let found = held.find(page)?;
    let data: &Sector = data.try_into().map_err(|_| refusal::DATA_LENGTH)?;
    if found.given.is_some() {
        return Ok(WritePlan { sector: found.sector(), data, new_real: None });
    }
    let real = found.free_real().ok_or(refusal::NO_FREE_REAL)?;
    if found.held.record.entries().len() == MAX_ENTRIES {
        return Err(refusal::RECORD_FULL);
    }
    Ok(WritePlan { sector: found.held.file.sector_of(real), data, new_real: Some(real) })
}

// --------------------------------------------------------------- the stores

/// The budget is used up and a store is still to be made.
struct Cut;

/// The stores of one call: counted, and made one whole sector at a time.
struct Stores<'a> {
    sectors: &'a mut [Sector],
    /// The working sector, in which a header or record is built.
    work: Sector,
    budget: u8,
    made: u8,
}

/// Makes the stores of a call that isn't refused. `after` is the session
/// handed back if all of them are made.
fn make(
    volume: &mut [u8],
    budget: u8,
    after: Session,
    stores_of_call: impl FnOnce(&mut Stores) -> Result<(), Cut>,
) -> (Session, Outcome) {
    let (sectors, _) = volume.as_chunks_mut();
    let mut stores = Stores { sectors, work: [0; SECTOR_SIZE], budget, made: 0 };
    match stores_of_call(&mut stores) {
        Ok(()) => (after, Outcome::Done(stores.made)),
        Err(Cut) => (Session::new(), Outcome::Cut(stores.made)),
    }
}

impl Stores<'_> {
    /// Counts one store, if the budget has one left.
    fn spend(&mut self) -> Result<(), Cut> {
        if self.made == self.budget {
            return Err(Cut);
        }
        self.made += 1;
        Ok(())
    }

    fn store(&mut self, sector: usize, bytes: &Sector) -> Result<(), Cut> {
        self.spend()?;
        self.sectors[sector] = *bytes;
        Ok(())
    }

    fn store_work(&mut self, sector: usize) -> Result<(), Cut> {
        self.spend()?;
        self.sectors[sector] = self.work;
        Ok(())
    }

    /// Stores a record without entries.
    fn store_new_record(&mut self, client: u8, state: u8) -> Result<(), Cut> {
        self.work = [0; SECTOR_SIZE];
        self.work[..2].copy_from_slice(&RECORD_MARK);
        self.work[STATE] = state;
        self.store_work(usize::from(client))
    }

    fn append_entry(&mut self, client: u8, entry: Entry) -> Result<(), Cut> {
        let record = usize::from(client);
        self.work = self.sectors[record];
        let start = BODY + 4 * usize::from(self.work[COUNT]);
        self.work[start..start + 4].copy_from_slice(&entry);
        self.work[COUNT] += 1;
        self.store_work(record)
    }

    /// Frees every file that the client holds, with its new map if the record
    /// is decided, and makes the record idle last of all.
    fn recover(&mut self, client: u8) -> Result<(), Cut> {
        for number in 1..=Table(&self.sectors[0]).file_count() {
            let header = Table(&self.sectors[0]).file(number).header;
            if self.sectors[header][HOLDER] == client {
                self.free_file(client, number, header)?;
            }
        }
        self.store_new_record(client, IDLE)
    }

    /// The count of unmapped reals stays: an entry puts one real in another's
    /// place.
    fn free_file(&mut self, client: u8, number: u8, header: usize) -> Result<(), Cut> {
        self.work = self.sectors[header];
        self.work[HOLDER] = 0;
        let record = Record(&self.sectors[usize::from(client)]);
        if record.state() == DECIDED {
            for &[_, page, real, _] in record.entries_of(number) {
                self.work[BODY + usize::from(page)] = real;
            }
        }
        self.store_work(header)
    }
}

// ---------------------------------------------------- views of the sectors

/// The whole sectors of a volume.
fn sectors(volume: &[u8]) -> &[Sector] {
    volume.as_chunks().0
}

/// A two-byte number, low byte first.
fn word(low: u8, high: u8) -> usize {
    usize::from(u16::from_le_bytes([low, high]))
}

fn is_zero(bytes: &[u8]) -> bool {
    bytes.iter().fold(0, |all, byte| all | byte) == 0
}

/// The place and size of a file.
#[derive(Clone, Copy)]
struct File {
    header: usize,
    pages: u8,
    reals: u8,
}

impl File {
    fn sector_of(self, real: u8) -> usize {
        self.header + 1 + usize::from(real)
    }
}

/// Sector 0.
#[derive(Clone, Copy)]
struct Table<'a>(&'a Sector);

impl<'a> Table<'a> {
    fn clients(self) -> u8 {
        self.0[CLIENTS]
    }

    fn file_count(self) -> u8 {
        self.0[FILES]
    }

    /// File `number`, which counts from 1 and is known to exist.
    fn file(self, number: u8) -> File {
        let start = BODY + 4 * (usize::from(number) - 1);
        File { header: word(self.0[start], self.0[start + 1]), pages: self.0[start + 2], reals: self.0[start + 3] }
    }

    fn find(self, number: u8) -> Option<File> {
        (1..=self.file_count()).contains(&number).then(|| self.file(number))
    }

    fn files(self) -> impl Iterator<Item = (u8, File)> + 'a {
        (1..=self.file_count()).map(move |number| (number, self.file(number)))
    }
}

/// An intentions record.
#[derive(Clone, Copy)]
struct Record<'a>(&'a Sector);

impl<'a> Record<'a> {
    fn state(self) -> u8 {
        self.0[STATE]
    }

    fn entries(self) -> &'a [Entry] {
        self.0[BODY..][..4 * usize::from(self.0[COUNT])].as_chunks().0
    }

    fn entries_of(self, number: u8) -> impl Iterator<Item = &'a Entry> {
        self.entries().iter().filter(move |entry| entry[0] == number)
    }

    /// The reals that the record gives for a file.
    fn reals_of(self, number: u8) -> impl Iterator<Item = u8> + 'a {
        self.entries_of(number).map(|&[_, _, real, _]| real)
    }

    /// The real that the record gives for one page.
    fn real_of(self, number: u8, page: u8) -> Option<u8> {
        self.entries_of(number).find(|entry| entry[1] == page).map(|&[_, _, real, _]| real)
    }
}

/// A set of reals, one bit each.
#[derive(Clone, Copy, Default)]
struct RealSet([u32; 8]);

impl RealSet {
    /// Answers whether the real was absent before.
    fn insert(&mut self, real: u8) -> bool {
        let (index, bit) = RealSet::place(real);
        let absent = self.0[index] & bit == 0;
        self.0[index] |= bit;
        absent
    }

    fn contains(&self, real: u8) -> bool {
        let (index, bit) = RealSet::place(real);
        self.0[index] & bit != 0
    }

    /// The lowest absent real from `start` on.
    fn lowest_absent(&self, start: u8) -> Option<u8> {
        let (first, bit) = RealSet::place(start);
        // In the first word, the bits below the start's count as present.
        let mut below = bit - 1;
        for (index, &bits) in self.0.iter().enumerate().skip(first) {
            let bits = bits | below;
            if bits != u32::MAX {
                return Some((32 * index as u32 + bits.trailing_ones()) as u8);
            }
            below = 0;
        }
        None
    }

    fn place(real: u8) -> (usize, u32) {
        (usize::from(real >> 5), 1 << (real & 31))
    }
}

// --------------------------------------------------- pieces of the layout

fn good_file(pages: u8, reals: u8) -> bool {
    (1..=MAX_PAGES).contains(&pages) && (pages..=MAX_REALS).contains(&reals)
}

/// The pairs of a shape, if it and the number of clients are in range.
fn good_shape(clients: u8, shape: &[u8]) -> Option<&[[u8; 2]]> {
    let (files, odd) = shape.as_chunks::<2>();
    let good = (1..=MAX_CLIENTS).contains(&usize::from(clients))
        && odd.is_empty()
        && (1..=MAX_FILES).contains(&files.len())
        && files.iter().all(|&[pages, reals]| good_file(pages, reals));
    good.then_some(files)
}

fn sectors_needed(clients: u8, files: &[[u8; 2]]) -> usize {
    let in_files: usize = files.iter().map(|&[_, reals]| 1 + usize::from(reals)).sum();
    1 + usize::from(clients) + in_files
}

fn lay_out_table(sectors: &mut [Sector], clients: u8, files: &[[u8; 2]]) {
    let [length_low, length_high] = (sectors.len() as u16).to_le_bytes();
    let table = &mut sectors[0];
    let front = [TABLE_MARK[0], TABLE_MARK[1], length_low, length_high, clients, files.len() as u8, 0, 0];
    table[..BODY].copy_from_slice(&front);
    let mut place = u16::from(clients) + 1;
    for (entry, &[pages, reals]) in table[BODY..].as_chunks_mut::<4>().0.iter_mut().zip(files) {
        let [low, high] = place.to_le_bytes();
        *entry = [low, high, pages, reals];
        place += 1 + u16::from(reals);
    }
}

// -------------------------------------------------- pieces of the listing

/// Text written into a lent buffer.
struct Text<'a> {
    out: &'a mut [u8],
    length: usize,
}

impl fmt::Write for Text<'_> {
    fn write_str(&mut self, text: &str) -> fmt::Result {
        let end = self.length + text.len();
        let place = self.out.get_mut(self.length..end).ok_or(fmt::Error)?;
        place.copy_from_slice(text.as_bytes());
        self.length = end;
        Ok(())
    }
}

fn write_listing(sectors: &[Sector], text: &mut Text) -> fmt::Result {
    let table = Table(&sectors[0]);
    for client in 1..=table.clients() {
        let record = Record(&sectors[usize::from(client)]);
        let state = match record.state() {
            IDLE => "idle",
            OPEN => "open",
            _ => "decided",
        };
        writeln!(text, "kiln {client} {state} {}", record.entries().len())?;
    }
    for (number, File { header, pages, reals }) in table.files() {
        let holder = sectors[header][HOLDER];
        writeln!(text, "file {number} kiln {holder} pages {pages} sectors {reals}")?;
    }
    Ok(())
}
