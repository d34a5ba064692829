//! Random runs for the test driver.
//!
//! A run begins with a layout and goes on with lines chosen from the state
//! that the volume is in, so that most calls do something. Everything follows
//! from the seed of its [`Random`].

use crate::call::{Answer, Call};
use crate::check::{tally, World};
use crate::random::Random;
use crate::script::{data, Line, MAX_DATA, MAX_VOLUME};
use crate::volume::{self, MAX_CLIENTS, MAX_FILES, MAX_PAGES, MAX_REALS, MAX_SECTORS, SECTOR_SIZE};

mod looks;
mod readers;
mod sessions;
mod spares;

type Check = Result<(), String>;

/// Makes one run. An error is a failed check.
pub fn run(world: &mut World, random: Random) -> Check {
    world.shared().count(tally::RUNS);
    world.reset();
    let mut run = Run { world, random, layout: Layout::default() };
    match run.random.below(28) {
        0 => run.layouts(),
        1..=9 => run.calls_against_book(),
        10 => run.full_record(),
        11..=14 => run.calls_with_foreign_sessions(),
        15..=18 => run.crafted(),
        19 => run.damaged(),
        20 => run.rewrites(),
        21..=22 => run.questions(),
        _ => run.readers(),
    }
}

struct Run<'a> {
    world: &'a mut World,
    random: Random,
    layout: Layout,
}

/// Where things are in the volume laid out.
#[derive(Clone, Default)]
struct Layout {
    clients: u8,
    files: Vec<FileSpot>,
}

#[derive(Clone, Copy)]
struct FileSpot {
    number: u8,
    header: usize,
    pages: u8,
    reals: u8,
}

impl Layout {
    fn new(clients: u8, shape: &[u8]) -> Layout {
        let mut place = usize::from(clients) + 1;
        let mut files = Vec::new();
        for (number, pair) in (1..).zip(shape.chunks(2)) {
            let (pages, reals) = (pair[0], pair[1]);
            files.push(FileSpot { number, header: place, pages, reals });
            place += 1 + usize::from(reals);
        }
        Layout { clients, files }
    }

    fn control_sectors(&self) -> Vec<usize> {
        (0..=usize::from(self.clients)).chain(self.files.iter().map(|file| file.header)).collect()
    }
}

// ------------------------------------------------------------- kinds of runs

impl Run<'_> {
    /// Calls from the layout on, with cuts and crashes.
    fn calls_against_book(&mut self) -> Check {
        let shape = self.any_shape();
        self.lay_out(shape)?;
        for _ in 0..self.run_length() {
            self.step()?;
        }
        Ok(())
    }

    /// A transaction that fills its record.
    fn full_record(&mut self) -> Check {
        let pages = self.random.between(61, 70);
        // About as many free reals as a record has entries.
        let reals = self.random.between(pages + 60, pages + 63);
        let clients = self.random.between(1, 2);
        self.lay_out((clients, vec![pages, reals, 3, 6]))?;
        self.call(Call::Begin { client: 1, budget: 255 })?;
        self.call(Call::Open { client: 1, file: 1, budget: 255 })?;
        self.call(Call::Open { client: 1, file: 2, budget: 255 })?;
        let mut pages: Vec<(u8, u8)> = (0..pages).map(|page| (1, page)).chain([(2, 0), (2, 1)]).collect();
        self.random.shuffle(&mut pages);
        for (file, page) in pages {
            let data = data(self.random.byte(), SECTOR_SIZE);
            self.call(Call::Write { client: 1, file, page, data, budget: 255 })?;
        }
        self.sweep(Call::Commit { client: 1, budget: 255 })?;
        for _ in 0..20 {
            self.step()?;
        }
        Ok(())
    }

    /// A few pages of one file in transaction after transaction, until they
    /// have gone round its reals.
    fn rewrites(&mut self) -> Check {
        let shape = if self.random.chance(40) { self.small_shape() } else { self.one_file() };
        self.lay_out(shape)?;
        let client = self.random.between(1, self.layout.clients);
        let Some(file) = self.random.pick(&self.layout.files) else { return Ok(()) };
        let mut pages: Vec<u8> = (0..file.pages).collect();
        self.random.shuffle(&mut pages);
        pages.truncate(1 + self.random.below(4));
        let once_round = usize::from(file.reals - file.pages) / pages.len();
        for _ in 0..once_round + 8 {
            self.rewrite(client, file.number, &mut pages)?;
            if self.random.chance(10) {
                self.step()?;
            }
        }
        Ok(())
    }

    /// One transaction that writes the pages, in any order.
    fn rewrite(&mut self, client: u8, file: u8, pages: &mut [u8]) -> Check {
        // A crash, if a step has left a transaction running.
        if !self.world.session().is_new() {
            self.world.play(&Line::Session(0))?;
        }
        self.call(Call::Begin { client, budget: 255 })?;
        self.call(Call::Open { client, file, budget: 255 })?;
        self.random.shuffle(pages);
        for &page in &*pages {
            let data = data(self.random.byte(), SECTOR_SIZE);
            self.call(Call::Write { client, file, page, data, budget: 255 })?;
        }
        let commit = Call::Commit { client, budget: 255 };
        if self.random.chance(5) {
            self.sweep(commit)?;
        }
        self.call(commit)
    }

    /// Calls with sessions that no call handed back.
    fn calls_with_foreign_sessions(&mut self) -> Check {
        let shape = self.any_shape();
        self.lay_out(shape)?;
        for _ in 0..self.run_length() {
            if self.random.chance(25) {
                self.foreign_session()?;
            }
            self.step()?;
        }
        Ok(())
    }

    /// Calls on a sound volume that was made up, not reached by calls.
    fn crafted(&mut self) -> Check {
        let shape = self.any_shape();
        self.lay_out(shape)?;
        self.craft()?;
        for _ in 0..30 {
            if self.random.chance(30) {
                self.foreign_session()?;
            }
            self.step()?;
        }
        Ok(())
    }

    /// One wrong byte at a time in a volume in full use.
    fn damaged(&mut self) -> Check {
        let shape = if self.random.chance(90) { self.small_shape() } else { self.any_shape() };
        self.lay_out(shape)?;
        if self.random.chance(40) {
            self.craft()?;
            self.foreign_session()?;
        } else {
            for _ in 0..self.random.below(40) {
                self.step()?;
            }
        }
        self.flips()
    }

    /// Layouts with right and wrong arguments, and a few calls after each.
    fn layouts(&mut self) -> Check {
        for _ in 0..10 {
            let line = self.any_layout();
            let answer = self.world.play(&line)?;
            if let (Some(Answer::Done(_)), Line::Format { clients, shape, .. }) = (answer, line) {
                self.layout = Layout::new(clients, &shape);
            }
            for _ in 0..3 {
                self.step()?;
            }
        }
        Ok(())
    }

    /// Longer runs on shorter volumes.
    fn run_length(&mut self) -> usize {
        let longest = if self.world.volume().len() > 200 * SECTOR_SIZE { 120 } else { 400 };
        1 + self.random.below(longest)
    }
}

// ------------------------------------------------------------------- shapes

/// The number of clients and the list of (pages, reals).
type Shape = (u8, Vec<u8>);

impl Run<'_> {
    fn lay_out(&mut self, (clients, shape): Shape) -> Check {
        let needed = sectors_needed(clients, &shape);
        let spare = match self.random.below(10) {
            0..=4 => 0,
            5..=8 => self.random.below(6),
            _ => self.random.below(40),
        };
        let length = SECTOR_SIZE * (needed + spare).min(MAX_SECTORS);
        self.layout = Layout::new(clients, &shape);
        self.world.play(&Line::Format { length, clients, shape })?;
        Ok(())
    }

    fn any_shape(&mut self) -> Shape {
        match self.random.below(20) {
            0..=11 => self.small_shape(),
            12..=15 => self.shape_of(MAX_FILES, 8, 8),
            16..=18 => self.shape_of(3, MAX_PAGES, 120),
            _ => self.shape_of(MAX_FILES, MAX_PAGES, MAX_REALS),
        }
    }

    fn small_shape(&mut self) -> Shape {
        self.shape_of(4, 4, 4)
    }

    /// One file, with a few spare reals or with all that it can have.
    fn one_file(&mut self) -> Shape {
        let clients = self.random.between(1, MAX_CLIENTS as u8);
        let pages = self.random.between(1, MAX_PAGES);
        let reals = match self.random.below(3) {
            0 => pages + self.random.between(0, 8),
            1 => pages + self.random.between(0, 40),
            _ => MAX_REALS,
        };
        (clients, vec![pages, reals])
    }

    /// At most so many files and pages, and at most `more` reals above the
    /// pages; files that find no room are left out.
    fn shape_of(&mut self, files: usize, pages: u8, more: u8) -> Shape {
        let clients = self.random.between(1, MAX_CLIENTS as u8);
        let mut shape = Vec::new();
        for _ in 0..=self.random.below(files) {
            let pages = self.random.between(1, pages);
            let reals = self.random.between(pages, pages.saturating_add(more).min(MAX_REALS));
            shape.extend([pages, reals]);
            if sectors_needed(clients, &shape) > MAX_SECTORS {
                shape.truncate(shape.len() - 2);
            }
        }
        (clients, shape)
    }

    fn any_layout(&mut self) -> Line {
        let (mut clients, mut shape) = self.any_shape();
        let needed = sectors_needed(clients, &shape);
        let mut length = SECTOR_SIZE * (needed + self.random.below(3)).min(MAX_SECTORS);
        if self.random.chance(40) {
            length = match self.random.below(6) {
                0 => 0,
                1 => MAX_VOLUME,
                2 => MAX_SECTORS * SECTOR_SIZE,
                3 => length.saturating_sub(SECTOR_SIZE),
                4 => self.random.below(MAX_VOLUME + 1),
                _ => length + 1 + self.random.below(255),
            }
            .min(MAX_VOLUME);
        }
        if self.random.chance(15) {
            clients = self.random.pick(&[0, 5, 6, 255]).unwrap_or(0);
        }
        if self.random.chance(30) {
            self.spoil_shape(&mut shape);
        }
        Line::Format { length, clients, shape }
    }

    fn spoil_shape(&mut self, shape: &mut Vec<u8>) {
        match self.random.below(4) {
            0 => {
                shape.pop();
            }
            1 => shape.clear(),
            2 => {
                // Up to twice as many files as allowed, all of them small.
                let files = 15 + self.random.below(18);
                *shape = [1, 1].repeat(files);
            }
            _ => {
                let index = self.random.below(shape.len().max(1));
                if let Some(place) = shape.get_mut(index) {
                    *place = self.random.pick(&[0, 1, 120, 121, 240, 241, 255]).unwrap_or(0);
                }
            }
        }
    }
}

fn sectors_needed(clients: u8, shape: &[u8]) -> usize {
    1 + usize::from(clients) + shape.chunks(2).map(|pair| 1 + usize::from(pair[1])).sum::<usize>()
}

// ---------------------------------------------------------------- the steps

impl Run<'_> {
    /// One call, or a crash, or a listing.
    fn step(&mut self) -> Check {
        if self.random.chance(2) {
            self.world.play(&Line::Session(0))?;
        }
        if self.random.chance(2) {
            self.world.play(&Line::List)?;
        }
        let call = self.any_call();
        if self.random.chance(6) {
            self.sweep(call)?;
        }
        if self.random.chance(4) {
            self.open_for_a_look()?;
        }
        self.call(call)
    }

    /// Makes the call, and looks and asks around after it.
    fn call(&mut self, call: Call<'static>) -> Check {
        let answer = self.world.play(&Line::Call(call))?;
        self.look_around(answer)?;
        self.ask_around()
    }

    /// Cuts the call at every store and goes on a little from each cut; then
    /// the volume is as before.
    fn sweep(&mut self, call: Call<'static>) -> Check {
        let start = self.world.snapshot();
        let answer = self.world.play(&Line::Call(call.with_budget(255)))?;
        if let Some(Answer::Done(count)) = answer {
            self.world.shared().count(tally::CUT_SWEEPS);
            for budget in 0..=count {
                self.world.restore(&start);
                self.call(call.with_budget(budget))?;
                if self.random.chance(20) {
                    self.open_for_a_look()?;
                }
                for _ in 0..self.random.below(8) {
                    let next = self.any_call();
                    self.call(next)?;
                }
            }
        }
        self.world.restore(&start);
        Ok(())
    }
}

// ---------------------------------------------------------------- the calls

impl Run<'_> {
    /// A call that is mostly useful, with one wrong argument now and then.
    fn any_call(&mut self) -> Call<'static> {
        let call = self.useful_call();
        let budget = self.budget();
        let mut call = call.with_budget(budget);
        if self.random.chance(6) {
            self.spoil_call(&mut call);
        }
        call
    }

    fn budget(&mut self) -> u8 {
        match self.random.below(100) {
            0..=5 => self.random.between(0, 4),
            6..=8 => self.random.between(0, 20),
            9 => self.random.byte(),
            _ => 255,
        }
    }

    fn useful_call(&mut self) -> Call<'static> {
        if self.random.chance(3) {
            let (file, page) = self.page_to_look_at();
            return Call::Look { file, page };
        }
        if self.random.chance(2) {
            return Call::Spare { file: self.any_file() };
        }
        let session = self.world.session();
        let clients = 1..=self.layout.clients.max(1);
        let (marked, unmarked): (Vec<u8>, Vec<u8>) = clients.partition(|&client| session.marks(client));

        let begin = self.random.chance(if marked.is_empty() { 90 } else { 10 });
        if let (true, Some(client)) = (begin, self.random.pick(&unmarked)) {
            return Call::Begin { client, budget: 255 };
        }
        let client = self.random.pick(&marked).unwrap_or(1);
        self.call_of(client)
    }

    /// A call of a client that has a transaction running.
    fn call_of(&mut self, client: u8) -> Call<'static> {
        let budget = 255;
        let (written, read) = (self.written_files(client), self.read_files(client));
        let held = [&written[..], &read].concat();
        if held.is_empty() && self.random.chance(70) {
            return self.open_either(client);
        }
        match self.random.below(100) {
            0..=23 => self.open_either(client),
            24..=28 => Call::Open { client, file: self.pick_page(&read).0, budget },
            29 => Call::Begin { client, budget },
            30..=50 if written.is_empty() => self.open_either(client),
            30..=64 => {
                let files = if self.random.chance(90) { &written } else { &held };
                let ((file, page), data) = (self.pick_page(files), data(self.random.byte(), SECTOR_SIZE));
                Call::Write { client, file, page, data, budget }
            }
            65..=84 => {
                let (file, page) = self.pick_page(&held);
                Call::Read { client, file, page }
            }
            85..=93 => Call::Commit { client, budget },
            _ => Call::Abort { client, budget },
        }
    }

    fn open_either(&mut self, client: u8) -> Call<'static> {
        let (file, budget) = (self.any_file(), 255);
        if self.random.chance(50) {
            Call::Open { client, file, budget }
        } else {
            Call::OpenRead { client, file, budget }
        }
    }

    /// The files that the client holds for writing.
    fn written_files(&self, client: u8) -> Vec<FileSpot> {
        let volume = self.world.volume();
        self.layout.files.iter().filter(|file| holder(volume, file) == Some(client)).copied().collect()
    }

    /// The files that the client holds for reading.
    fn read_files(&self, client: u8) -> Vec<FileSpot> {
        let session = self.world.session();
        self.layout.files.iter().filter(|file| session.reads(client, file.number)).copied().collect()
    }

    fn any_file(&mut self) -> u8 {
        1 + self.random.below(self.layout.files.len().max(1)) as u8
    }

    /// A file, mostly one of those held, and a page of it.
    fn pick_page(&mut self, held: &[FileSpot]) -> (u8, u8) {
        let any = held.is_empty() || self.random.chance(8);
        let files = if any { &self.layout.files } else { held };
        match self.random.pick(files) {
            Some(file) => {
                let pages = if self.random.chance(60) { file.pages.min(3) } else { file.pages };
                (file.number, self.random.between(0, pages.max(1) - 1))
            }
            None => (1, 0),
        }
    }

    /// Makes one argument wrong, or at least odd.
    fn spoil_call(&mut self, call: &mut Call<'static>) {
        let wrong = self.odd_number();
        let place = match call {
            Call::Begin { client, .. } | Call::Commit { client, .. } | Call::Abort { client, .. } => client,
            Call::Open { client, file, .. } | Call::OpenRead { client, file, .. } => {
                [client, file].into_iter().nth(self.random.below(2)).unwrap()
            }
            Call::Read { client, file, page } => [client, file, page].into_iter().nth(self.random.below(3)).unwrap(),
            Call::Look { file, page } => [file, page].into_iter().nth(self.random.below(2)).unwrap(),
            Call::Spare { file } => file,
            Call::Write { client, file, page, data: bytes, .. } => {
                if self.random.chance(40) {
                    let any = self.random.below(MAX_DATA + 1);
                    let length = self.random.pick(&[0, 1, 255, 257, 512, any]).unwrap_or(0);
                    *bytes = data(self.random.byte(), length);
                }
                [client, file, page].into_iter().nth(self.random.below(3)).unwrap()
            }
        };
        if self.random.chance(75) {
            *place = wrong;
        }
    }

    /// A number that is wrong in most places.
    fn odd_number(&mut self) -> u8 {
        match self.random.below(3) {
            0 => 0,
            1 => self.random.between(0, 20),
            _ => self.random.byte(),
        }
    }
}

fn state(volume: &[u8], client: u8) -> Option<u8> {
    volume.get(SECTOR_SIZE * usize::from(client) + 2).copied()
}

fn holder(volume: &[u8], file: &FileSpot) -> Option<u8> {
    volume.get(SECTOR_SIZE * file.header + 2).copied()
}

// --------------------------------------------------------------- the damage

impl Run<'_> {
    /// Puts one other value at a time in the bytes of the control sectors,
    /// makes one call and takes everything back.
    fn flips(&mut self) -> Check {
        let every = self.world.volume().len().div_ceil(96 * SECTOR_SIZE);
        let start = self.world.snapshot();
        for sector in self.layout.control_sectors() {
            for offset in 0..SECTOR_SIZE {
                if every == 1 || self.random.below(every) == 0 {
                    self.flip(sector, offset)?;
                    self.world.restore(&start);
                }
            }
        }
        Ok(())
    }

    fn flip(&mut self, sector: usize, offset: usize) -> Check {
        self.world.shared().count(tally::FLIPS);
        let address = SECTOR_SIZE * sector + offset;
        let bytes = &self.world.volume()[SECTOR_SIZE * sector..][..SECTOR_SIZE];
        let old = bytes[offset];
        let new = match self.random.below(6) {
            0 => old ^ 1 << self.random.below(8),
            1 => old.wrapping_add(1),
            2 => old.wrapping_sub(1),
            // Another byte of the sector, most of them near its start.
            3 => bytes[self.random.below(SECTOR_SIZE)],
            4 => bytes[self.random.below(24)],
            _ => self.random.byte(),
        };
        let byte = if new == old { !old } else { new };
        self.world.play(&Line::Poke { address, byte })?;
        if volume::is_sound(self.world.volume()) {
            self.world.shared().count(tally::FLIPS_SOUND);
        }
        let call = self.any_call();
        self.call(call)
    }
}

// ------------------------------------------------------ made-up volumes

/// A made-up record: its state and the entries (file, page, real).
struct MadeRecord {
    state: u8,
    entries: Vec<[u8; 3]>,
}

impl Run<'_> {
    /// Pokes any sound control sectors into the volume, whether calls lead to
    /// them or not.
    fn craft(&mut self) -> Check {
        let files = self.layout.files.clone();
        let states: Vec<u8> = (0..self.layout.clients).map(|_| self.random.between(0, 2)).collect();
        let busy: Vec<u8> = (1..=self.layout.clients).filter(|&client| states[usize::from(client) - 1] != 0).collect();
        let holders: Vec<u8> = files
            .iter()
            .map(|_| if self.random.chance(65) { self.random.pick(&busy).unwrap_or(0) } else { 0 })
            .collect();
        let maps: Vec<Vec<u8>> = files.iter().map(|file| self.make_map(file)).collect();
        for (client, &state) in (1..).zip(&states) {
            let record = self.make_record(client, state, &holders, &maps);
            self.poke_record(client, &record)?;
        }
        for ((file, map), holder) in files.iter().zip(&maps).zip(holders) {
            self.poke(file.header, 2, holder)?;
            for (page, &real) in map.iter().enumerate() {
                self.poke(file.header, 8 + page, real)?;
            }
        }
        self.world.shared().count(tally::CRAFTED);
        if volume::is_sound(self.world.volume()) {
            self.world.shared().count(tally::CRAFTED_SOUND);
        }
        Ok(())
    }

    /// Distinct reals for the pages of a file.
    fn make_map(&mut self, file: &FileSpot) -> Vec<u8> {
        let mut reals: Vec<u8> = (0..file.reals).collect();
        if self.random.chance(80) {
            self.random.shuffle(&mut reals);
        }
        reals.truncate(usize::from(file.pages));
        reals
    }

    fn make_record(&mut self, client: u8, state: u8, holders: &[u8], maps: &[Vec<u8>]) -> MadeRecord {
        let mut entries: Vec<[u8; 3]> = Vec::new();
        let wanted = if state == 0 { 0 } else { self.random.below(12) * (1 + self.random.below(9)) };
        let only_held = self.random.chance(70);
        for _ in 0..wanted {
            let Some(file) = self.random.pick(&self.layout.files) else { break };
            let index = usize::from(file.number) - 1;
            let held = holders[index] == client;
            let (page, real) = (self.random.between(0, file.pages - 1), self.random.between(0, file.reals - 1));
            let taken = entries.iter().any(|&[other, p, r]| other == file.number && (p == page || r == real));
            let allowed = (held || !only_held) && !(held && maps[index].contains(&real));
            if allowed && !taken && entries.len() < 62 {
                entries.push([file.number, page, real]);
            }
        }
        MadeRecord { state, entries }
    }

    fn poke_record(&mut self, client: u8, record: &MadeRecord) -> Check {
        let sector = usize::from(client);
        self.poke(sector, 2, record.state)?;
        self.poke(sector, 3, record.entries.len() as u8)?;
        for (index, entry) in record.entries.iter().enumerate() {
            for (offset, &byte) in entry.iter().enumerate() {
                self.poke(sector, 8 + 4 * index + offset, byte)?;
            }
        }
        Ok(())
    }

    /// Pokes a byte unless it is there already.
    fn poke(&mut self, sector: usize, offset: usize, byte: u8) -> Check {
        let address = SECTOR_SIZE * sector + offset;
        if self.world.volume()[address] != byte {
            self.world.play(&Line::Poke { address, byte })?;
        }
        Ok(())
    }
}
