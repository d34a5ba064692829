//! Questions about files after every step, and on damaged volumes: where a
//! question looks, and where it doesn't.

use super::{Check, FileSpot, Run};
use crate::script::{Line, MAX_VOLUME};
use crate::volume::SECTOR_SIZE;

impl Run<'_> {
    /// Asks about a file after a call, a wrong one now and then.
    pub(super) fn ask_around(&mut self) -> Check {
        let file = if self.random.chance(10) { self.wrong_file() } else { self.any_file() };
        self.world.ask_around(&[file])
    }

    /// Damage of all kinds to a volume in use, and the questions about all
    /// its files each time.
    pub(super) fn questions(&mut self) -> Check {
        let shape = self.any_shape();
        self.lay_out(shape)?;
        if self.random.chance(40) {
            self.craft()?;
        } else {
            for _ in 0..self.random.below(30) {
                self.step()?;
            }
        }
        let start = self.world.snapshot();
        for _ in 0..40 {
            if self.random.chance(25) {
                self.ask_at_another_length()?;
            } else {
                self.damage_and_ask()?;
            }
            self.world.restore(&start);
        }
        Ok(())
    }

    /// The questions about all files, and about some that no volume has.
    fn ask_about_all(&mut self) -> Check {
        let files: Vec<u8> = (0..=self.layout.files.len() as u8 + 1).chain([16, 17, 255]).collect();
        self.world.ask_around(&files)
    }

    /// Changes up to three bytes, asks, and makes a call, which compares the
    /// soundness.
    fn damage_and_ask(&mut self) -> Check {
        for _ in 0..1 + self.random.below(3) {
            let Some(file) = self.random.pick(&self.layout.files) else { return Ok(()) };
            let (sector, offset, byte) = self.damage(file);
            self.poke(sector, offset, byte)?;
        }
        self.ask_about_all()?;
        let call = self.any_call();
        self.call(call)
    }

    /// A byte of the file's header, of a record or of sector 0, and another
    /// value for it.
    fn damage(&mut self, file: FileSpot) -> (usize, usize, u8) {
        let (any, low) = (self.random.byte(), self.random.between(0, 5));
        let byte = if self.random.chance(50) { any } else { low };
        let pages = usize::from(file.pages);
        match self.random.below(12) {
            0..=2 => (file.header, 3, self.odd_count(file)),
            3 => (file.header, self.random.below(2), byte),
            4 => (file.header, 2, byte),
            5 => (file.header, 4 + self.random.below(4), byte),
            6 => (file.header, 8 + self.random.below(pages), byte),
            7 => (file.header, 8 + pages + self.random.below(SECTOR_SIZE - 8 - pages), byte),
            8 => (self.any_record(), self.random.below(24), byte),
            9 => (self.any_record(), self.random.below(SECTOR_SIZE), byte),
            10 => (0, self.random.below(SECTOR_SIZE), byte),
            _ => self.damaged_entry(file),
        }
    }

    fn any_record(&mut self) -> usize {
        1 + self.random.below(self.layout.clients.into())
    }

    /// Nearly the count that is there, or one that another rule would give.
    fn odd_count(&mut self, file: FileSpot) -> u8 {
        let count = self.world.volume()[SECTOR_SIZE * file.header + 3];
        match self.random.below(6) {
            0 => count.wrapping_add(1),
            1 => count.wrapping_sub(1),
            2 => 0,
            3 => file.reals,
            4 => file.pages,
            _ => self.random.byte(),
        }
    }

    /// A byte of the file's entry in sector 0; with one page more or less, the
    /// sector is often as right as before.
    fn damaged_entry(&mut self, file: FileSpot) -> (usize, usize, u8) {
        let entry = 4 + 4 * usize::from(file.number);
        match self.random.below(4) {
            0 => (0, entry + 2, file.pages + 1),
            1 => (0, entry + 2, file.pages - 1),
            2 => (0, entry + 3, file.reals.wrapping_add_signed(self.random.pick(&[-1, 1]).unwrap_or(1))),
            _ => (0, entry + self.random.below(4), self.random.byte()),
        }
    }

    /// Asks while another number of bytes is lent, which sector 0 may say.
    fn ask_at_another_length(&mut self) -> Check {
        let length = self.world.volume().len();
        let other = match self.random.below(7) {
            0 => self.random.below(SECTOR_SIZE),
            1 => length - 1,
            2 => length + 1,
            3 => length - SECTOR_SIZE,
            4 => length + SECTOR_SIZE,
            5 => MAX_VOLUME,
            _ => self.random.below(MAX_VOLUME + 1),
        };
        if self.random.chance(50) {
            let [low, high] = ((other / SECTOR_SIZE) as u16).to_le_bytes();
            self.poke(0, 2, low)?;
            self.poke(0, 3, high)?;
        }
        self.lend(other.min(MAX_VOLUME))?;
        self.ask_about_all()?;
        self.lend(length)
    }

    /// A layout without clients is refused, but the bytes are lent.
    fn lend(&mut self, length: usize) -> Check {
        self.world.play(&Line::Format { length, clients: 0, shape: Vec::new() })?;
        Ok(())
    }
}
