//! Runs in which several clients read.

use super::{Check, Run, Shape};
use crate::call::Call;
use crate::script::{data, Line};
use crate::volume::{MAX_CLIENTS, MAX_FILES, SECTOR_SIZE};

impl Run<'_> {
    /// Clients that read together, become writers, and read what others left
    /// behind.
    pub(super) fn readers(&mut self) -> Check {
        let shape = self.shape_for_readers();
        self.lay_out(shape)?;
        for _ in 0..1 + self.random.below(12) {
            match self.random.below(3) {
                0 => self.read_together()?,
                1 => self.upgrade()?,
                _ => self.read_orphaned()?,
            }
            for _ in 0..self.random.below(8) {
                self.step()?;
            }
        }
        Ok(())
    }

    /// Most often several clients; few files, or as many as there can be.
    fn shape_for_readers(&mut self) -> Shape {
        let (_, shape) = match self.random.below(4) {
            0 => (0, [1, 2].repeat(MAX_FILES)),
            1 => self.shape_of(MAX_FILES, 3, 3),
            _ => self.small_shape(),
        };
        let clients = if self.random.chance(10) { 1 } else { self.random.between(2, MAX_CLIENTS as u8) };
        (clients, shape)
    }

    /// Clients open the same file for reading.
    fn read_together(&mut self) -> Check {
        let file = self.any_file();
        for client in 1..=self.layout.clients {
            if self.random.chance(80) {
                self.begin_unless_marked(client)?;
                self.sweep_or_call(Call::OpenRead { client, file, budget: 255 })?;
            }
        }
        Ok(())
    }

    /// A client opens for writing what it reads, alone or not, and writes.
    fn upgrade(&mut self) -> Check {
        let client = self.random.between(1, self.layout.clients);
        let other = self.random.between(1, self.layout.clients);
        let file = self.any_file();
        self.begin_unless_marked(client)?;
        self.call(Call::OpenRead { client, file, budget: 255 })?;
        if self.random.chance(30) {
            self.begin_unless_marked(other)?;
            self.call(Call::OpenRead { client: other, file, budget: 255 })?;
        }
        self.sweep_or_call(Call::Open { client, file, budget: 255 })?;
        let data = data(self.random.byte(), SECTOR_SIZE);
        self.call(Call::Write { client, file, page: 0, data, budget: 255 })?;
        let end = self.end_of(client, 255);
        self.sweep_or_call(end)
    }

    /// A client's transaction is interrupted, and another one opens its files
    /// for reading, with every budget.
    fn read_orphaned(&mut self) -> Check {
        if !self.world.session().is_new() {
            self.world.play(&Line::Session(0))?;
        }
        let owner = self.random.between(1, self.layout.clients);
        let files = self.leave_behind(owner)?;
        let reader = self.random.between(1, self.layout.clients);
        self.begin_unless_marked(reader)?;
        if self.random.chance(50) {
            self.read_together()?;
        }
        for file in files {
            self.sweep_or_call(Call::OpenRead { client: reader, file, budget: 255 })?;
        }
        Ok(())
    }

    /// Opens files for the client, writes to them, and ends in a crash or a
    /// cut. Answers the files.
    fn leave_behind(&mut self, client: u8) -> Result<Vec<u8>, String> {
        let files: Vec<u8> = (0..1 + self.random.below(3)).map(|_| self.any_file()).collect();
        self.call(Call::Begin { client, budget: 255 })?;
        for &file in &files {
            self.call(Call::Open { client, file, budget: 255 })?;
            let data = data(self.random.byte(), SECTOR_SIZE);
            self.call(Call::Write { client, file, page: 0, data, budget: 255 })?;
        }
        if self.random.chance(70) {
            let budget = self.random.between(0, 3);
            let end = self.end_of(client, budget);
            self.call(end)?;
        }
        self.world.play(&Line::Session(0))?;
        Ok(files)
    }

    fn begin_unless_marked(&mut self, client: u8) -> Check {
        if self.world.session().marks(client) {
            return Ok(());
        }
        self.call(Call::Begin { client, budget: 255 })
    }

    fn sweep_or_call(&mut self, call: Call<'static>) -> Check {
        if self.random.chance(30) {
            self.sweep(call)?;
        }
        self.call(call)
    }

    fn end_of(&mut self, client: u8, budget: u8) -> Call<'static> {
        if self.random.chance(70) {
            Call::Commit { client, budget }
        } else {
            Call::Abort { client, budget }
        }
    }
}
