//! The volumes that calls are measured on.

use crate::stage::Stage;

/// A volume, and the pages that its last client writes.
pub struct Place {
    pub name: &'static str,
    pub sectors: usize,
    pub clients: u8,
    /// Pages and slots of each file.
    pub shape: Vec<u8>,
    /// File and page of each write.
    pub writes: Vec<(u8, u8)>,
}

impl Place {
    /// As many sectors as the files need.
    pub fn new(clients: u8, shape: Vec<u8>, writes: Vec<(u8, u8)>) -> Place {
        let in_files: usize = shape.chunks(2).map(|file| 1 + usize::from(file[1])).sum();
        Place { name: "", sectors: 1 + usize::from(clients) + in_files, clients, shape, writes }
    }

    pub fn files(&self) -> u8 {
        (self.shape.len() / 2) as u8
    }

    /// The sector of the last file's header.
    pub fn last_header(&self) -> usize {
        let before = &self.shape[..self.shape.len() - 2];
        let in_files: usize = before.chunks(2).map(|file| 1 + usize::from(file[1])).sum();
        1 + usize::from(self.clients) + in_files
    }

    /// The last slot of the last file.
    pub fn last_slot(&self) -> u8 {
        self.shape.last().expect("a file") - 1
    }

    /// The last page that isn't written.
    pub fn unwritten(&self) -> (u8, u8) {
        let pages =
            self.shape.chunks(2).zip(1..).flat_map(|(file, number)| (0..file[0]).map(move |page| (number, page)));
        pages.filter(|page| !self.writes.contains(page)).last().expect("a page that isn't written")
    }

    /// The last client holds the files from `first` on and has made those of
    /// these writes that go to them.
    pub fn written(&self, first: u8, writes: &[(u8, u8)]) -> Stage {
        let mut stage = Stage::format(self.sectors, self.clients, &self.shape);
        stage.begin(self.clients);
        for file in first..=self.files() {
            stage.open(self.clients, file);
        }
        for &(file, page) in writes.iter().filter(|&&(file, _)| file >= first) {
            stage.write(self.clients, file, page);
        }
        stage
    }

    /// Every client but the last holds all files for reading, and nobody holds
    /// one for writing.
    pub fn read(&self) -> Stage {
        let mut stage = Stage::format(self.sectors, self.clients, &self.shape);
        for client in 1..self.clients {
            stage.begin(client);
            for file in 1..=self.files() {
                stage.open_read(client, file);
            }
        }
        stage
    }
}

/// The small volume of the examples, with the writes of E2.
pub fn small() -> Place {
    Place { name: "small", ..Place::new(2, vec![2, 3, 1, 3], vec![(1, 0), (2, 0)]) }
}

/// Four files of 30 pages, five of each written.
pub fn middle() -> Place {
    let writes = (1..=4).flat_map(|file| (0..5).map(move |page| (file, 6 * page))).collect();
    Place { name: "middle", ..Place::new(4, [30, 60].repeat(4), writes) }
}

/// The largest: as many sectors, clients, files and entries as there can be,
/// and the largest map.
pub fn largest() -> Place {
    let shape = vec![
        1, 1, 2, 4, 3, 9, 4, 16, 5, 25, 6, 36, 7, 49, 8, 64, 9, 81, 10, 100, 11, 121, 12, 12, 13, 13, 14, 14, 15, 15,
        120, 240,
    ];
    let writes = (0..62).map(|page| (16, page)).collect();
    Place { name: "largest", sectors: 1024, clients: 4, shape, writes }
}
