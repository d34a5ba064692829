//! Runs of transactions that each rewrite one page of a file, and the stores
//! to each sector, before and after M-101. After is measured on the library,
//! store by store. Before is the choice of the base, simulated.

use crate::call::{Call, Function};
use crate::choice::Rule;
use crate::place::Place;
use crate::stage::{self, Stage, BUDGET};
use crate::stored::stored;

pub const PAGES: u8 = 4;
pub const SLOTS: u8 = 64;
const CLIENT: u8 = 1;
const FILE: u8 = 1;

/// Where the control sectors are; the slots follow the header.
pub const TABLE: usize = 0;
pub const RECORD: usize = 1;
pub const HEADER: usize = 2;

/// The stores of a run.
pub struct Run {
    pub name: &'static str,
    /// To each slot, by the choice of the base.
    pub before: Vec<u64>,
    /// To each slot, measured.
    pub after: Vec<u64>,
    /// To the control sectors, measured. The choice of slots changes none of them.
    pub control: Vec<u64>,
}

impl Run {
    /// The pages are those that the transactions write. What is measured must
    /// be what the choice since M-101 gives.
    pub fn new(name: &'static str, pages: &[u8]) -> Run {
        let mut meter = Meter::new();
        for (&page, number) in pages.iter().zip(1..) {
            meter.rewrite(page, number);
        }
        assert_eq!(meter.stores.iter().sum::<u64>(), meter.replied, "{name}: stores found, and those of the replies");
        let [before, simulated] = [Rule::Lowest, Rule::Above].map(|rule| rule.stores(SLOTS, PAGES, pages));
        let mut control = meter.stores;
        let after = control.split_off(HEADER + 1);
        assert_eq!(after, simulated, "{name}: stores to each slot, measured and by the rule of M-101");
        Run { name, before, after, control }
    }
}

/// A volume whose stores are counted.
struct Meter {
    stage: Stage,
    /// To each sector, as found.
    stores: Vec<u64>,
    /// To all sectors, by the replies.
    replied: u64,
}

impl Meter {
    fn new() -> Meter {
        let place = Place::new(CLIENT, vec![PAGES, SLOTS], vec![]);
        let stage = Stage::format(place.sectors, place.clients, &place.shape);
        Meter { stage, stores: vec![0; place.sectors], replied: 0 }
    }

    /// A transaction that fills the page with its number, which isn't 0: no
    /// slot holds these bytes already.
    fn rewrite(&mut self, page: u8, number: u64) {
        self.make(&self.stage.call(Function::Begin, &[CLIENT, BUDGET]));
        self.make(&self.stage.call(Function::Open, &[CLIENT, FILE, BUDGET]));
        self.make(&stage::write_bytes(self.stage.session, CLIENT, FILE, page, number.to_le_bytes().repeat(32)));
        self.make(&self.stage.call(Function::Commit, &[CLIENT, BUDGET]));
    }

    fn make(&mut self, call: &Call) {
        let (reply, sectors) = stored(call, &mut self.stage.volume);
        sectors.iter().for_each(|&sector| self.stores[sector] += 1);
        self.replied += reply.number();
        self.stage.session = reply.session();
    }
}
