//! The slot that a write takes for a page without an entry, by the rule of the
//! base and by that of M-101. Only the choice is simulated, without a volume:
//! each transaction writes one page, so the record has no entry yet.

#[derive(Clone, Copy, Debug, PartialEq, Eq)]
pub enum Rule {
    /// The choice of the base: the lowest slot that isn't in the map.
    Lowest,
    /// The choice since M-101: the first above the page's own slot that isn't
    /// in the map, and from 0 again after the last.
    Above,
}

impl Rule {
    /// The slot for the page, if there is one. The map has the slot of each page.
    pub fn choose(self, slots: u8, map: &[u8], page: u8) -> Option<u8> {
        let first = match self {
            Rule::Lowest => 0,
            Rule::Above => map[usize::from(page)] + 1,
        };
        (first..slots).chain(0..first).find(|slot| !map.contains(slot))
    }

    /// The stores to each slot of a new file, by transactions that each write
    /// the next of these pages.
    pub fn stores(self, slots: u8, pages: u8, writes: &[u8]) -> Vec<u64> {
        let mut map: Vec<u8> = (0..pages).collect();
        let mut stores = vec![0; slots.into()];
        for &page in writes {
            let slot = self.choose(slots, &map, page).expect("a slot that isn't in the map");
            stores[usize::from(slot)] += 1;
            map[usize::from(page)] = slot;
        }
        stores
    }
}

#[cfg(test)]
mod tests {
    use super::Rule::{Above, Lowest};

    #[test]
    fn the_base_takes_the_lowest() {
        assert_eq!(Lowest.choose(4, &[0, 1], 1), Some(2));
        assert_eq!(Lowest.choose(4, &[3, 0], 0), Some(1));
        assert_eq!(Lowest.choose(4, &[3, 1], 0), Some(0));
    }

    #[test]
    fn the_first_above_is_taken() {
        assert_eq!(Above.choose(4, &[0, 3], 0), Some(1));
        assert_eq!(Above.choose(4, &[0, 1], 0), Some(2));
        assert_eq!(Above.choose(6, &[2, 0, 3], 0), Some(4));
        assert_eq!(Above.choose(6, &[2, 0, 3], 1), Some(1));
    }

    /// The search starts at 4, past the last slot, or reaches it.
    #[test]
    fn after_the_last_it_goes_on_from_0() {
        assert_eq!(Above.choose(4, &[3, 1], 0), Some(0));
        assert_eq!(Above.choose(4, &[3, 0], 0), Some(1));
        assert_eq!(Above.choose(4, &[2, 3], 0), Some(0));
        assert_eq!(Above.choose(4, &[2, 3, 0], 0), Some(1));
    }

    #[test]
    fn the_only_slot_is_taken_by_either_rule() {
        for rule in [Lowest, Above] {
            for (map, slot) in [([1, 2], 0), ([0, 2], 1), ([1, 0], 2)] {
                assert_eq!([0, 1].map(|page| rule.choose(3, &map, page)), [Some(slot); 2]);
            }
            assert_eq!(rule.choose(2, &[1, 0], 0), None);
            assert_eq!(rule.choose(1, &[0], 0), None);
        }
    }

    /// The slots taken are, in order: 1 0 1 0 1 and 1 2 3 0 1; 2 0 1 and 2 3 4;
    /// 2 0 2 0 by either rule.
    #[test]
    fn each_write_moves_its_page() {
        assert_eq!(Lowest.stores(4, 1, &[0; 5]), [2, 3, 0, 0]);
        assert_eq!(Above.stores(4, 1, &[0; 5]), [1, 2, 1, 1]);
        assert_eq!(Lowest.stores(5, 2, &[0, 1, 0]), [1, 1, 1, 0, 0]);
        assert_eq!(Above.stores(5, 2, &[0, 1, 0]), [0, 0, 1, 1, 1]);
        for rule in [Lowest, Above] {
            assert_eq!(rule.stores(3, 2, &[0; 4]), [2, 0, 2]);
        }
    }

    /// One page goes round all slots but those of the other pages.
    #[test]
    fn one_page_wears_its_slots_evenly() {
        assert_eq!(Above.stores(8, 3, &[0; 12]), [2, 0, 0, 2, 2, 2, 2, 2]);
        assert_eq!(Lowest.stores(8, 3, &[0; 12]), [6, 0, 0, 6, 0, 0, 0, 0]);
    }
}
