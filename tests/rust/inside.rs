//! The child module that `coord_cache.rs` declares for its tests. It sees the private parts of a
//! cache, and hands them to the driver.
use super::*;
use crate::driver::calls::{Entry, Inside, Place as Where, Row};

fn row_of(addr: &NodeAddr, slot: &Slot) -> Row {
    Row {
        key: *addr.as_bytes(),
        entry: Entry::of(&slot.entry),
        place: match slot.place {
            Place::ByUse => Where::ByUse,
            Place::Parked => Where::Parked,
            Place::Probation => Where::Probation,
        },
        stamp: slot.key,
        weight: slot.weight,
    }
}

impl<E: EntropySource + Clone> Inside for CoordCache<E> {
    fn place(
        &mut self,
        addr: NodeAddr,
        coords: TreeCoordinate,
        now: u64,
        ttl: u64,
        funding: Funding,
        stated: bool,
    ) -> Placed {
        self.place_hint(addr, coords, now, ttl, funding, stated)
    }

    fn rows(&self) -> Vec<Row> {
        let mut rows: Vec<Row> = self
            .entries
            .iter()
            .map(|(addr, slot)| row_of(addr, slot))
            .collect();
        rows.sort_by_key(|row| row.key);
        // each index holds the keys of its own place, under their stamps, and no others
        for (index, place) in [
            (&self.by_use, Where::ByUse),
            (&self.parked, Where::Parked),
            (&self.probation, Where::Probation),
        ] {
            let mut filed: Vec<_> = index.iter().map(|(k, a)| (*a.as_bytes(), *k)).collect();
            filed.sort();
            let held: Vec<_> = rows
                .iter()
                .filter(|row| row.place == place)
                .map(|row| (row.key, row.stamp))
                .collect();
            assert_eq!(filed, held, "an index of the original differs from its slots");
        }
        rows
    }

    fn row(&self, addr: &NodeAddr) -> Option<Row> {
        self.entries.get(addr).map(|slot| row_of(addr, slot))
    }

    fn in_main(&self, addr: &NodeAddr) -> bool {
        self.segment_of(addr) == Some(Segment::Main)
    }

    fn main_rows(&self) -> u64 {
        self.main_len() as u64
    }

    fn seq(&self) -> u64 {
        self.seq
    }

    fn set_seq(&mut self, seq: u64) {
        self.seq = seq;
    }

    fn stored_weight(&self) -> u64 {
        self.stored_weight
    }

    fn room_without(&self, addr: &NodeAddr, weight: u64, now: u64) -> bool {
        let mut tried = self.clone();
        tried.remove_slot(addr);
        tried.make_room(weight, now)
    }

    fn weight_of_path(coords: &TreeCoordinate) -> u64 {
        weight_of(coords)
    }
}
