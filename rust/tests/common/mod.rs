//! Short names for what the tests write often.

use coordcache::{CoordCache, NodeAddr, TreeCoordinate};

/// The numbers of the packing and the limits, as all tests of the repository have them.
#[path = "../../../tests/rust/numbers.rs"]
pub mod numbers;

pub const TTL: u64 = 300_000;

/// The address of sixteen such bytes.
pub fn addr(byte: u8) -> NodeAddr {
    NodeAddr::from_bytes([byte; numbers::ADDRESS])
}

/// A path of so many elements, all at one node: `zN` of tests/branches.txt.
pub fn z(elements: usize) -> TreeCoordinate {
    TreeCoordinate::from_addrs(vec![addr(0x5a); elements]).unwrap()
}

/// An empty cache of all rows.
pub fn fresh(max_entries: usize) -> CoordCache {
    CoordCache::new(max_entries, TTL).unwrap()
}

/// A number in the memory.
pub fn number(cache: &CoordCache, at: usize) -> u64 {
    numbers::number(&cache.as_bytes()[at..][..numbers::NUMBER])
}
