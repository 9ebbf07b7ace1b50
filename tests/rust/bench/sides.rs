//! The original, the crate, and the public C functions, each as a cache on which a call can be made.
use super::lines::{Element, Plain};
use crate::cache::{CoordCache, Funding};
use crate::entropy::EntropySource;
use crate::functions::*;
use crate::identity::NodeAddr;
use crate::numbers::{Addr, COORDRUN_ROWS, HEAD, MAX_ROWS, ROW, UPTO, VALUES, Values};
use crate::proto::stp::{CoordEntry, TreeCoordinate};

pub trait Cache: Sized {
    type Addr;
    type Path: Clone;
    fn addr(bytes: Addr) -> Self::Addr;
    fn path(elements: &[Element]) -> Self::Path;
    fn new(max: usize, ttl: u64) -> Self;
    /// The length of the path found, or 0.
    fn get(&self, key: &Self::Addr, time: u64) -> u64;
    fn touch(&mut self, key: &Self::Addr, time: u64) -> u64;
    /// The added weight.
    fn hint(&mut self, key: &Self::Addr, path: Self::Path, time: u64, paid: u64) -> u64;
    fn verify(&mut self, key: &Self::Addr, path: Self::Path, time: u64);
    fn purge(&mut self, time: u64) -> u64;
    fn via(&mut self, addr: &Self::Addr) -> u64;
    fn roots(&mut self, addr: &Self::Addr) -> u64;
    fn stats(&self, time: u64) -> u64;
}

/// coordrun's limit.
pub const COORDRUN_MAX: usize = 8;

/// The rows that the memory has at a limit: coordrun's at its own, else all.
pub fn rows(max: usize) -> usize {
    (if max == COORDRUN_MAX { COORDRUN_ROWS } else { MAX_ROWS }) as usize
}

/// A call with its operands as the side wants them.
pub enum Call<C: Cache> {
    Get(C::Addr, u64),
    Touch(C::Addr, u64),
    Hint(C::Addr, C::Path, u64, u64),
    Verify(C::Addr, C::Path, u64),
    Purge(u64),
    Via(C::Addr),
    Roots(C::Addr),
    Stats(u64),
}

pub fn typed<C: Cache>(calls: &[Plain]) -> Vec<Call<C>> {
    let one = |call: &Plain| match call {
        Plain::Get(k, t) => Call::Get(C::addr(*k), *t),
        Plain::Touch(k, t) => Call::Touch(C::addr(*k), *t),
        Plain::Hint(k, p, t, paid) => Call::Hint(C::addr(*k), C::path(p), *t, *paid),
        Plain::Verify(k, p, t) => Call::Verify(C::addr(*k), C::path(p), *t),
        Plain::Purge(t) => Call::Purge(*t),
        Plain::Via(a) => Call::Via(C::addr(*a)),
        Plain::Roots(a) => Call::Roots(C::addr(*a)),
        Plain::Stats(t) => Call::Stats(*t),
    };
    calls.iter().map(one).collect()
}

impl<C: Cache> Call<C> {
    #[inline]
    pub fn make(&self, cache: &mut C) -> u64 {
        match self {
            Call::Get(k, t) => cache.get(k, *t),
            Call::Touch(k, t) => cache.touch(k, *t),
            Call::Hint(k, p, t, paid) => cache.hint(k, p.clone(), *t, *paid),
            Call::Verify(k, p, t) => {
                cache.verify(k, p.clone(), *t);
                0
            }
            Call::Purge(t) => cache.purge(*t),
            Call::Via(a) => cache.via(a),
            Call::Roots(a) => cache.roots(a),
            Call::Stats(t) => cache.stats(*t),
        }
    }
}

// ---- the original

struct Zero;

impl EntropySource for Zero {
    fn fill(bytes: &mut [u8]) {
        bytes.fill(7);
    }
}

pub struct Original(CoordCache<Zero>);

impl Cache for Original {
    type Addr = NodeAddr;
    type Path = TreeCoordinate;

    fn addr(bytes: Addr) -> NodeAddr {
        NodeAddr::from_bytes(bytes)
    }

    fn path(elements: &[Element]) -> TreeCoordinate {
        let entries = elements.iter().map(|(a, s, t)| CoordEntry::new(NodeAddr::from_bytes(*a), *s, *t));
        TreeCoordinate::new(entries.collect()).expect("a path has an element")
    }

    fn new(max: usize, ttl: u64) -> Self {
        Self(CoordCache::new(max, ttl))
    }

    #[inline]
    fn get(&self, key: &NodeAddr, time: u64) -> u64 {
        self.0.get(key, time).map_or(0, |p| p.entries().len() as u64)
    }

    #[inline]
    fn touch(&mut self, key: &NodeAddr, time: u64) -> u64 {
        self.0.get_and_touch(key, time).map_or(0, |p| p.entries().len() as u64)
    }

    #[inline]
    fn hint(&mut self, key: &NodeAddr, path: TreeCoordinate, time: u64, paid: u64) -> u64 {
        self.0.insert_funded(*key, path, time, Funding::Upto(paid)).added_weight
    }

    #[inline]
    fn verify(&mut self, key: &NodeAddr, path: TreeCoordinate, time: u64) {
        self.0.insert_verified(*key, path, time);
    }

    fn purge(&mut self, time: u64) -> u64 {
        self.0.purge_expired(time) as u64
    }

    fn via(&mut self, addr: &NodeAddr) -> u64 {
        self.0.invalidate_via_node(addr) as u64
    }

    fn roots(&mut self, addr: &NodeAddr) -> u64 {
        self.0.invalidate_other_roots(addr) as u64
    }

    fn stats(&self, time: u64) -> u64 {
        let s = self.0.stats(time);
        s.entries as u64 + s.expired as u64 + s.avg_age_ms
    }
}

// ---- the crate

pub struct Ours(coordcache::CoordCache);

fn ours_path(elements: &[Element]) -> coordcache::TreeCoordinate {
    let entries = elements.iter().map(|(a, s, t)| coordcache::CoordEntry::new(coordcache::NodeAddr::from_bytes(*a), *s, *t));
    coordcache::TreeCoordinate::new(entries.collect()).expect("a path has an element")
}

impl Cache for Ours {
    type Addr = coordcache::NodeAddr;
    type Path = coordcache::TreeCoordinate;

    fn addr(bytes: Addr) -> coordcache::NodeAddr {
        coordcache::NodeAddr::from_bytes(bytes)
    }

    fn path(elements: &[Element]) -> coordcache::TreeCoordinate {
        ours_path(elements)
    }

    fn new(max: usize, ttl: u64) -> Self {
        Self(coordcache::CoordCache::with_rows(rows(max), max, ttl).expect("the limits fit"))
    }

    #[inline]
    fn get(&self, key: &coordcache::NodeAddr, time: u64) -> u64 {
        self.0.get(key, time).map_or(0, |p| p.len() as u64)
    }

    #[inline]
    fn touch(&mut self, key: &coordcache::NodeAddr, time: u64) -> u64 {
        self.0.get_and_touch(key, time).map_or(0, |p| p.len() as u64)
    }

    #[inline]
    fn hint(&mut self, key: &coordcache::NodeAddr, path: coordcache::TreeCoordinate, time: u64, paid: u64) -> u64 {
        self.0.insert_funded(*key, path, time, coordcache::Funding::Upto(paid)).expect("not refused").added_weight
    }

    #[inline]
    fn verify(&mut self, key: &coordcache::NodeAddr, path: coordcache::TreeCoordinate, time: u64) {
        self.0.insert_verified(*key, path, time).expect("not refused");
    }

    fn purge(&mut self, time: u64) -> u64 {
        self.0.purge_expired(time) as u64
    }

    fn via(&mut self, addr: &coordcache::NodeAddr) -> u64 {
        self.0.invalidate_via_node(addr) as u64
    }

    fn roots(&mut self, addr: &coordcache::NodeAddr) -> u64 {
        self.0.invalidate_other_roots(addr) as u64
    }

    fn stats(&self, time: u64) -> u64 {
        let s = self.0.stats(time);
        s.entries as u64 + s.expired as u64 + s.avg_age_ms
    }
}

// ---- the public C functions (include/coordcache.h), on memory that is lent to them

pub struct Public(Vec<u8>);

impl Public {
    /// What the call writes; it may not be refused.
    fn done(refused: u8, values: Values) -> Values {
        assert_eq!(refused, 0);
        values
    }
}

// SAFETY of the calls below: the memory and the path are live, each goes with its length, and all that is lent is apart.
impl Cache for Public {
    type Addr = Addr;
    type Path = coordcache::TreeCoordinate;

    fn addr(bytes: Addr) -> Addr {
        bytes
    }

    fn path(elements: &[Element]) -> coordcache::TreeCoordinate {
        ours_path(elements)
    }

    fn new(max: usize, ttl: u64) -> Self {
        let mut state = vec![0; HEAD + rows(max) * ROW];
        assert_eq!(unsafe { coord_cache_fresh(state.as_mut_ptr(), state.len(), max as u64, ttl) }, 0);
        Self(state)
    }

    fn get(&self, key: &Addr, time: u64) -> u64 {
        let (mut v, mut at) = ([0; VALUES], 0);
        let r = unsafe { coord_cache_get(self.0.as_ptr(), self.0.len(), key, time, &mut v, &mut at) };
        Self::done(r, v)[1]
    }

    fn touch(&mut self, key: &Addr, time: u64) -> u64 {
        let (mut v, mut at) = ([0; VALUES], 0);
        let r = unsafe { coord_cache_get_and_touch(self.0.as_mut_ptr(), self.0.len(), key, time, &mut v, &mut at) };
        Self::done(r, v)[1]
    }

    fn hint(&mut self, key: &Addr, path: coordcache::TreeCoordinate, time: u64, paid: u64) -> u64 {
        let (mut v, p) = ([0; VALUES], path.as_bytes());
        let r = unsafe {
            coord_cache_insert_funded(self.0.as_mut_ptr(), self.0.len(), key, p.as_ptr(), p.len(), time, UPTO, paid, &mut v)
        };
        Self::done(r, v)[1]
    }

    fn verify(&mut self, key: &Addr, path: coordcache::TreeCoordinate, time: u64) {
        let (mut v, p) = ([0; VALUES], path.as_bytes());
        let r = unsafe { coord_cache_insert_verified(self.0.as_mut_ptr(), self.0.len(), key, p.as_ptr(), p.len(), time, &mut v) };
        Self::done(r, v);
    }

    fn purge(&mut self, time: u64) -> u64 {
        let mut v = [0; VALUES];
        let r = unsafe { coord_cache_purge_expired(self.0.as_mut_ptr(), self.0.len(), time, &mut v) };
        Self::done(r, v)[0]
    }

    fn via(&mut self, addr: &Addr) -> u64 {
        let mut v = [0; VALUES];
        let r = unsafe { coord_cache_invalidate_via_node(self.0.as_mut_ptr(), self.0.len(), addr, &mut v) };
        Self::done(r, v)[0]
    }

    fn roots(&mut self, addr: &Addr) -> u64 {
        let mut v = [0; VALUES];
        let r = unsafe { coord_cache_invalidate_other_roots(self.0.as_mut_ptr(), self.0.len(), addr, &mut v) };
        Self::done(r, v)[0]
    }

    fn stats(&self, time: u64) -> u64 {
        let mut v = [0; VALUES];
        let r = unsafe { coord_cache_stats(self.0.as_ptr(), self.0.len(), time, &mut v) };
        let v = Self::done(r, v);
        v[0] + v[2] + v[3]
    }
}
