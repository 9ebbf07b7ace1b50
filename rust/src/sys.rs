//! The library's functions, and all unsafe code of this crate.
//!
//! What `include/coordcache.h` asks of a caller, in its words, and who sees to it here:
//!
//! - **known**: "Call it only on a state that is known to be sound: one that fresh made and that only these functions have written
//!   since." The bytes of a [`State`] are private to this file, come from [`State::fresh`] or from another state, and are handed
//!   out for reading alone.
//! - **alone**: "Calls on one state must not run at the same time, but for calls that take it as const." The former take
//!   `&mut self`, the latter `&self`.
//! - **pointers**: "Pointers may not be null, also where a length is 0, and what is written may not overlap anything else that is
//!   lent to the call." All come from references, and what is written from `&mut`. Each goes with the length of what it points to,
//!   or is a reference to as much as the header says: a key, the values, a row, one number `at`.
//! - **widths**: "Addresses have COORD_CACHE_ADDRESS bytes. A path is its elements, node first and root last, COORD_CACHE_ELEMENT bytes
//!   each". A [`NodeAddr`] and a [`Path`] are these bytes.
//!
//! tests/declarations holds the declarations below to the library's source, and tests/numbers the widths.

use std::mem::MaybeUninit;

use crate::answers::Funding;
use crate::coord::CoordEntry;
use crate::node_addr::NodeAddr;
use crate::packing::{ADDRESS, ELEMENT, HEAD, ROW, VALUES};
use crate::path::Path;
use crate::refused::Refused;

/// The numbers of an answer.
pub(crate) type Values = [u64; VALUES];

/// The bytes of a row.
pub(crate) type Row = [u8; ROW];

// as in the header; a pointer that goes without a length is a reference to what it points to
unsafe extern "C" {
    fn coord_cache_packing_1() -> u8;

    fn coord_cache_is_sound(state: *const u8, len: usize) -> u8;
    fn coord_cache_fresh(state: *mut u8, len: usize, max: u64, ttl: u64) -> u8;

    fn coord_cache_insert_unchecked(
        state: *mut u8,
        len: usize,
        key: &NodeAddr,
        path: *const u8,
        path_len: usize,
        time: u64,
        values: &mut Values,
    ) -> u8;
    fn coord_cache_insert_with_ttl_unchecked(
        state: *mut u8,
        len: usize,
        key: &NodeAddr,
        path: *const u8,
        path_len: usize,
        time: u64,
        ttl: u64,
        values: &mut Values,
    ) -> u8;
    fn coord_cache_insert_funded_unchecked(
        state: *mut u8,
        len: usize,
        key: &NodeAddr,
        path: *const u8,
        path_len: usize,
        time: u64,
        kind: u8,
        amount: u64,
        values: &mut Values,
    ) -> u8;
    fn coord_cache_insert_stated_unchecked(
        state: *mut u8,
        len: usize,
        key: &NodeAddr,
        path: *const u8,
        path_len: usize,
        time: u64,
        kind: u8,
        amount: u64,
        values: &mut Values,
    ) -> u8;
    fn coord_cache_insert_verified_unchecked(
        state: *mut u8,
        len: usize,
        key: &NodeAddr,
        path: *const u8,
        path_len: usize,
        time: u64,
        values: &mut Values,
    ) -> u8;
    fn coord_cache_insert_verified_with_path_mtu_unchecked(
        state: *mut u8,
        len: usize,
        key: &NodeAddr,
        path: *const u8,
        path_len: usize,
        time: u64,
        mtu: u16,
        values: &mut Values,
    ) -> u8;

    fn coord_cache_get_unchecked(
        state: *const u8,
        len: usize,
        key: &NodeAddr,
        time: u64,
        values: &mut Values,
        at: &mut u64,
    ) -> u8;
    fn coord_cache_get_and_touch_unchecked(
        state: *mut u8,
        len: usize,
        key: &NodeAddr,
        time: u64,
        values: &mut Values,
        at: &mut u64,
    ) -> u8;
    fn coord_cache_remove_unchecked(state: *mut u8, len: usize, key: &NodeAddr, values: &mut Values, row: &mut Row) -> u8;
    fn coord_cache_demote_unchecked(state: *mut u8, len: usize, key: &NodeAddr, values: &mut Values) -> u8;
    fn coord_cache_clear_path_mtu_unchecked(state: *mut u8, len: usize, key: &NodeAddr, values: &mut Values) -> u8;

    fn coord_cache_purge_expired_unchecked(state: *mut u8, len: usize, time: u64, values: &mut Values) -> u8;
    fn coord_cache_clear_unchecked(state: *mut u8, len: usize, values: &mut Values) -> u8;
    fn coord_cache_invalidate_via_node_unchecked(state: *mut u8, len: usize, addr: &NodeAddr, values: &mut Values) -> u8;
    fn coord_cache_invalidate_other_roots_unchecked(state: *mut u8, len: usize, addr: &NodeAddr, values: &mut Values) -> u8;

    fn coord_cache_stats_unchecked(state: *const u8, len: usize, time: u64, values: &mut Values) -> u8;
    fn coord_cache_next_expiry_unchecked(state: *const u8, len: usize, values: &mut Values) -> u8;
}

/// A cache's memory, always a sound state: made by fresh, and written by nothing but the calls below, which keep it sound. A copy
/// of it is sound as well: that depends on the bytes and their number, not on where they stand ("any alignment").
#[derive(Clone)]
pub(crate) struct State(Box<[u8]>);

impl State {
    pub(crate) fn fresh(rows: usize, max: u64, ttl: u64) -> Result<Self, Refused> {
        // SAFETY: it takes nothing and writes nothing. Called here, where every cache begins, so that a library whose states have
        // another packing than crate::packing does not link
        unsafe { coord_cache_packing_1() };
        let mut memory: Box<[MaybeUninit<u8>]> = Box::new_uninit_slice(HEAD + rows * ROW);
        // SAFETY: pointers; and "the only call that a memory in any condition is good for"
        let number = unsafe { coord_cache_fresh(memory.as_mut_ptr().cast(), memory.len(), max, ttl) };
        Refused::check(number)?;
        // SAFETY: "Done, it has written every byte of the head and of all rows that fit whole"; no byte is left over here
        Ok(Self(unsafe { memory.assume_init() }))
    }

    #[inline]
    pub(crate) fn bytes(&self) -> &[u8] {
        &self.0
    }

    pub(crate) fn is_sound(&self) -> bool {
        // SAFETY: alone, pointers; "1 if the state is sound, else 0" of any bytes
        unsafe { coord_cache_is_sound(self.0.as_ptr(), self.0.len()) == 1 }
    }

    /// A call that takes the state as const.
    #[inline]
    fn ask(&self, call: impl FnOnce(*const u8, usize, &mut Values) -> u8) -> Values {
        let mut values = [0; VALUES];
        done(Refused::check(call(self.0.as_ptr(), self.0.len(), &mut values)));
        values
    }

    /// A call that writes, and can be refused.
    #[inline]
    fn write(&mut self, call: impl FnOnce(*mut u8, usize, &mut Values) -> u8) -> Result<Values, Refused> {
        let mut values = [0; VALUES];
        Refused::check(call(self.0.as_mut_ptr(), self.0.len(), &mut values))?;
        Ok(values)
    }

    #[inline]
    pub(crate) fn insert(&mut self, key: &NodeAddr, path: &Path, time: u64) -> Result<Values, Refused> {
        let (from, bytes) = parts(path);
        // SAFETY: known, alone, pointers, widths
        self.write(|s, n, v| unsafe { coord_cache_insert_unchecked(s, n, key, from, bytes, time, v) })
    }

    #[inline]
    pub(crate) fn insert_with_ttl(&mut self, key: &NodeAddr, path: &Path, time: u64, ttl: u64) -> Result<Values, Refused> {
        let (from, bytes) = parts(path);
        // SAFETY: known, alone, pointers, widths
        self.write(|s, n, v| unsafe { coord_cache_insert_with_ttl_unchecked(s, n, key, from, bytes, time, ttl, v) })
    }

    #[inline]
    pub(crate) fn insert_funded(&mut self, key: &NodeAddr, path: &Path, time: u64, paid: Funding) -> Result<Values, Refused> {
        let ((from, bytes), (kind, amount)) = (parts(path), paid.numbers());
        // SAFETY: known, alone, pointers, widths
        self.write(|s, n, v| unsafe { coord_cache_insert_funded_unchecked(s, n, key, from, bytes, time, kind, amount, v) })
    }

    #[inline]
    pub(crate) fn insert_stated(&mut self, key: &NodeAddr, path: &Path, time: u64, paid: Funding) -> Result<Values, Refused> {
        let ((from, bytes), (kind, amount)) = (parts(path), paid.numbers());
        // SAFETY: known, alone, pointers, widths
        self.write(|s, n, v| unsafe { coord_cache_insert_stated_unchecked(s, n, key, from, bytes, time, kind, amount, v) })
    }

    #[inline]
    pub(crate) fn insert_verified(&mut self, key: &NodeAddr, path: &Path, time: u64) -> Result<Values, Refused> {
        let (from, bytes) = parts(path);
        // SAFETY: known, alone, pointers, widths
        self.write(|s, n, v| unsafe { coord_cache_insert_verified_unchecked(s, n, key, from, bytes, time, v) })
    }

    #[inline]
    pub(crate) fn insert_verified_with_path_mtu(
        &mut self,
        key: &NodeAddr,
        path: &Path,
        time: u64,
        mtu: u16,
    ) -> Result<Values, Refused> {
        let (from, bytes) = parts(path);
        // SAFETY: known, alone, pointers, widths
        self.write(|s, n, v| unsafe { coord_cache_insert_verified_with_path_mtu_unchecked(s, n, key, from, bytes, time, mtu, v) })
    }

    #[inline]
    pub(crate) fn get(&self, key: &NodeAddr, time: u64) -> Option<&Path> {
        let mut at = 0;
        // SAFETY: known, alone, pointers, widths
        let values = self.ask(|s, n, v| unsafe { coord_cache_get_unchecked(s, n, key, time, v, &mut at) });
        self.stored(values, at)
    }

    #[inline]
    pub(crate) fn get_and_touch(&mut self, key: &NodeAddr, time: u64) -> Option<&Path> {
        let mut at = 0;
        // SAFETY: known, alone, pointers, widths
        let got = self.write(|s, n, v| unsafe { coord_cache_get_and_touch_unchecked(s, n, key, time, v, &mut at) });
        self.stored(done(got), at)
    }

    /// "1 if found, how many elements the path has. The path stands in the state itself, in the key's row, from byte *at on".
    #[inline]
    fn stored(&self, values: Values, at: u64) -> Option<&Path> {
        (values[0] == 1).then(|| Path::of(&self.0[at as usize..][..values[1] as usize * ELEMENT]))
    }

    #[inline]
    pub(crate) fn remove(&mut self, key: &NodeAddr) -> Option<Row> {
        let mut row = [0; ROW];
        // SAFETY: known, alone, pointers, widths; and "The bytes of the row that left go into row", which has as many
        let found = self.write(|s, n, v| unsafe { coord_cache_remove_unchecked(s, n, key, v, &mut row) });
        (done(found)[0] == 1).then_some(row)
    }

    #[inline]
    pub(crate) fn demote(&mut self, key: &NodeAddr) -> Result<bool, Refused> {
        // SAFETY: known, alone, pointers, widths
        let held = self.write(|s, n, v| unsafe { coord_cache_demote_unchecked(s, n, key, v) });
        Ok(held?[0] == 1)
    }

    #[inline]
    pub(crate) fn clear_path_mtu(&mut self, key: &NodeAddr) {
        // SAFETY: known, alone, pointers, widths
        done(self.write(|s, n, v| unsafe { coord_cache_clear_path_mtu_unchecked(s, n, key, v) }));
    }

    #[inline]
    pub(crate) fn purge_expired(&mut self, time: u64) -> u64 {
        // SAFETY: known, alone, pointers
        done(self.write(|s, n, v| unsafe { coord_cache_purge_expired_unchecked(s, n, time, v) }))[0]
    }

    #[inline]
    pub(crate) fn clear(&mut self) {
        // SAFETY: known, alone, pointers
        done(self.write(|s, n, v| unsafe { coord_cache_clear_unchecked(s, n, v) }));
    }

    #[inline]
    pub(crate) fn invalidate_via_node(&mut self, addr: &NodeAddr) -> u64 {
        // SAFETY: known, alone, pointers, widths
        done(self.write(|s, n, v| unsafe { coord_cache_invalidate_via_node_unchecked(s, n, addr, v) }))[0]
    }

    #[inline]
    pub(crate) fn invalidate_other_roots(&mut self, addr: &NodeAddr) -> u64 {
        // SAFETY: known, alone, pointers, widths
        done(self.write(|s, n, v| unsafe { coord_cache_invalidate_other_roots_unchecked(s, n, addr, v) }))[0]
    }

    #[inline]
    pub(crate) fn stats(&self, time: u64) -> Values {
        // SAFETY: known, alone, pointers
        self.ask(|s, n, v| unsafe { coord_cache_stats_unchecked(s, n, time, v) })
    }

    #[inline]
    pub(crate) fn next_expiry(&self) -> Option<u64> {
        // SAFETY: known, alone, pointers
        let values = self.ask(|s, n, v| unsafe { coord_cache_next_expiry_unchecked(s, n, v) });
        (values[0] == 1).then_some(values[1])
    }
}

/// The answer of a call that nothing but number 1 can refuse, which an unchecked call "never returns".
#[inline]
fn done<T>(answer: Result<T, Refused>) -> T {
    answer.unwrap_or_else(|refused| unreachable!("the memory was made fresh and only the cache's calls wrote it, yet: {refused}"))
}

/// Where a path stands, and how many bytes it has.
#[inline]
fn parts(path: &Path) -> (*const u8, usize) {
    (path.as_bytes().as_ptr(), path.as_bytes().len())
}

/// An address where it stands among other bytes.
#[inline]
pub(crate) fn addr(bytes: &[u8; ADDRESS]) -> &NodeAddr {
    // SAFETY: widths; `NodeAddr` is `repr(transparent)` over `[u8; ADDRESS]`
    unsafe { &*std::ptr::from_ref(bytes).cast() }
}

/// Bytes as a path.
#[inline]
pub(crate) fn path(bytes: &[u8]) -> &Path {
    // SAFETY: widths; `Path` is `repr(transparent)` over `[u8]`
    unsafe { &*(std::ptr::from_ref(bytes) as *const Path) }
}

/// Elements as the bytes of a path.
#[inline]
pub(crate) fn elements(entries: &[CoordEntry]) -> &[u8] {
    // SAFETY: widths; a `CoordEntry` is "address 16, sequence 8, timestamp 8, little-endian" without padding, as coord.rs asserts
    unsafe { std::slice::from_raw_parts(entries.as_ptr().cast(), size_of_val(entries)) }
}
