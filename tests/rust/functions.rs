//! The functions of libcoordcache.a (include/coordcache.h) and of libstreamlib.a, as the test programs call them; a pointer that goes
//! without a length is a reference to what it points to. tests/declarations holds these to the Rattle source.
#![allow(dead_code, reason = "no program calls all of them")]
use crate::numbers::{Addr, ROW, Values};

unsafe extern "C" {
    pub fn coord_cache_is_sound(state: *const u8, len: usize) -> u8;
    pub fn coord_cache_fresh(state: *mut u8, len: usize, max: u64, ttl: u64) -> u8;

    pub fn coord_cache_insert(
        state: *mut u8,
        len: usize,
        key: &Addr,
        path: *const u8,
        path_len: usize,
        time: u64,
        values: &mut Values,
    ) -> u8;
    pub fn coord_cache_insert_with_ttl(
        state: *mut u8,
        len: usize,
        key: &Addr,
        path: *const u8,
        path_len: usize,
        time: u64,
        ttl: u64,
        values: &mut Values,
    ) -> u8;
    pub fn coord_cache_insert_funded(
        state: *mut u8,
        len: usize,
        key: &Addr,
        path: *const u8,
        path_len: usize,
        time: u64,
        kind: u8,
        amount: u64,
        values: &mut Values,
    ) -> u8;
    pub fn coord_cache_insert_stated(
        state: *mut u8,
        len: usize,
        key: &Addr,
        path: *const u8,
        path_len: usize,
        time: u64,
        kind: u8,
        amount: u64,
        values: &mut Values,
    ) -> u8;
    pub fn coord_cache_insert_verified(
        state: *mut u8,
        len: usize,
        key: &Addr,
        path: *const u8,
        path_len: usize,
        time: u64,
        values: &mut Values,
    ) -> u8;
    pub fn coord_cache_insert_verified_with_path_mtu(
        state: *mut u8,
        len: usize,
        key: &Addr,
        path: *const u8,
        path_len: usize,
        time: u64,
        mtu: u16,
        values: &mut Values,
    ) -> u8;

    pub fn coord_cache_get(state: *const u8, len: usize, key: &Addr, time: u64, values: &mut Values, at: &mut u64) -> u8;
    pub fn coord_cache_get_and_touch(state: *mut u8, len: usize, key: &Addr, time: u64, values: &mut Values, at: &mut u64) -> u8;
    pub fn coord_cache_remove(state: *mut u8, len: usize, key: &Addr, values: &mut Values, row: &mut [u8; ROW]) -> u8;
    pub fn coord_cache_demote(state: *mut u8, len: usize, key: &Addr, values: &mut Values) -> u8;
    pub fn coord_cache_clear_path_mtu(state: *mut u8, len: usize, key: &Addr, values: &mut Values) -> u8;

    pub fn coord_cache_purge_expired(state: *mut u8, len: usize, time: u64, values: &mut Values) -> u8;
    pub fn coord_cache_clear(state: *mut u8, len: usize, values: &mut Values) -> u8;
    pub fn coord_cache_invalidate_via_node(state: *mut u8, len: usize, addr: &Addr, values: &mut Values) -> u8;
    pub fn coord_cache_invalidate_other_roots(state: *mut u8, len: usize, addr: &Addr, values: &mut Values) -> u8;

    pub fn coord_cache_stats(state: *const u8, len: usize, time: u64, values: &mut Values) -> u8;
    pub fn coord_cache_next_expiry(state: *const u8, len: usize, values: &mut Values) -> u8;
}

unsafe extern "C" {
    pub fn stream_run(
        state: *mut u8,
        state_len: usize,
        pending: *mut u8,
        pending_len: usize,
        input: *const u8,
        input_len: usize,
        last: u8,
        output: *mut u8,
        output_len: usize,
        report: *mut u64,
        report_len: usize,
    );
}
