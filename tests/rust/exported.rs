//! The functions of libcoordcache.a that ask whether the state is sound (include/coordcache.h), each called with fixed operands.

use crate::functions::*;
use crate::numbers::{ADDRESS, Addr, ELEMENT, ROW, SEQUENCE, TIMESTAMP, UPTO, VALUES, Values};

const TIME: u64 = 2;
const HELD: Addr = [4; ADDRESS];
const NEW: Addr = [5; ADDRESS];
/// One element: the address, sequence 7, timestamp 9.
const PATH: [u8; ELEMENT] = {
    let mut path = [0; ELEMENT];
    let mut i = 0;
    while i < ADDRESS {
        path[i] = 5;
        i += 1;
    }
    path[SEQUENCE] = 7;
    path[TIMESTAMP] = 9;
    path
};
/// What an upto pays.
const PAID: u64 = 40;
/// What stands in the row's bytes before a call.
const BEFORE: [u8; ROW] = [0xa5; ROW];

pub fn is_sound(state: &[u8]) -> bool {
    // SAFETY: the pointer comes with the length of what it points to
    unsafe { coord_cache_is_sound(state.as_ptr(), state.len()) == 1 }
}

pub fn fresh(state: &mut [u8], max: u64, ttl: u64) -> u8 {
    // SAFETY: the pointer comes with the length of what it points to, and nothing else points there
    unsafe { coord_cache_fresh(state.as_mut_ptr(), state.len(), max, ttl) }
}

pub const CALLS: [&str; 17] = [
    "insert",
    "insert_with_ttl",
    "insert_funded",
    "insert_stated",
    "insert_verified",
    "insert_verified_with_path_mtu",
    "get",
    "get_and_touch",
    "remove",
    "demote",
    "clear_path_mtu",
    "purge_expired",
    "clear",
    "invalidate_via_node",
    "invalidate_other_roots",
    "stats",
    "next_expiry",
];

/// What a call says: the number of its refusal, its five values, and whether it wrote the removed row.
pub struct Said {
    pub refusal: u8,
    pub values: Values,
    pub row_written: bool,
}

/// The call of that place in `CALLS`. What it writes beside the state holds other bytes before it.
pub fn call(which: usize, state: &mut [u8]) -> Said {
    let (mut values, mut at, mut row) = ([u64::MAX; VALUES], u64::MAX, BEFORE);
    let (len, s, v) = (state.len(), state.as_mut_ptr(), &mut values);
    let (held, new, path, n) = (&HELD, &NEW, PATH.as_ptr(), PATH.len());
    // SAFETY: each pointer comes with the length of what it points to, and nothing else points to what is written
    let refusal = unsafe {
        match which {
            0 => coord_cache_insert(s, len, new, path, n, TIME, v),
            1 => coord_cache_insert_with_ttl(s, len, new, path, n, TIME, 2, v),
            2 => coord_cache_insert_funded(s, len, held, path, n, TIME, UPTO, PAID, v),
            3 => coord_cache_insert_stated(s, len, held, path, n, TIME, UPTO, PAID, v),
            4 => coord_cache_insert_verified(s, len, held, path, n, TIME, v),
            5 => coord_cache_insert_verified_with_path_mtu(s, len, new, path, n, TIME, 513, v),
            6 => coord_cache_get(s, len, held, TIME, v, &mut at),
            7 => coord_cache_get_and_touch(s, len, held, TIME, v, &mut at),
            8 => coord_cache_remove(s, len, held, v, &mut row),
            9 => coord_cache_demote(s, len, held, v),
            10 => coord_cache_clear_path_mtu(s, len, held, v),
            11 => coord_cache_purge_expired(s, len, TIME, v),
            12 => coord_cache_clear(s, len, v),
            13 => coord_cache_invalidate_via_node(s, len, held, v),
            14 => coord_cache_invalidate_other_roots(s, len, held, v),
            15 => coord_cache_stats(s, len, TIME, v),
            _ => coord_cache_next_expiry(s, len, v),
        }
    };
    Said { refusal, values, row_written: which == 8 && row != BEFORE }
}
