//! Commands written as bytes, for the streams that are made here.
use crate::cache::Funding;
use crate::driver::calls::{Addr, Elem};
use crate::numbers::{UNCHARGED, UPTO, code};

fn bytes(code: u8, operands: &[&[u8]]) -> Vec<u8> {
    let mut all = vec![code];
    operands.iter().for_each(|o| all.extend_from_slice(o));
    all
}

pub fn fresh(max: u64, ttl: u64) -> Vec<u8> {
    bytes(code::FRESH, &[&(max as u16).to_le_bytes(), &ttl.to_le_bytes()])
}

pub fn element(e: &Elem) -> Vec<u8> {
    bytes(code::ELEMENT, &[&e.addr, &e.sequence.to_le_bytes(), &e.timestamp.to_le_bytes()])
}

/// insert, insert_verified, get, get_and_touch.
pub fn keyed_at(code: u8, key: &Addr, time: u64) -> Vec<u8> {
    bytes(code, &[key, &time.to_le_bytes()])
}

pub fn insert_with_ttl(key: &Addr, time: u64, ttl: u64) -> Vec<u8> {
    bytes(code::INSERT_WITH_TTL, &[key, &time.to_le_bytes(), &ttl.to_le_bytes()])
}

/// insert_funded, insert_stated with the kind and the amount as they are.
pub fn paid(code: u8, key: &Addr, time: u64, kind: u8, amount: u64) -> Vec<u8> {
    bytes(code, &[key, &time.to_le_bytes(), &[kind], &amount.to_le_bytes()])
}

/// insert_funded, insert_stated. The amount of an Uncharged write is not read, so any will do.
pub fn funded(code: u8, key: &Addr, time: u64, funding: Funding, unread: u64) -> Vec<u8> {
    match funding {
        Funding::Uncharged => paid(code, key, time, UNCHARGED, unread),
        Funding::Upto(n) => paid(code, key, time, UPTO, n),
    }
}

pub fn insert_verified_with_path_mtu(key: &Addr, time: u64, mtu: u16) -> Vec<u8> {
    bytes(code::INSERT_VERIFIED_WITH_PATH_MTU, &[key, &time.to_le_bytes(), &mtu.to_le_bytes()])
}

/// remove, demote, clear_path_mtu; the sweeps by an address.
pub fn addressed(code: u8, addr: &Addr) -> Vec<u8> {
    bytes(code, &[addr])
}

/// purge_expired, stats.
pub fn at(code: u8, time: u64) -> Vec<u8> {
    bytes(code, &[&time.to_le_bytes()])
}

/// clear, next_expiry.
pub fn bare(code: u8) -> Vec<u8> {
    vec![code]
}
