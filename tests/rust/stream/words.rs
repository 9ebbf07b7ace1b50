//! Commands with the paths they need, short to write.
use super::encode;
use crate::driver::calls::{Addr, Elem};
use crate::numbers::{ADDRESS, UPTO, code};

/// What a letter or a case is made of.
pub type Commands = Vec<Vec<u8>>;

pub const A: Addr = [0xaa; ADDRESS];
pub const B: Addr = [0xbb; ADDRESS];
pub const C: Addr = [0xcc; ADDRESS];
pub const D: Addr = [0x0d; ADDRESS];

/// A path from the key, of so many elements, and the insert of it.
pub fn along(key: &Addr, length: usize, insert: Vec<u8>) -> Commands {
    let element = |i: usize| Elem { addr: if i == 0 { *key } else { [0x10; ADDRESS] }, sequence: 1, timestamp: 2 };
    (0..length).map(|i| encode::element(&element(i))).chain([insert]).collect()
}

pub fn funded(key: &Addr, length: usize, amount: u64, time: u64) -> Commands {
    along(key, length, encode::paid(code::INSERT_FUNDED, key, time, UPTO, amount))
}

pub fn stated(key: &Addr, length: usize, amount: u64, time: u64) -> Commands {
    along(key, length, encode::paid(code::INSERT_STATED, key, time, UPTO, amount))
}

pub fn verified(key: &Addr, length: usize, time: u64) -> Commands {
    along(key, length, encode::keyed_at(code::INSERT_VERIFIED, key, time))
}

pub fn insert(key: &Addr, time: u64) -> Commands {
    along(key, 1, encode::keyed_at(code::INSERT, key, time))
}

pub fn touch(key: &Addr, time: u64) -> Commands {
    vec![encode::keyed_at(code::GET_AND_TOUCH, key, time)]
}
