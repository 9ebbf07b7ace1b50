//! What is measured: lists of calls as plain data, the same for every side.
use crate::numbers::{ADDRESS, ADDRS_PER_ENTRY, Addr};

/// A path element: address, sequence, timestamp.
pub type Element = (Addr, u64, u64);

#[derive(Clone)]
pub enum Plain {
    Get(Addr, u64),
    Touch(Addr, u64),
    /// key, path, time, what the writer can pay
    Hint(Addr, Vec<Element>, u64, u64),
    Verify(Addr, Vec<Element>, u64),
    Purge(u64),
    Via(Addr),
    Roots(Addr),
    Stats(u64),
}

pub struct Line {
    pub name: &'static str,
    /// How many calls a round has, at this limit.
    pub calls: fn(usize) -> usize,
    /// The calls that fill a cache, and those that are timed.
    pub make: fn(usize, usize) -> (Vec<Plain>, Vec<Plain>),
}

/// Nothing expires while it is measured.
pub const TTL: u64 = 1 << 40;

/// Entries that a path has: its node, some relays, the root.
const DEPTH: usize = 6;

/// What pays any path of that depth.
const PAID: u64 = ADDRS_PER_ENTRY;

pub const ALL: &[Line] = &[
    Line { name: "get, held", calls: many, make: |max, n| (hints(max), (0..n).map(|i| Plain::Get(key(held(max, i)), 1)).collect()) },
    Line { name: "get, missing", calls: many, make: |max, n| (hints(max), (0..n).map(|i| Plain::Get(key(held(max, i) + 1), 1)).collect()) },
    Line { name: "get and touch", calls: many, make: |max, n| (hints(max), (0..n).map(|i| Plain::Touch(key(held(max, i)), after(max, i))).collect()) },
    Line { name: "funded new key at capacity", calls: few, make: |max, n| (hints(max), (0..n).map(|i| hint(new(max, i), after(max, i), PAID)).collect()) },
    Line { name: "unpaid new key", calls: few, make: |max, n| (hints(max), (0..n).map(|i| hint(new(max, i), after(max, i), 0)).collect()) },
    Line { name: "rewrite", calls: many, make: |max, n| (hints(max), (0..n).map(|i| hint(held(max, i), after(max, i), PAID)).collect()) },
    Line { name: "verified rewrite", calls: few, make: |max, n| (verified(max), (0..n).map(|i| verify(held(max, i), after(max, i))).collect()) },
    Line { name: "mixed trace of a busy gateway", calls: few, make: mixed },
    Line { name: "purge, none leaves", calls: sweeps, make: |max, n| (hints(max), vec![Plain::Purge(1); n]) },
    Line { name: "via node, none leaves", calls: sweeps, make: |max, n| (hints(max), vec![Plain::Via([0xee; ADDRESS]); n]) },
    Line { name: "other roots, none leaves", calls: sweeps, make: |max, n| (hints(max), vec![Plain::Roots(ROOT); n]) },
    Line { name: "statistics", calls: sweeps, make: |max, n| (hints(max), vec![Plain::Stats(1 << 20); n]) },
];

fn many(_: usize) -> usize {
    20_000
}

fn few(max: usize) -> usize {
    if max > 500 { 1_000 } else { 10_000 }
}

fn sweeps(max: usize) -> usize {
    4_000_000 / (max + 200) / 10
}

const ROOT: Addr = [0xff; ADDRESS];

/// Addresses as hashes give them: spread over all bytes.
pub fn key(n: u64) -> Addr {
    let mix = |x: u64| {
        let mut z = x.wrapping_mul(0x9e37_79b9_7f4a_7c15);
        z = (z ^ (z >> 30)).wrapping_mul(0xbf58_476d_1ce4_e5b9);
        z ^ (z >> 27)
    };
    let mut bytes = [0; ADDRESS];
    bytes[..8].copy_from_slice(&mix(n + 1).to_be_bytes());
    bytes[8..].copy_from_slice(&mix(n ^ 0x5555).to_be_bytes());
    bytes
}

/// The numbers of held keys are even, so that odd ones are missing.
fn held(max: usize, i: usize) -> u64 {
    2 * ((i * 7919) % max) as u64
}

fn new(max: usize, i: usize) -> u64 {
    2 * (max + i) as u64
}

/// A time behind the filling, later for each call.
fn after(max: usize, i: usize) -> u64 {
    (max + i + 2) as u64
}

/// The path differs with the time, as a moved node's does.
fn path(n: u64, time: u64) -> Vec<Element> {
    let mut elements: Vec<Element> = (0..DEPTH as u64 - 1).map(|d| (key(if d == 0 { n } else { n / 7 + 1_000_000 * d }), time, time)).collect();
    elements.push((ROOT, 1, 1));
    elements
}

fn hint(n: u64, time: u64, paid: u64) -> Plain {
    Plain::Hint(key(n), path(n, time), time, paid)
}

fn verify(n: u64, time: u64) -> Plain {
    Plain::Verify(key(n), path(n, time), time)
}

fn hints(max: usize) -> Vec<Plain> {
    (0..max).map(|i| hint(2 * i as u64, i as u64 + 1, PAID)).collect()
}

fn verified(max: usize) -> Vec<Plain> {
    (0..max).map(|i| verify(2 * i as u64, i as u64 + 1)).collect()
}

/// Of a hundred calls 80 look a held key up and touch it, 5 miss, 6 rewrite a held key, 4 bring a new one that is paid, 2 one that is
/// not, 2 verify a held key, and 1 asks for statistics. A quarter of the keys is verified to begin with.
fn mixed(max: usize, n: usize) -> (Vec<Plain>, Vec<Plain>) {
    let mut setup = hints(max);
    setup.extend((0..max / 4).map(|i| verify(8 * i as u64, max as u64 + 1)));
    let calls = (0..n).map(|i| {
        let time = after(max, i);
        match (i * 37) % 100 {
            0..=79 => Plain::Touch(key(held(max, i)), time),
            80..=84 => Plain::Get(key(held(max, i) + 1), time),
            85..=90 => hint(held(max, i), time, PAID),
            91..=94 => hint(new(max, i), time, PAID),
            95..=96 => hint(new(max, i), time, 0),
            97..=98 => verify(held(max, i), time),
            _ => Plain::Stats(time),
        }
    });
    (setup, calls.collect())
}
