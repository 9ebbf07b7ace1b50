//! The profiles: what the streams of each draw from. A profile is a taste; `make.rs` makes streams to it.
use crate::numbers::{ADDRS_PER_ENTRY, COORDRUN_ROWS, MAX_ROWS, MOST_ENTRIES, PLACES, PROBATION_DIVISOR, VERIFIED_TTL_MS};

/// Kinds of commands but path elements, in the order of the weights below.
pub const KINDS: usize = 18;

#[derive(Clone, Copy)]
pub enum Keys {
    /// so many at least, and at most
    Count(usize, usize),
    /// so many more than main and probation hold together
    Over(usize, usize),
}

/// Weights of where a time comes from.
#[derive(Clone, Copy)]
pub struct Times {
    pub same: u64,
    /// 1 to 4 later
    pub ahead: u64,
    /// 1 to 4 earlier
    pub back: u64,
    /// one that was given before
    pub again: u64,
    /// within 1 of the key's `expires_at`, `verified_until`, `last_used`
    pub expiry: u64,
    pub until: u64,
    pub used: u64,
    /// a third to a whole verification later
    pub leap: u64,
    /// 0 or the last
    pub far: u64,
}

#[derive(Clone)]
pub struct Taste {
    pub name: &'static str,
    pub about: &'static str,
    /// of all commands, in a hundred
    pub share: u64,
    /// commands to a stream, about
    pub length: usize,
    /// rows and max
    pub limits: &'static [(u64, u64)],
    pub ttls: &'static [u64],
    pub starts: &'static [u64],
    pub keys: Keys,
    pub lengths: &'static [usize],
    pub times: Times,
    /// insert, with ttl, funded, stated, verified, with MTU; get, touch; remove, demote, clear MTU;
    /// purge, clear, via, roots; stats, next; fresh
    pub kinds: [u64; KINDS],
    /// commands and paths out of order, in a hundred: inserts with no path, elements left over, one element too many
    pub disorder: u64,
    /// bytes out of order, in a hundred: codes unknown, commands cut, kinds over 1, bits turned
    pub damage: u64,
    /// seq starts a little below the last one that is not refused by 3
    pub worn: bool,
    /// main is filled first
    pub fill: bool,
}

const TTLS: &[u64] = &[300_000, 300_000, 300_000, 1000, 400_000, 10, u64::MAX];
// of large caches, whose rows stay until they are evicted
const LONG_TTLS: &[u64] = &[300_000, 1_000_000, u64::MAX];
const LARGE_LENGTHS: &[usize] = &[1, 1, 1, 1, 1, 1, 1, 1, 1, 1, 2, LIGHT + 1];
const LARGE_TIMES: Times = Times { same: 50, ahead: 40, back: 4, again: 3, expiry: 0, until: 1, used: 3, leap: 0, far: 0 };
const STARTS: &[u64] = &[0, 0, 1, 5, 1000, 400_000, 1_700_000_000_000];
/// The longest path of the least weight.
const LIGHT: usize = ADDRS_PER_ENTRY as usize;
const SHORT: &[usize] = &[1, 1, 1, 2, 2, 3, 4, LIGHT, LIGHT + 1, LIGHT + 2];
const AROUND: &[usize] =
    &[1, 1, 2, LIGHT - 1, LIGHT, LIGHT, LIGHT + 1, LIGHT + 1, LIGHT + 2, LIGHT + 4, LIGHT + 8, PLACES - 1, PLACES, PLACES];
const LENGTHS: &[usize] = &{
    let mut lengths = [0; PLACES];
    let mut i = 0;
    while i < PLACES {
        lengths[i] = i + 1;
        i += 1;
    }
    lengths
};
/// coordrun's rows and max.
const COORDRUN: (u64, u64) = (COORDRUN_ROWS, 8);
/// The least max at which probation holds two rows.
const WIDE: u64 = 2 * PROBATION_DIVISOR;
const TIMES: Times = Times { same: 40, ahead: 22, back: 6, again: 6, expiry: 6, until: 8, used: 6, leap: 1, far: 0 };

const FEW: Taste = Taste {
    name: "few-keys",
    about: "3 to 6 keys at max 0 to 4, rewritten again and again by every call",
    share: 14,
    length: 240,
    limits: &[(2, 1), (3, 2), (2, 1), (4, 3), (5, 4), (3, 1), (4, 2), (1, 0), (24, 2), (6, 3), (2, 0)],
    ttls: TTLS,
    starts: STARTS,
    keys: Keys::Count(3, 6),
    lengths: SHORT,
    times: TIMES,
    kinds: [10, 6, 24, 18, 16, 6, 8, 16, 4, 6, 3, 2, 1, 1, 1, 4, 3, 1],
    disorder: 2,
    damage: 0,
    worn: false,
    fill: false,
};

pub const TASTES: [Taste; 14] = [
    FEW,
    Taste {
        name: "coordrun",
        about: "coordrun's own limits, R 24 and max 8, and 9 to 14 keys, so that main and probation are full",
        share: 12,
        length: 300,
        limits: &[COORDRUN],
        ttls: &[300_000],
        keys: Keys::Over(1, 6),
        ..FEW
    },
    Taste {
        name: "many-keys",
        about: "max 5 to 31 at capacity, more keys than fit",
        share: 8,
        length: 400,
        limits: &[(6, 5), (13, 12), (24, 23), (32, 31), (33, 31), (64, 63), (24, 16), (17, 16)],
        keys: Keys::Over(2, 8),
        lengths: &[1, 1, 1, 1, 2, 3, LIGHT, LIGHT + 1, PLACES],
        ..FEW
    },
    Taste {
        name: "verified",
        about: "verified inserts at ticking and tied times, touches back in time, verifications that lapse",
        share: 10,
        limits: &[(2, 1), (3, 2), (4, 3), (4, 2), (6, 4), (9, 8), COORDRUN],
        ttls: &[VERIFIED_TTL_MS, 400_000, 1_000_000, u64::MAX, VERIFIED_TTL_MS - 1],
        keys: Keys::Over(1, 4),
        lengths: &[1, 1, 1, 1, 2, LIGHT, LIGHT + 1, LIGHT + 2, PLACES],
        times: Times { same: 36, ahead: 16, back: 8, again: 10, expiry: 2, until: 16, used: 6, leap: 5, far: 0 },
        kinds: [6, 2, 14, 10, 34, 10, 3, 26, 3, 9, 3, 1, 0, 0, 0, 1, 1, 0],
        ..FEW
    },
    Taste {
        name: "funding",
        about: "amounts around the least and the most weight against path weights, both kinds, growth, promotion, probation under pressure",
        share: 10,
        length: 420,
        limits: &[(3, 2), (2, 1), (4, 3), (5, 3), (7, 4), (9, 8), COORDRUN, (WIDE + 2, WIDE)],
        ttls: &[300_000, 300_000, 1000],
        keys: Keys::Over(1, 4),
        lengths: AROUND,
        times: Times { same: 50, ahead: 30, back: 4, again: 4, expiry: 3, until: 3, used: 4, leap: 1, far: 0 },
        kinds: [4, 2, 44, 24, 6, 1, 2, 12, 3, 2, 0, 1, 0, 1, 1, 1, 0, 0],
        disorder: 1,
        ..FEW
    },
    Taste {
        name: "foreign-bytes",
        about: "damaged commands: codes unknown, commands cut, kinds over 1, bits turned, one element too many, inserts with no path",
        share: 8,
        limits: &[COORDRUN, (3, 2), (2, 1), (9, 8)],
        keys: Keys::Count(3, 9),
        lengths: &[1, 1, 1, 2, 2, 3, LIGHT + 1],
        disorder: 10,
        damage: 25,
        ..FEW
    },
    Taste {
        name: "sweeps",
        about: "purges, clears, sweeps by address and by root, statistics and next expiries",
        share: 8,
        limits: &[COORDRUN, (9, 8), (6, 5), (14, 12), (33, 32)],
        ttls: &[5, 20, 100, 300_000],
        keys: Keys::Over(0, 4),
        lengths: &[1, 1, 2, 2, 3, 4, 5, 7, LIGHT + 1],
        times: Times { same: 20, ahead: 36, back: 6, again: 8, expiry: 20, until: 2, used: 4, leap: 3, far: 1 },
        kinds: [10, 12, 20, 6, 8, 4, 6, 10, 6, 3, 3, 12, 2, 8, 4, 12, 12, 2],
        ..FEW
    },
    Taste {
        name: "lengths",
        about: "paths of every length from 1 to 32, and paths that differ in one field",
        share: 6,
        length: 600,
        limits: &[COORDRUN, (3, 2), (4, 3), (2, 1), (13, 12)],
        keys: Keys::Over(0, 3),
        lengths: LENGTHS,
        ..FEW
    },
    Taste {
        name: "late-times",
        about: "times near 2^64 - 1, where sums stop, and statistics whose total of ages passes 2^64",
        share: 5,
        ttls: &[300_000, 0, 10, u64::MAX, u64::MAX - 5],
        starts: &[
            u64::MAX - 700_000,
            u64::MAX - VERIFIED_TTL_MS - 1,
            u64::MAX - VERIFIED_TTL_MS,
            u64::MAX - VERIFIED_TTL_MS + 1,
            u64::MAX - 12,
            5,
            5,
            u64::MAX - 1,
            u64::MAX,
        ],
        limits: &[(2, 1), (3, 2), (4, 3), (9, 8), COORDRUN],
        keys: Keys::Over(1, 4),
        times: Times { same: 34, ahead: 20, back: 10, again: 8, expiry: 6, until: 8, used: 6, leap: 2, far: 10 },
        kinds: [8, 8, 20, 12, 18, 6, 6, 14, 3, 5, 2, 3, 0, 0, 0, 10, 4, 0],
        ..FEW
    },
    Taste {
        name: "short-lives",
        about: "ttl 0 and a few milliseconds: rows that expire before they are written again",
        share: 5,
        ttls: &[0, 0, 1, 2, 3, 5],
        limits: &[(2, 1), (3, 2), (4, 3), (9, 8), COORDRUN],
        keys: Keys::Over(0, 3),
        times: Times { same: 34, ahead: 30, back: 8, again: 4, expiry: 18, until: 3, used: 4, leap: 1, far: 0 },
        kinds: [10, 14, 24, 14, 12, 6, 8, 16, 3, 4, 2, 5, 0, 0, 0, 4, 3, 1],
        ..FEW
    },
    Taste {
        name: "worn-out",
        about: "seq set just below the last one, so that stamping calls come to be refused by 3",
        share: 2,
        length: 150,
        limits: &[(2, 1), (3, 2), (9, 8), COORDRUN],
        lengths: &[1, 1, 1, 2, LIGHT + 1],
        kinds: [8, 4, 20, 14, 18, 6, 6, 12, 4, 12, 4, 2, 1, 1, 1, 3, 2, 0],
        disorder: 4,
        worn: true,
        ..FEW
    },
    Taste {
        name: "wide-probation",
        about: "max 64 to 200, where probation holds more than one row, filled first",
        share: 5,
        length: 700,
        limits: &[(WIDE + 2, WIDE), (WIDE + 6, WIDE), (99, 96), (132, 128), (156, 150), (206, 200), (WIDE + 4, WIDE + 1)],
        ttls: LONG_TTLS,
        keys: Keys::Over(20, 60),
        lengths: LARGE_LENGTHS,
        times: LARGE_TIMES,
        kinds: [6, 3, 44, 14, 12, 4, 4, 24, 2, 3, 1, 1, 0, 0, 0, 1, 1, 0],
        disorder: 1,
        fill: true,
        ..FEW
    },
    Taste {
        name: "full-size",
        about: "the most rows with the largest max and one less, and other large ones, filled first",
        share: 4,
        length: 1200,
        limits: &[
            (MAX_ROWS, MOST_ENTRIES - 1),
            (MAX_ROWS, MOST_ENTRIES),
            (MAX_ROWS, MOST_ENTRIES - 1),
            (600, 500),
            (MAX_ROWS - 1, MOST_ENTRIES - 1),
        ],
        ttls: LONG_TTLS,
        keys: Keys::Over(200, 500),
        lengths: LARGE_LENGTHS,
        times: LARGE_TIMES,
        kinds: [6, 3, 40, 14, 14, 4, 6, 30, 3, 3, 1, 0, 0, 0, 0, 1, 1, 0],
        disorder: 1,
        fill: true,
        ..FEW
    },
    GATEWAY,
];

/// Also what the benchmark runs.
pub const GATEWAY: Taste = Taste {
    name: "gateway",
    about: "what a gateway does: lookups above all, paid hints, some verified inserts",
    share: 3,
    length: 1500,
    limits: &[COORDRUN, (132, 128)],
    ttls: &[300_000],
    starts: &[1_700_000_000_000],
    keys: Keys::Over(0, 4),
    lengths: &[2, 3, 3, 4, 4, 4, 5, 5, 6, 8],
    times: Times { same: 45, ahead: 55, back: 0, again: 0, expiry: 0, until: 0, used: 0, leap: 0, far: 0 },
    kinds: [20, 5, 200, 80, 40, 20, 100, 500, 10, 10, 5, 3, 0, 1, 0, 2, 4, 0],
    disorder: 0,
    ..FEW
};
