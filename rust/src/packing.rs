//! Where the fields stand in the memory (docs/PACKING.md), how wide they are, the limits, and the numbers that cross to the library.
//! What is derived is written so; tests/numbers holds every number here to the definitions of `crates/`.

/// The most rows of a cache.
pub const MAX_ROWS: usize = 1024;

/// The most elements of a path: a row has so many places, used or not.
pub const MAX_PATH: usize = 32;

/// The least that an entry weighs, and the addresses that main may hold for each entry of `max_entries`.
///
/// A path weighs one for each element, so that deep paths cannot fill the memory unpaid. The floor keeps a writer from turning
/// the cache over cheaply with many short paths.
pub const ADDRS_PER_ENTRY: usize = 16;

/// Probation holds `max_entries` divided by this, and at least one entry, on top of `max_entries`.
///
/// An unpaid hint is thus stored for a while without taking the place of a paid one.
pub const PROBATION_SHARE_DIVISOR: usize = 32;

/// How long a verified entry yields to no hint, in milliseconds, unless it expires before.
///
/// It counts from the verified insert, and use does not prolong it as it does the expiry: else a route in use could never again be
/// corrected by a hint.
pub const VERIFIED_TTL_MS: u64 = 300_000;

/// The largest `max_entries` that [`MAX_ROWS`] are enough for.
pub(crate) const MOST_ENTRIES: usize = MAX_ROWS - MAX_ROWS / (PROBATION_SHARE_DIVISOR + 1);

// ---- widths, in bytes: a mark, code or length; an MTU; a number; an address

const BYTE: usize = 1;
const SHORT: usize = 2;
const NUMBER: usize = 8;
pub(crate) const ADDRESS: usize = 16;

// ---- the head

pub(crate) const MAX_ENTRIES: usize = 0;
pub(crate) const DEFAULT_TTL_MS: usize = MAX_ENTRIES + NUMBER;
const SEQ: usize = DEFAULT_TTL_MS + NUMBER;
const STORED_WEIGHT: usize = SEQ + NUMBER;
pub(crate) const ROW_COUNT: usize = STORED_WEIGHT + NUMBER;
pub(crate) const HEAD: usize = ROW_COUNT + NUMBER;

// ---- a path element

pub(crate) const SEQUENCE: usize = ADDRESS;
pub(crate) const TIMESTAMP: usize = SEQUENCE + NUMBER;
pub(crate) const ELEMENT: usize = TIMESTAMP + NUMBER;

// ---- a row

pub(crate) const PATH_LENGTH: usize = ADDRESS;
pub(crate) const PATH_PLACES: usize = PATH_LENGTH + BYTE;
pub(crate) const CREATED_AT: usize = PATH_PLACES + MAX_PATH * ELEMENT;
pub(crate) const LAST_USED: usize = CREATED_AT + NUMBER;
pub(crate) const EXPIRES_AT: usize = LAST_USED + NUMBER;
pub(crate) const MTU_MARK: usize = EXPIRES_AT + NUMBER;
pub(crate) const MTU_VALUE: usize = MTU_MARK + BYTE;
pub(crate) const SOURCE: usize = MTU_VALUE + SHORT;
pub(crate) const VERIFIED_UNTIL: usize = SOURCE + BYTE;
const PLACE: usize = VERIFIED_UNTIL + NUMBER;
const STAMP_FIRST: usize = PLACE + BYTE;
const STAMP_SEQ: usize = STAMP_FIRST + NUMBER;
const WEIGHT: usize = STAMP_SEQ + NUMBER;
pub(crate) const ROW: usize = WEIGHT + BYTE;

// ---- what stands in a row

pub(crate) const VERIFIED: u8 = 0;
pub(crate) const SOME_MTU: u8 = 1;

// ---- what calls take and answer: kinds of funding; how many numbers an answer has; outcomes and segments

pub(crate) const UNCHARGED: u8 = 0;
pub(crate) const UPTO: u8 = 1;
pub(crate) const VALUES: usize = 5;
pub(crate) const INSERTED: u64 = 0;
pub(crate) const CHANGED: u64 = 1;
pub(crate) const UNCHANGED: u64 = 2;
pub(crate) const REJECTED: u64 = 3;
pub(crate) const IN_MAIN: u64 = 0;

/// The `N` bytes of a field.
#[inline]
pub(crate) fn field<const N: usize>(bytes: &[u8], at: usize) -> [u8; N] {
    *bytes[at..].first_chunk().expect("a field stands whole in its head or row")
}

/// A number of 8 bytes.
#[inline]
pub(crate) fn number(bytes: &[u8], at: usize) -> u64 {
    u64::from_le_bytes(field(bytes, at))
}
