//! Fields, sizes, limits and codes, once for every test program here and for the crate's own tests. What is derived is written so; what
//! is not, `tests/numbers --write` writes from the definitions.
//!
//! Behind each number stands what `tests/numbers` holds it to: a definition (`Layout.head_size`: `crates/rules/specs/Layout.antt`), a
//! name of `tests/numbers.antt.in`, a constant of the proved code (`replies::line::LINE`), or for a command byte the call that it is
//! read as (`Calls.Insert`).
#![allow(dead_code, reason = "no program uses all of them")]

// ---- widths, in bytes

/// A mark, a code, a length, a weight.
pub const BYTE: usize = 1; // Layout.byte_size
/// An MTU, and the limit that a command sets.
pub const SHORT: usize = 2; // Layout.mtu_size
/// A number of 64 bits.
pub const NUMBER: usize = 8; // Layout.number_size
pub const ADDRESS: usize = 16; // Layout.address_size

pub type Addr = [u8; ADDRESS];

// ---- limits

/// The most rows of a state.
pub const MAX_ROWS: u64 = 1024; // Records.max_rows
/// The most elements of a path: a row has so many places, used or not.
pub const PLACES: usize = 32; // Paths.path_places
/// The least that a path weighs, and what main may weigh for each entry of max.
pub const ADDRS_PER_ENTRY: u64 = 16; // Paths.addrs_per_entry
/// The most that a row weighs.
pub const WEIGHT_LIMIT: u64 = PLACES as u64; // Records.weight_limit
/// Probation holds this part of max, and at least one row.
pub const PROBATION_DIVISOR: u64 = 32; // Records.probation_divisor
/// The largest max that the most rows are enough for.
pub const MOST_ENTRIES: u64 = MAX_ROWS - MAX_ROWS / (PROBATION_DIVISOR + 1); // Held.most_entries
/// How long a verified entry yields to no hint, in milliseconds.
pub const VERIFIED_TTL_MS: u64 = 300_000; // Entries.verified_ttl
/// Every call draws fewer stamps.
pub const STAMPS_OF_CALL: u64 = 4096; // Refusals.stamps_of_call
/// The last seq at which a call that stamps is not refused.
pub const LAST_SEQ: u64 = 18446744073709547519; // Refusals.last_seq
/// The rows of coordrun's state.
pub const COORDRUN_ROWS: u64 = 24; // Commands.coordrun_rows
/// The largest max that these are enough for.
pub const COORDRUN_MOST_ENTRIES: u64 = COORDRUN_ROWS - 1; // Held.coordrun_most_entries

// ---- fields

/// A field: its name, where it begins, and how many bytes it has.
pub type Field = (&'static str, usize, usize);

/// Fields one behind the other, each by its name, the name in words and its width. Makes of each name the byte at which it begins, the
/// list of all, and the size of the whole.
macro_rules! fields {
    ($fields:ident, $size:ident: $($name:ident $words:literal $width:expr;)*) => {
        fields!(@from 0; $($name $width;)* $size);
        pub const $fields: [Field; [$($words),*].len()] = [$(($words, $name, $width)),*];
    };
    (@from $at:expr; $size:ident) => {
        pub const $size: usize = $at;
    };
    (@from $at:expr; $name:ident $width:expr; $($behind:tt)*) => {
        pub const $name: usize = $at;
        fields!(@from $name + $width; $($behind)*);
    };
}

// ---- the head

fields! { HEAD_FIELDS, HEAD: // Layout.head_size
    MAX_ENTRIES "max_entries" NUMBER; // Layout.max_entries_offset
    DEFAULT_TTL_MS "default_ttl_ms" NUMBER; // Layout.default_ttl_offset
    SEQ "seq" NUMBER; // Layout.seq_offset
    STORED_WEIGHT "stored_weight" NUMBER; // Layout.stored_weight_offset
    ROW_COUNT "row count" NUMBER; // Layout.row_count_offset
}

// ---- a path element, and a path

pub const SEQUENCE: usize = ADDRESS; // Layout.sequence_offset
pub const TIMESTAMP: usize = SEQUENCE + NUMBER; // Layout.timestamp_offset
pub const ELEMENT: usize = TIMESTAMP + NUMBER; // Layout.coord_entry_size
/// A length and all places; also the pending path.
pub const PATH: usize = BYTE + PLACES * ELEMENT; // Layout.path_size

// ---- a row

fields! { ROW_FIELDS, ROW: // Layout.row_size
    KEY "key" ADDRESS; // Layout.key_offset
    PATH_LENGTH "path length" BYTE; // Layout.entry_offset + Layout.length_offset
    PATH_PLACES "places" PLACES * ELEMENT; // Layout.places_in_row
    CREATED_AT "created_at" NUMBER; // Layout.created_at_in_row
    LAST_USED "last_used" NUMBER; // Layout.last_used_in_row
    EXPIRES_AT "expires_at" NUMBER; // Layout.expires_at_in_row
    MTU_MARK "MTU mark" BYTE; // Layout.mtu_mark_in_row
    MTU_VALUE "MTU value" SHORT; // Layout.mtu_in_row
    SOURCE "source" BYTE; // Layout.source_in_row
    VERIFIED_UNTIL "verified_until" NUMBER; // Layout.verified_until_in_row
    PLACE "place" BYTE; // Layout.place_offset
    STAMP_FIRST "stamp first" NUMBER; // Layout.stamp_first_offset
    STAMP_SEQ "stamp seq" NUMBER; // Layout.stamp_seq_offset
    WEIGHT "weight" BYTE; // Layout.weight_offset
}

/// A number of up to eight bytes, little-endian.
pub fn number(bytes: &[u8]) -> u64 {
    bytes.iter().rev().fold(0, |n, b| n << 8 | u64::from(*b))
}

// ---- what stands in a row

/// Places.
pub const BY_USE: u8 = 0; // Records.by_use
pub const PARKED: u8 = 1; // Records.parked
pub const PROBATION: u8 = 2; // Records.probation
/// Sources.
pub const VERIFIED: u8 = 0; // Records.verified_source
pub const HINT: u8 = 1; // Records.hint_source
/// MTU marks.
pub const NO_MTU: u8 = 0; // Records.no_mtu
pub const SOME_MTU: u8 = 1; // Records.some_mtu

// ---- what calls take and answer

/// Funding kinds.
pub const UNCHARGED: u8 = 0; // Held.uncharged
pub const UPTO: u8 = 1; // Held.upto
/// The numbers of an answer.
pub const VALUES: usize = 5; // Held.value_count
/// What became of a hint.
pub const INSERTED: u64 = 0; // Held.inserted
pub const CHANGED: u64 = 1; // Held.changed
pub const UNCHANGED: u64 = 2; // Held.unchanged
pub const REJECTED: u64 = 3; // Held.rejected
/// Where it stands.
pub const IN_MAIN: u64 = 0; // Held.in_main
pub const IN_PROBATION: u64 = 1; // Held.in_probation

pub type Values = [u64; VALUES];

/// Numbers of refusals. Where several hold, `NO_COMMAND` comes first, then `ROW_COUNT`, then the others from the least.
pub mod refusal {
    pub const NOT_SOUND: u8 = 1; // Held.not_sound
    pub const PATH_LENGTH: u8 = 2; // Held.path_length
    pub const SEQUENCE_USED_UP: u8 = 3; // Held.sequence_used_up
    pub const NO_MAIN_ROW: u8 = 4; // Held.no_main_row
    pub const ROW_COUNT: u8 = 5; // Held.row_count
    /// A command that is unknown or cut, or a funding kind over 1.
    pub const NO_COMMAND: u8 = 6; // Held.no_command
}

// ---- the command stream

/// Digits of the longest number.
pub const DIGITS: usize = 20; // Held.digits
/// Room that is enough for every line: two digits of the code, six numbers with a space before each, the end.
pub const LINE: usize = 2 * BYTE + (1 + VALUES) * (BYTE + DIGITS) + BYTE; // replies::line::LINE
/// What a run reports: bytes used, bytes written, why it stopped, commands done, commands refused.
pub const REPORT: usize = 5; // streamlib::REPORT

/// Command bytes, and the widths of their operands.
pub mod code {
    use super::{ADDRESS, BYTE, NUMBER, SHORT};
    use std::ops::RangeInclusive;

    pub const FRESH: u8 = 0x00; // Refusals.Fresh
    pub const ELEMENT: u8 = 0x01; // Commands.Element
    pub const INSERT: u8 = 0x10; // Calls.Insert
    pub const INSERT_WITH_TTL: u8 = 0x11; // Calls.InsertWithTtl
    pub const INSERT_FUNDED: u8 = 0x12; // Calls.InsertFunded
    pub const INSERT_STATED: u8 = 0x13; // Calls.InsertStated
    pub const INSERT_VERIFIED: u8 = 0x14; // Calls.InsertVerified
    pub const INSERT_VERIFIED_WITH_PATH_MTU: u8 = 0x15; // Calls.InsertVerifiedWithPathMtu
    pub const GET: u8 = 0x20; // Calls.Get
    pub const GET_AND_TOUCH: u8 = 0x21; // Calls.GetAndTouch
    pub const REMOVE: u8 = 0x22; // Calls.Remove
    pub const DEMOTE: u8 = 0x23; // Calls.Demote
    pub const CLEAR_PATH_MTU: u8 = 0x24; // Calls.ClearPathMtu
    pub const PURGE_EXPIRED: u8 = 0x30; // Calls.PurgeExpired
    pub const CLEAR: u8 = 0x31; // Calls.Clear
    pub const INVALIDATE_VIA_NODE: u8 = 0x32; // Calls.InvalidateViaNode
    pub const INVALIDATE_OTHER_ROOTS: u8 = 0x33; // Calls.InvalidateOtherRoots
    pub const STATS: u8 = 0x40; // Calls.Stats
    pub const NEXT_EXPIRY: u8 = 0x41; // Calls.NextExpiry

    /// Each with the bytes of its operands. The widths of a code and their number are `Held.width` and `Held.code_count`.
    pub const ALL: [(u8, &[usize]); 19] = [
        (FRESH, &[SHORT, NUMBER]),
        (ELEMENT, &[ADDRESS, NUMBER, NUMBER]),
        (INSERT, &[ADDRESS, NUMBER]),
        (INSERT_WITH_TTL, &[ADDRESS, NUMBER, NUMBER]),
        (INSERT_FUNDED, &[ADDRESS, NUMBER, BYTE, NUMBER]),
        (INSERT_STATED, &[ADDRESS, NUMBER, BYTE, NUMBER]),
        (INSERT_VERIFIED, &[ADDRESS, NUMBER]),
        (INSERT_VERIFIED_WITH_PATH_MTU, &[ADDRESS, NUMBER, SHORT]),
        (GET, &[ADDRESS, NUMBER]),
        (GET_AND_TOUCH, &[ADDRESS, NUMBER]),
        (REMOVE, &[ADDRESS]),
        (DEMOTE, &[ADDRESS]),
        (CLEAR_PATH_MTU, &[ADDRESS]),
        (PURGE_EXPIRED, &[NUMBER]),
        (CLEAR, &[]),
        (INVALIDATE_VIA_NODE, &[ADDRESS]),
        (INVALIDATE_OTHER_ROOTS, &[ADDRESS]),
        (STATS, &[NUMBER]),
        (NEXT_EXPIRY, &[]),
    ];

    /// The hints, the verified inserts, and both: these take the pending path.
    pub const HINTS: RangeInclusive<u8> = INSERT..=INSERT_STATED;
    pub const VERIFIED_INSERTS: RangeInclusive<u8> = INSERT_VERIFIED..=INSERT_VERIFIED_WITH_PATH_MTU;
    pub const INSERTS: RangeInclusive<u8> = INSERT..=INSERT_VERIFIED_WITH_PATH_MTU;

    static OPERANDS: [Option<&[usize]>; 256] = {
        let mut all = [None; 256];
        let mut i = 0;
        while i < ALL.len() {
            all[ALL[i].0 as usize] = Some(ALL[i].1);
            i += 1;
        }
        all
    };

    /// The bytes of each operand behind a code, or nothing for a code that is unknown.
    pub fn operands(code: u8) -> Option<&'static [usize]> {
        OPERANDS[usize::from(code)]
    }
}
