//! The lent memory that the proved cache must leave: what the original holds, packed by docs/PACKING.md.
//!
//! Every stream begins with a done fresh, which zeroes all rows, and a row that is vacated becomes zero; so each byte is
//! known and the whole memory is compared.
use super::original::Original;
use crate::driver::calls::{Inside, Place, Row};
use crate::numbers::*;
use crate::proto::stp::CoordEntry;

/// The bytes of a pending path.
pub const PENDING: usize = PATH;

/// The bytes of memory with so many rows.
pub fn whole(rows: u64) -> usize {
    HEAD + rows as usize * ROW
}

/// The same, and a few behind them where the number is odd: these are never written.
pub fn size(rows: u64) -> usize {
    whole(rows) + if rows % 2 == 1 { (rows as usize * 131 + 7) % ROW } else { 0 }
}

/// What stands in the memory before fresh: no byte of it may be taken for a state's.
pub fn dirt(size: usize) -> Vec<u8> {
    (0..size).map(|i| (i * 37 + 11) as u8 | 1).collect()
}

/// The head's five numbers, as 01 lists them.
pub fn head(original: &Original) -> [u64; HEAD_FIELDS.len()] {
    let cache = original.cache();
    [cache.max_entries() as u64, cache.default_ttl_ms(), cache.seq(), cache.stored_weight(), cache.len() as u64]
}

/// An element's bytes.
fn element(to: &mut [u8], addr: &Addr, sequence: u64, timestamp: u64) {
    to[..SEQUENCE].copy_from_slice(addr);
    to[SEQUENCE..TIMESTAMP].copy_from_slice(&sequence.to_le_bytes());
    to[TIMESTAMP..].copy_from_slice(&timestamp.to_le_bytes());
}

/// A row's bytes; places past the path's length are zero.
pub fn row(row: &Row) -> [u8; ROW] {
    let mut bytes = [0; ROW];
    let entry = &row.entry;
    bytes[KEY..][..ADDRESS].copy_from_slice(&row.key);
    for (to, e) in bytes[PATH_PLACES..CREATED_AT].chunks_exact_mut(ELEMENT).zip(&entry.path) {
        element(to, &e.addr, e.sequence, e.timestamp);
    }
    for (at, number) in [
        (CREATED_AT, entry.created_at),
        (LAST_USED, entry.last_used),
        (EXPIRES_AT, entry.expires_at),
        (VERIFIED_UNTIL, entry.verified_until),
        (STAMP_FIRST, row.stamp.0),
        (STAMP_SEQ, row.stamp.1),
    ] {
        bytes[at..][..NUMBER].copy_from_slice(&number.to_le_bytes());
    }
    bytes[MTU_VALUE..][..SHORT].copy_from_slice(&entry.path_mtu.unwrap_or(0).to_le_bytes());
    let place = match row.place {
        Place::ByUse => BY_USE,
        Place::Parked => PARKED,
        Place::Probation => PROBATION,
    };
    for (at, byte) in [
        (PATH_LENGTH, entry.path.len() as u8),
        (MTU_MARK, if entry.path_mtu.is_some() { SOME_MTU } else { NO_MTU }),
        (SOURCE, if entry.verified { VERIFIED } else { HINT }),
        (PLACE, place),
        (WEIGHT, row.weight as u8),
    ] {
        bytes[at] = byte;
    }
    bytes
}

/// A row's bytes up to the path's length, and those behind its places.
pub fn row_parts(row: &Row) -> (Vec<u8>, Vec<u8>) {
    let bytes = self::row(row);
    let path = row.entry.path.len() * ELEMENT;
    (bytes[..PATH_PLACES + path].to_vec(), bytes[CREATED_AT..].to_vec())
}

/// Rewrites the head and the rows of a memory as the original has them now.
pub fn write(original: &Original, memory: &mut [u8]) {
    let held_before = number(&memory[ROW_COUNT..][..NUMBER]) as usize;
    for ((_, at, width), number) in HEAD_FIELDS.into_iter().zip(head(original)) {
        memory[at..][..width].copy_from_slice(&number.to_le_bytes());
    }
    let rows = original.cache().rows();
    let mut space = memory[HEAD..].chunks_exact_mut(ROW);
    for held in &rows {
        space.next().expect("the original holds no more rows than the memory has").copy_from_slice(&row(held));
    }
    space.take(held_before.saturating_sub(rows.len())).for_each(|vacated| vacated.fill(0));
}

/// The memory of so many rows as fresh leaves it, where it held this before.
pub fn after_fresh(original: &Original, mut memory: Vec<u8>) -> Vec<u8> {
    memory[..whole(original.rows)].fill(0);
    write(original, &mut memory);
    memory
}

/// A pending path: its length, its elements, and zeros.
pub fn pending(path: &[CoordEntry]) -> [u8; PENDING] {
    let mut bytes = [0; PENDING];
    bytes[0] = path.len() as u8;
    for (at, e) in bytes[BYTE..].chunks_exact_mut(ELEMENT).zip(path) {
        element(at, e.node_addr.as_bytes(), e.sequence, e.timestamp);
    }
    bytes
}

/// How many fields that differ are shown.
const SHOWN: usize = 12;

/// The fields in which a memory is not the one that was expected.
pub fn unlike(expected: &[u8], found: &[u8], rows: u64) -> Vec<String> {
    if expected.len() != found.len() {
        return vec![format!("memory: expected {} bytes, found {}", expected.len(), found.len())];
    }
    let mut said = Vec::new();
    let mut say = |name: String, at: usize, n: usize| {
        let (e, f) = (&expected[at..at + n], &found[at..at + n]);
        if e != f {
            said.push(format!("{name}: expected {}, found {}", value(e), value(f)));
        }
    };
    for (name, at, n) in HEAD_FIELDS {
        say(format!("head, {name}"), at, n);
    }
    for i in 0..rows as usize {
        let start = HEAD + i * ROW;
        if expected[start..start + ROW] == found[start..start + ROW] {
            continue;
        }
        for (name, at, n) in ROW_FIELDS {
            if at == PATH_PLACES {
                for place in 0..PLACES {
                    say(format!("row {i}, place {place}"), start + PATH_PLACES + place * ELEMENT, ELEMENT);
                }
            } else {
                say(format!("row {i}, {name}"), start + at, n);
            }
        }
    }
    let whole = whole(rows);
    say("past the last whole row".to_string(), whole, expected.len() - whole);
    let more = said.len().saturating_sub(SHOWN);
    said.truncate(SHOWN);
    if more > 0 {
        said.push(format!("and {more} fields more"));
    }
    said
}

/// Where a pending path is not the one that was expected.
pub fn pending_unlike(expected: &[u8; PENDING], found: &[u8; PENDING]) -> Vec<String> {
    let mut said = Vec::new();
    if expected[0] != found[0] {
        said.push(format!("pending path, length: expected {}, found {}", expected[0], found[0]));
    }
    for (i, (e, f)) in expected[BYTE..].chunks(ELEMENT).zip(found[BYTE..].chunks(ELEMENT)).enumerate() {
        if e != f && said.len() < SHOWN {
            said.push(format!("pending path, place {i}: expected {}, found {}", value(e), value(f)));
        }
    }
    said
}

/// A number up to eight bytes, else hex.
fn value(bytes: &[u8]) -> String {
    if bytes.len() > NUMBER { hex(bytes) } else { number(bytes).to_string() }
}

pub fn hex(bytes: &[u8]) -> String {
    crate::identity::hex_encode(bytes)
}
