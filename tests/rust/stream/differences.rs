//! All that the original does otherwise than 01 wants it, or does not do at all (docs/DIFFERENCES.md). Nothing else here
//! departs from the original.
use super::original::Cache;
use crate::cache::{Funding, HintOutcome, Placed};
use crate::driver::calls::{Inside, bad_path, bad_size, probation_bound};
use crate::identity::NodeAddr;
use crate::numbers::{LAST_SEQ, Values, refusal};
use crate::proto::stp::TreeCoordinate;

/// Refusal 5. The original takes any limit; the lent memory has R rows.
pub fn fresh_refused(rows: u64, max: u64) -> Option<u8> {
    bad_size(rows, max).then_some(refusal::ROW_COUNT)
}

/// Refusal 2. The original's type has no empty path and takes any length. (A pending path never has more elements than places.)
pub fn path_refused(length: usize) -> Option<u8> {
    bad_path(length).then_some(refusal::PATH_LENGTH)
}

/// Refusal 3. The original's seq overflows. No stream reaches it from fresh; a test sets seq high.
pub fn stamps_refused(cache: &Cache) -> Option<u8> {
    (cache.seq() > LAST_SEQ).then_some(refusal::SEQUENCE_USED_UP)
}

/// Refusal 4. The original grows past its bound, where the lent memory has no main row left. Whether room can be made is
/// asked of the original itself, on a copy; only where all else holds, since a copy is dear.
pub fn verified_refused(cache: &Cache, rows: u64, key: &NodeAddr, weight: u64, time: u64) -> Option<u8> {
    let main = rows - probation_bound(cache.max_entries() as u64);
    (!cache.in_main(key) && cache.main_rows() >= main && !cache.room_without(key, weight, time)).then_some(refusal::NO_MAIN_ROW)
}

/// `insert` and `insert_with_ttl` give the outcome alone; `place_hint` beneath them gives the whole answer. That they are
/// the same is tried on a copy, in builds that check and where the copy is small.
pub fn uncharged(
    cache: &mut Cache,
    key: NodeAddr,
    coords: TreeCoordinate,
    time: u64,
    ttl: u64,
    write: impl FnOnce(&mut Cache, NodeAddr, TreeCoordinate) -> HintOutcome,
) -> Placed {
    let copy = (cfg!(debug_assertions) && cache.len() <= 64).then(|| (cache.clone(), coords.clone()));
    let placed = cache.place(key, coords, time, ttl, Funding::Uncharged, false);
    if let Some((mut copy, coords)) = copy {
        assert_eq!(write(&mut copy, key, coords), placed.outcome, "insert and place_hint differ");
        assert_eq!(copy.rows(), cache.rows(), "insert and place_hint differ");
        assert_eq!(copy.seq(), cache.seq(), "insert and place_hint differ");
    }
    placed
}

/// The original's total of ages overflows; 01's is exact. No age is above the time given, so a small time cannot overflow.
pub fn stats(cache: &Cache, time: u64) -> Values {
    let count = cache.len() as u64;
    let theirs = || {
        let stats = cache.stats(time);
        [stats.entries as u64, stats.max_entries as u64, stats.expired as u64, stats.avg_age_ms, 0]
    };
    if count.checked_mul(time).is_some() {
        return theirs();
    }
    let rows = cache.rows();
    let total: u128 = rows.iter().map(|row| u128::from(time.saturating_sub(row.entry.created_at))).sum();
    let expired = rows.iter().filter(|row| time > row.entry.expires_at).count() as u64;
    let ours = [count, cache.max_entries() as u64, expired, (total / u128::from(count.max(1))) as u64, 0];
    if u64::try_from(total).is_ok() {
        assert_eq!(ours, theirs(), "the exact mean and the original's differ without an overflow");
    }
    ours
}

/// Added by 01: read off the original's entries. Asked at time 0, `iter` leaves none of them out.
pub fn next_expiry(cache: &Cache) -> Option<u64> {
    cache.iter(0).map(|(_, entry)| entry.expires_at()).min()
}
