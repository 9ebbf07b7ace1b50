//! What calls take and answer.

use crate::packing::{CHANGED, IN_MAIN, INSERTED, REJECTED, UNCHANGED, UNCHARGED, UPTO};
use crate::sys::Values;

/// What the writer of a hint pays, in weight.
///
/// ```
/// use coordcache::{CoordCache, Funding, NodeAddr, Segment, TreeCoordinate};
///
/// let [a, b] = [1, 2].map(|n| NodeAddr::from_bytes([n; 16]));
/// let mut cache: CoordCache = CoordCache::new(8, 300_000)?;
/// assert_eq!(cache.insert_funded(a, TreeCoordinate::root(a), 0, Funding::Upto(16))?.segment, Segment::Main);
/// assert_eq!(cache.insert_funded(b, TreeCoordinate::root(b), 0, Funding::Upto(15))?.segment, Segment::Probation);
/// # Ok::<(), coordcache::Refused>(())
/// ```
#[derive(Clone, Copy, Debug, PartialEq, Eq)]
pub enum Funding {
    /// At most this much; a write that costs more is not paid at all.
    Upto(u64),
    /// Whatever it costs, as where the gateway itself asked for the route.
    Uncharged,
}

impl Funding {
    /// Kind and amount.
    #[inline]
    pub(crate) fn numbers(self) -> (u8, u64) {
        match self {
            Funding::Uncharged => (UNCHARGED, 0),
            Funding::Upto(amount) => (UPTO, amount),
        }
    }
}

/// The part of the cache in which an entry stands.
///
/// ```
/// # use coordcache::{CoordCache, NodeAddr, Segment, TreeCoordinate};
/// # let a = NodeAddr::from_bytes([1; 16]);
/// # let mut cache: CoordCache = CoordCache::new(8, 300_000)?;
/// assert_eq!(cache.insert(a, TreeCoordinate::root(a), 0)?.segment, Segment::Main);
/// # Ok::<(), coordcache::Refused>(())
/// ```
#[derive(Clone, Copy, Debug, PartialEq, Eq)]
pub enum Segment {
    /// Paid and verified entries, `max_entries` of them. Only verified inserts may pass that, while there are rows.
    Main,
    /// Hints that were not paid, or that found main full of verified entries. They displace each other alone.
    Probation,
}

/// What became of a hint.
///
/// To be looked at: a hint that was not stored is answered like one that was, and only the outcome tells them apart.
///
/// ```
/// # use coordcache::{CoordCache, HintOutcome, NodeAddr, TreeCoordinate};
/// # let a = NodeAddr::from_bytes([1; 16]);
/// # let mut cache: CoordCache = CoordCache::new(8, 300_000)?;
/// assert_eq!(cache.insert(a, TreeCoordinate::root(a), 0)?.outcome, HintOutcome::Inserted);
/// assert_eq!(cache.insert(a, TreeCoordinate::root(a), 1)?.outcome, HintOutcome::Unchanged);
/// # Ok::<(), coordcache::Refused>(())
/// ```
#[must_use]
#[derive(Clone, Copy, Debug, PartialEq, Eq)]
pub enum HintOutcome {
    /// A new key was stored, or one whose entry had expired.
    Inserted,
    /// The key was held with another path, which the hint replaced. A node that moved looks like this, and so does a forged hint:
    /// watch how often it happens.
    Changed,
    /// The key was held with this path; its entry was refreshed.
    Unchanged,
    /// The hint was not stored: it would have displaced what is verified, or its writer did not pay for a deeper path.
    Rejected,
}

/// The answer to a hint.
///
/// ```
/// use coordcache::{CoordCache, HintOutcome, NodeAddr, Placed, Segment, TreeCoordinate};
///
/// let a = NodeAddr::from_bytes([1; 16]);
/// let mut cache: CoordCache = CoordCache::new(8, 300_000)?;
/// assert_eq!(
///     cache.insert(a, TreeCoordinate::root(a), 0)?,
///     Placed { outcome: HintOutcome::Inserted, added_weight: 16, segment: Segment::Main, unfunded: false, examined: 0 },
/// );
/// # Ok::<(), coordcache::Refused>(())
/// ```
#[must_use]
#[derive(Clone, Copy, Debug, PartialEq, Eq)]
pub struct Placed {
    /// What became of it.
    pub outcome: HintOutcome,
    /// The weight that it added to main: what its writer is charged. An `Upto` is never passed.
    pub added_weight: u64,
    /// Where the key now stands; Main if the hint was rejected.
    pub segment: Segment,
    /// The funding did not cover it: a new key went to probation, or a held one kept its shallower path.
    pub unfunded: bool,
    /// Keys that eviction took up to make room. It is the work of the call, to size a gateway by.
    pub examined: u64,
}

impl Placed {
    #[inline]
    pub(crate) fn of([outcome, added_weight, segment, unfunded, examined]: Values) -> Self {
        Self {
            outcome: match outcome {
                INSERTED => HintOutcome::Inserted,
                CHANGED => HintOutcome::Changed,
                UNCHANGED => HintOutcome::Unchanged,
                REJECTED => HintOutcome::Rejected,
                _ => unreachable!("the library's header has no outcome {outcome}"),
            },
            added_weight,
            segment: if segment == IN_MAIN { Segment::Main } else { Segment::Probation },
            unfunded: unfunded == 1,
            examined,
        }
    }
}

/// The answer to a verified insert, which is stored wherever it is not refused.
///
/// ```
/// use coordcache::{CoordCache, NodeAddr, TreeCoordinate, VerifiedInsert};
///
/// let a = NodeAddr::from_bytes([1; 16]);
/// let mut cache: CoordCache = CoordCache::new(8, 300_000)?;
/// let answer = cache.insert_verified(a, TreeCoordinate::root(a), 0)?;
/// assert_eq!(answer, VerifiedInsert { weight: 16, examined: 0 });
/// # Ok::<(), coordcache::Refused>(())
/// ```
#[derive(Clone, Copy, Debug, PartialEq, Eq)]
pub struct VerifiedInsert {
    /// What the entry now weighs.
    pub weight: u64,
    /// Keys that eviction took up to make room.
    pub examined: u64,
}

impl VerifiedInsert {
    #[inline]
    pub(crate) fn of([_, weight, _, _, examined]: Values) -> Self {
        Self { weight, examined }
    }
}

/// Numbers about a cache.
///
/// ```
/// use coordcache::{CacheStats, CoordCache, NodeAddr, TreeCoordinate};
///
/// let a = NodeAddr::from_bytes([1; 16]);
/// let mut cache: CoordCache = CoordCache::new(8, 300_000)?;
/// cache.insert_verified(a, TreeCoordinate::root(a), 0)?;
/// assert_eq!(cache.stats(40), CacheStats { entries: 1, max_entries: 8, expired: 0, avg_age_ms: 40 });
/// # Ok::<(), coordcache::Refused>(())
/// ```
#[derive(Clone, Copy, Debug, PartialEq, Eq)]
pub struct CacheStats {
    /// Entries held, expired ones too.
    pub entries: usize,
    /// What main is meant to hold.
    pub max_entries: usize,
    /// Entries that have expired and were not removed yet.
    pub expired: usize,
    /// Mean time since the entries were made, rounded down. The sum is exact, also where it passes 64 bits.
    pub avg_age_ms: u64,
}

impl CacheStats {
    #[inline]
    pub(crate) fn of([entries, max_entries, expired, avg_age_ms, _]: Values) -> Self {
        Self { entries: entries as usize, max_entries: max_entries as usize, expired: expired as usize, avg_age_ms }
    }

    /// Entries for each of `max_entries`, 0 where that is 0. Probation and verified entries can bring it over 1.
    ///
    /// ```
    /// # use coordcache::CacheStats;
    /// assert_eq!(CacheStats { entries: 2, max_entries: 8, expired: 0, avg_age_ms: 0 }.fill_ratio(), 0.25);
    /// ```
    pub fn fill_ratio(&self) -> f64 {
        if self.max_entries == 0 { 0.0 } else { self.entries as f64 / self.max_entries as f64 }
    }
}
