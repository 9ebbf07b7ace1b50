//! An entry that was removed.

use crate::coord::TreeCoordinate;
use crate::packing::{self, ELEMENT};
use crate::path::Path;
use crate::sys::Row;

/// Where an entry's path came from.
///
/// ```
/// # use coordcache::{CoordCache, CoordSource, NodeAddr, TreeCoordinate};
/// # let a = NodeAddr::from_bytes([1; 16]);
/// # let mut cache: CoordCache = CoordCache::new(8, 300_000)?;
/// cache.insert_verified(a, TreeCoordinate::root(a), 0)?;
/// assert_eq!(cache.remove(&a).unwrap().source(), CoordSource::Verified);
/// # Ok::<(), coordcache::Refused>(())
/// ```
#[derive(Clone, Copy, Debug, PartialEq, Eq)]
pub enum CoordSource {
    /// From a lookup whose proof the gateway checked.
    Verified,
    /// From a packet that anyone may have written.
    Hint,
}

/// An entry as [`CoordCache::remove`](crate::CoordCache::remove) hands it back.
///
/// ```
/// use coordcache::{CoordCache, NodeAddr, TreeCoordinate};
///
/// let a = NodeAddr::from_bytes([1; 16]);
/// let mut cache: CoordCache = CoordCache::new(8, 600_000)?;
/// cache.insert_verified_with_path_mtu(a, TreeCoordinate::root(a), 5, 1280)?;
/// let entry = cache.remove(&a).unwrap();
/// assert_eq!(entry.coords(), &TreeCoordinate::root(a));
/// assert_eq!((entry.created_at(), entry.last_used(), entry.expires_at()), (5, 5, 600_005));
/// assert_eq!((entry.is_expired(600_005), entry.is_expired(600_006)), (false, true));
/// assert_eq!((entry.verified_until(), entry.is_verified(300_005), entry.is_verified(300_006)), (300_005, true, false));
/// assert_eq!(entry.path_mtu(), Some(1280));
/// # Ok::<(), coordcache::Refused>(())
/// ```
#[derive(Clone, Debug, PartialEq, Eq)]
pub struct CacheEntry {
    coords: TreeCoordinate,
    created_at: u64,
    last_used: u64,
    expires_at: u64,
    path_mtu: Option<u16>,
    source: CoordSource,
    verified_until: u64,
}

impl CacheEntry {
    /// The entry of a row's bytes.
    pub(crate) fn of(row: &Row) -> Self {
        let path = &row[packing::PATH_PLACES..][..row[packing::PATH_LENGTH] as usize * ELEMENT];
        let mtu = u16::from_le_bytes(packing::field(row, packing::MTU_VALUE));
        Self {
            coords: Path::of(path).to_coordinate(),
            created_at: packing::number(row, packing::CREATED_AT),
            last_used: packing::number(row, packing::LAST_USED),
            expires_at: packing::number(row, packing::EXPIRES_AT),
            path_mtu: (row[packing::MTU_MARK] == packing::SOME_MTU).then_some(mtu),
            source: if row[packing::SOURCE] == packing::VERIFIED { CoordSource::Verified } else { CoordSource::Hint },
            verified_until: packing::number(row, packing::VERIFIED_UNTIL),
        }
    }

    /// Where the path came from.
    pub fn source(&self) -> CoordSource {
        self.source
    }

    /// Whether the entry, while unexpired, yields to no hint at this time.
    pub fn is_verified(&self, current_time_ms: u64) -> bool {
        self.source == CoordSource::Verified && current_time_ms <= self.verified_until
    }

    /// The last millisecond in which a verified entry, while unexpired, yields to no hint; 0 for a hint.
    pub fn verified_until(&self) -> u64 {
        self.verified_until
    }

    /// The path.
    pub fn coords(&self) -> &TreeCoordinate {
        &self.coords
    }

    /// When the key was first stored, since it was last absent.
    pub fn created_at(&self) -> u64 {
        self.created_at
    }

    /// When it was last written, or looked up by [`get_and_touch`](crate::CoordCache::get_and_touch).
    pub fn last_used(&self) -> u64 {
        self.last_used
    }

    /// The last millisecond in which a lookup finds it.
    pub fn expires_at(&self) -> u64 {
        self.expires_at
    }

    /// The path's MTU, where a verified insert gave one and none cleared it.
    pub fn path_mtu(&self) -> Option<u16> {
        self.path_mtu
    }

    /// Whether a lookup at this time no longer finds it.
    pub fn is_expired(&self, current_time_ms: u64) -> bool {
        current_time_ms > self.expires_at
    }
}
