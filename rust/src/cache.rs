//! The cache.

use std::fmt;
use std::marker::PhantomData;

use crate::answers::{CacheStats, Funding, Placed, VerifiedInsert};
use crate::entry::CacheEntry;
use crate::node_addr::NodeAddr;
use crate::packing::{self, HEAD, MAX_ROWS, ROW};
use crate::path::Path;
use crate::refused::Refused;
use crate::sys::State;

/// A coordinate cache: for each node, the path to the root of its tree.
///
/// Hints come from packets that anyone may have written. They pay for the room that they take, and none displaces an entry that a
/// lookup verified in the last [`VERIFIED_TTL_MS`](crate::VERIFIED_TTL_MS) and that has not expired, but for what the node says of
/// itself ([`insert_stated`](Self::insert_stated)). Where room is needed, the entry that was not used for longest leaves. Expired entries
/// are no longer found, but stand until something removes them.
///
/// Times are milliseconds, from any start; the cache has no clock of its own and takes each call's time as it is. Sums of times
/// stop at `u64::MAX`.
///
/// The memory is one block, a head and a row for each entry that it can hold, which the cache owns. Of the calls on it [`remove`](Self::remove)
/// alone allocates, for the path that it hands back.
///
/// `E` is not used. The original hashes its keys by a random source of that type; here rows stand in the order of their keys, and a
/// field of type `CoordCache<E>` can keep it. In the position of a type it may be left out:
///
/// ```
/// use coordcache::{CoordCache, NodeAddr, TreeCoordinate};
///
/// let branch = NodeAddr::from_bytes([1; 16]);
/// let mut cache: CoordCache = CoordCache::new(8, 300_000)?;
/// cache.insert_verified(branch, TreeCoordinate::root(branch), 5)?;
/// assert!(cache.contains(&branch, 300_005));
/// assert!(!cache.contains(&branch, 300_006));
/// # Ok::<(), coordcache::Refused>(())
/// ```
pub struct CoordCache<E = ()> {
    state: State,
    unused: PhantomData<fn() -> E>,
}

impl<E> CoordCache<E> {
    /// An empty cache, with all the rows that there can be ([`MAX_ROWS`]): about a megabyte.
    ///
    /// Rows beyond `max_entries` and probation are for verified entries: the more there are, the later a verified insert is refused
    /// by 4. `max_entries` may be up to 993; more is refused by 5.
    ///
    /// ```
    /// # use coordcache::{CoordCache, MAX_ROWS, Refused};
    /// let cache: CoordCache = CoordCache::new(8, 300_000)?;
    /// assert!(cache.is_empty());
    /// assert_eq!(CoordCache::<()>::new(MAX_ROWS, 300_000).unwrap_err(), Refused::RowCount);
    /// # Ok::<(), Refused>(())
    /// ```
    pub fn new(max_entries: usize, default_ttl_ms: u64) -> Result<Self, Refused> {
        Self::with_rows(MAX_ROWS, max_entries, default_ttl_ms)
    }

    /// An empty cache of so many rows, for less memory.
    ///
    /// It needs `max_entries` rows and those of probation, `max_entries` divided by
    /// [`PROBATION_SHARE_DIVISOR`](crate::PROBATION_SHARE_DIVISOR) and at least one; with fewer, or over [`MAX_ROWS`], it is refused by 5.
    ///
    /// ```
    /// # use coordcache::{CoordCache, Refused};
    /// let cache: CoordCache = CoordCache::with_rows(24, 23, 300_000)?;
    /// assert!(cache.as_bytes().len() < CoordCache::<()>::new(23, 300_000)?.as_bytes().len());
    /// assert_eq!(CoordCache::<()>::with_rows(24, 24, 300_000).unwrap_err(), Refused::RowCount);
    /// # Ok::<(), Refused>(())
    /// ```
    pub fn with_rows(rows: usize, max_entries: usize, default_ttl_ms: u64) -> Result<Self, Refused> {
        if rows > MAX_ROWS {
            return Err(Refused::RowCount); // what fresh would say, without the memory to ask it
        }
        Ok(Self { state: State::fresh(rows, max_entries as u64, default_ttl_ms)?, unused: PhantomData })
    }

    /// Writes a hint that its writer is not charged for.
    ///
    /// It does not touch an unexpired entry that is verified, and a new key finds no room where the verified entries leave none: it is
    /// then answered [`Rejected`](crate::HintOutcome::Rejected). What a peer must pay for goes by [`insert_funded`](Self::insert_funded).
    ///
    /// This and every other insert refuses a path of over [`MAX_PATH`](crate::MAX_PATH) elements by 2.
    ///
    /// ```
    /// # use coordcache::{CoordCache, HintOutcome, NodeAddr, TreeCoordinate};
    /// # let [a, b] = [1, 2].map(|n| NodeAddr::from_bytes([n; 16]));
    /// # let mut cache: CoordCache = CoordCache::new(8, 300_000)?;
    /// assert_eq!(cache.insert(a, TreeCoordinate::root(a), 0)?.outcome, HintOutcome::Inserted);
    /// assert_eq!(cache.insert(a, TreeCoordinate::root(b), 1)?.outcome, HintOutcome::Changed);
    /// # Ok::<(), coordcache::Refused>(())
    /// ```
    #[inline]
    pub fn insert(&mut self, addr: NodeAddr, coords: impl AsRef<Path>, current_time_ms: u64) -> Result<Placed, Refused> {
        self.state.insert(&addr, coords.as_ref(), current_time_ms).map(Placed::of)
    }

    /// As [`insert`](Self::insert), but the entry expires `ttl_ms` after now, until a write or a touch sets its expiry anew.
    ///
    /// An entry with a short life does not leave sooner than others where room is needed: use alone decides.
    ///
    /// ```
    /// # use coordcache::{CoordCache, HintOutcome, NodeAddr, TreeCoordinate};
    /// # let a = NodeAddr::from_bytes([1; 16]);
    /// # let mut cache: CoordCache = CoordCache::new(8, 300_000)?;
    /// assert_eq!(cache.insert_with_ttl(a, TreeCoordinate::root(a), 5, 10)?.outcome, HintOutcome::Inserted);
    /// assert!(cache.contains(&a, 15) && !cache.contains(&a, 16));
    /// # Ok::<(), coordcache::Refused>(())
    /// ```
    #[inline]
    pub fn insert_with_ttl(
        &mut self,
        addr: NodeAddr,
        coords: impl AsRef<Path>,
        current_time_ms: u64,
        ttl_ms: u64,
    ) -> Result<Placed, Refused> {
        self.state.insert_with_ttl(&addr, coords.as_ref(), current_time_ms, ttl_ms).map(Placed::of)
    }

    /// Writes a hint that its writer pays for: charge it the [`added_weight`](Placed::added_weight) of the answer.
    ///
    /// In main a new key costs its weight, and a held one what its path weighs above its row, which a shallower path does not lower:
    /// so no one can make an honest correction dear by a shallow forgery before it. A new key that is not paid goes to probation, and
    /// is found there all the same; a later write that pays its whole weight brings it to main. In main a path that weighs more and is
    /// not paid is rejected; in probation it is stored.
    ///
    /// ```
    /// # use coordcache::{CoordCache, Funding, NodeAddr, Segment, TreeCoordinate};
    /// # let a = NodeAddr::from_bytes([1; 16]);
    /// # let mut cache: CoordCache = CoordCache::new(8, 300_000)?;
    /// let placed = cache.insert_funded(a, TreeCoordinate::root(a), 0, Funding::Upto(15))?;
    /// assert_eq!((placed.segment, placed.unfunded, placed.added_weight), (Segment::Probation, true, 0));
    /// let placed = cache.insert_funded(a, TreeCoordinate::root(a), 1, Funding::Upto(16))?;
    /// assert_eq!((placed.segment, placed.unfunded, placed.added_weight), (Segment::Main, false, 16));
    /// # Ok::<(), coordcache::Refused>(())
    /// ```
    #[inline]
    pub fn insert_funded(
        &mut self,
        addr: NodeAddr,
        coords: impl AsRef<Path>,
        current_time_ms: u64,
        funding: Funding,
    ) -> Result<Placed, Refused> {
        self.state.insert_funded(&addr, coords.as_ref(), current_time_ms, funding).map(Placed::of)
    }

    /// Writes what a node says of itself, in a message that is known to be its own.
    ///
    /// A path that begins with `addr` replaces even a verified entry, if it differs: the node has moved since the lookup. The entry
    /// is a hint from then on. A path that weighs more than its row in main must be paid as by [`insert_funded`](Self::insert_funded),
    /// and is then stored even where main has no room. A path that begins with another address is no such statement, and is written as
    /// by `insert_funded`.
    ///
    /// ```
    /// # use coordcache::{CoordCache, Funding, HintOutcome, NodeAddr, TreeCoordinate};
    /// # let [a, root] = [1, 2].map(|n| NodeAddr::from_bytes([n; 16]));
    /// # let mut cache: CoordCache = CoordCache::new(8, 300_000)?;
    /// cache.insert_verified(a, TreeCoordinate::root(a), 0)?;
    /// let moved = TreeCoordinate::from_addrs(vec![a, root])?;
    /// assert_eq!(cache.insert_funded(a, &moved, 1, Funding::Uncharged)?.outcome, HintOutcome::Rejected);
    /// assert_eq!(cache.insert_stated(a, &moved, 1, Funding::Uncharged)?.outcome, HintOutcome::Changed);
    /// # Ok::<(), Box<dyn std::error::Error>>(())
    /// ```
    #[inline]
    pub fn insert_stated(
        &mut self,
        addr: NodeAddr,
        coords: impl AsRef<Path>,
        current_time_ms: u64,
        funding: Funding,
    ) -> Result<Placed, Refused> {
        self.state.insert_stated(&addr, coords.as_ref(), current_time_ms, funding).map(Placed::of)
    }

    /// Writes the answer of a lookup whose proof was checked.
    ///
    /// It replaces whatever the key has, which is how a forged entry is put right. For [`VERIFIED_TTL_MS`](crate::VERIFIED_TTL_MS),
    /// while it has not expired, no hint displaces it but the node's own ([`insert_stated`](Self::insert_stated)). If there is no room
    /// it is stored past `max_entries`, while there are rows; a key that is not in main is refused by 4 where all rows but probation's
    /// are taken, and too many of them are verified to make room.
    ///
    /// ```
    /// # use coordcache::{CoordCache, HintOutcome, NodeAddr, TreeCoordinate};
    /// # let [a, b] = [1, 2].map(|n| NodeAddr::from_bytes([n; 16]));
    /// # let mut cache: CoordCache = CoordCache::new(8, 300_000)?;
    /// cache.insert_verified(a, TreeCoordinate::root(a), 0)?;
    /// assert_eq!(cache.insert(a, TreeCoordinate::root(b), 300_000)?.outcome, HintOutcome::Rejected);
    /// # Ok::<(), coordcache::Refused>(())
    /// ```
    #[inline]
    pub fn insert_verified(
        &mut self,
        addr: NodeAddr,
        coords: impl AsRef<Path>,
        current_time_ms: u64,
    ) -> Result<VerifiedInsert, Refused> {
        self.state.insert_verified(&addr, coords.as_ref(), current_time_ms).map(VerifiedInsert::of)
    }

    /// As [`insert_verified`](Self::insert_verified), and keeps the MTU of the path with the entry.
    ///
    /// ```
    /// # use coordcache::{CoordCache, NodeAddr, TreeCoordinate};
    /// # let a = NodeAddr::from_bytes([1; 16]);
    /// # let mut cache: CoordCache = CoordCache::new(8, 300_000)?;
    /// cache.insert_verified_with_path_mtu(a, TreeCoordinate::root(a), 0, 1280)?;
    /// assert_eq!(cache.remove(&a).unwrap().path_mtu(), Some(1280));
    /// # Ok::<(), coordcache::Refused>(())
    /// ```
    #[inline]
    pub fn insert_verified_with_path_mtu(
        &mut self,
        addr: NodeAddr,
        coords: impl AsRef<Path>,
        current_time_ms: u64,
        path_mtu: u16,
    ) -> Result<VerifiedInsert, Refused> {
        self.state.insert_verified_with_path_mtu(&addr, coords.as_ref(), current_time_ms, path_mtu).map(VerifiedInsert::of)
    }

    /// The path of a key that has not expired, where it stands in the memory.
    ///
    /// It changes nothing: a key that is only looked up so counts as unused.
    ///
    /// ```
    /// # use coordcache::{CoordCache, NodeAddr, TreeCoordinate};
    /// # let a = NodeAddr::from_bytes([1; 16]);
    /// # let mut cache: CoordCache = CoordCache::new(8, 300_000)?;
    /// cache.insert_verified(a, TreeCoordinate::root(a), 0)?;
    /// assert_eq!(cache.get(&a, 300_000).unwrap(), &TreeCoordinate::root(a));
    /// assert_eq!(cache.get(&a, 300_001), None);
    /// # Ok::<(), coordcache::Refused>(())
    /// ```
    #[inline]
    pub fn get(&self, addr: &NodeAddr, current_time_ms: u64) -> Option<&Path> {
        self.state.get(addr, current_time_ms)
    }

    /// As [`get`](Self::get), and counts as use: the entry expires `default_ttl_ms` after now, and others leave before it. An
    /// expired entry is removed.
    ///
    /// ```
    /// # use coordcache::{CoordCache, NodeAddr, TreeCoordinate};
    /// # let a = NodeAddr::from_bytes([1; 16]);
    /// # let mut cache: CoordCache = CoordCache::new(8, 300_000)?;
    /// cache.insert_verified(a, TreeCoordinate::root(a), 0)?;
    /// assert!(cache.get_and_touch(&a, 10).is_some());
    /// assert_eq!(cache.next_expiry(), Some(300_010));
    /// # Ok::<(), coordcache::Refused>(())
    /// ```
    #[inline]
    pub fn get_and_touch(&mut self, addr: &NodeAddr, current_time_ms: u64) -> Option<&Path> {
        self.state.get_and_touch(addr, current_time_ms)
    }

    /// Takes a key's entry out, expired or not.
    ///
    /// ```
    /// # use coordcache::{CoordCache, NodeAddr, TreeCoordinate};
    /// # let a = NodeAddr::from_bytes([1; 16]);
    /// # let mut cache: CoordCache = CoordCache::new(8, 300_000)?;
    /// cache.insert_verified(a, TreeCoordinate::root(a), 5)?;
    /// assert_eq!(cache.remove(&a).unwrap().created_at(), 5);
    /// assert_eq!(cache.remove(&a), None);
    /// # Ok::<(), coordcache::Refused>(())
    /// ```
    pub fn remove(&mut self, addr: &NodeAddr) -> Option<CacheEntry> {
        self.state.remove(addr).map(|row| CacheEntry::of(&row))
    }

    /// Makes a key's entry a hint, which other hints may replace, and says whether the key is held. Path and expiry stay.
    ///
    /// ```
    /// # use coordcache::{CoordCache, HintOutcome, NodeAddr, TreeCoordinate};
    /// # let [a, b] = [1, 2].map(|n| NodeAddr::from_bytes([n; 16]));
    /// # let mut cache: CoordCache = CoordCache::new(8, 300_000)?;
    /// cache.insert_verified(a, TreeCoordinate::root(a), 0)?;
    /// assert!(cache.demote(&a)?);
    /// assert_eq!(cache.insert(a, TreeCoordinate::root(b), 1)?.outcome, HintOutcome::Changed);
    /// assert!(!cache.demote(&b)?);
    /// # Ok::<(), coordcache::Refused>(())
    /// ```
    #[inline]
    pub fn demote(&mut self, addr: &NodeAddr) -> Result<bool, Refused> {
        self.state.demote(addr)
    }

    /// Drops the MTU that is kept with a key, if it is held.
    ///
    /// ```
    /// # use coordcache::{CoordCache, NodeAddr, TreeCoordinate};
    /// # let a = NodeAddr::from_bytes([1; 16]);
    /// # let mut cache: CoordCache = CoordCache::new(8, 300_000)?;
    /// cache.insert_verified_with_path_mtu(a, TreeCoordinate::root(a), 0, 1280)?;
    /// cache.clear_path_mtu(&a);
    /// assert_eq!(cache.remove(&a).unwrap().path_mtu(), None);
    /// # Ok::<(), coordcache::Refused>(())
    /// ```
    #[inline]
    pub fn clear_path_mtu(&mut self, addr: &NodeAddr) {
        self.state.clear_path_mtu(addr);
    }

    /// Whether [`get`](Self::get) finds the key.
    ///
    /// ```
    /// # use coordcache::{CoordCache, NodeAddr, TreeCoordinate};
    /// # let a = NodeAddr::from_bytes([1; 16]);
    /// # let mut cache: CoordCache = CoordCache::new(8, 300_000)?;
    /// cache.insert_verified(a, TreeCoordinate::root(a), 0)?;
    /// assert!(cache.contains(&a, 300_000) && !cache.contains(&a, 300_001));
    /// # Ok::<(), coordcache::Refused>(())
    /// ```
    #[inline]
    pub fn contains(&self, addr: &NodeAddr, current_time_ms: u64) -> bool {
        self.get(addr, current_time_ms).is_some()
    }

    /// How many entries are held, expired ones too.
    ///
    /// ```
    /// # use coordcache::{CoordCache, NodeAddr, TreeCoordinate};
    /// # let a = NodeAddr::from_bytes([1; 16]);
    /// # let mut cache: CoordCache = CoordCache::new(8, 300_000)?;
    /// cache.insert_verified(a, TreeCoordinate::root(a), 0)?;
    /// assert_eq!(cache.len(), 1);
    /// # Ok::<(), coordcache::Refused>(())
    /// ```
    #[inline]
    pub fn len(&self) -> usize {
        self.head(packing::ROW_COUNT) as usize
    }

    /// Whether no entry is held.
    ///
    /// ```
    /// # use coordcache::CoordCache;
    /// assert!(CoordCache::<()>::new(8, 300_000)?.is_empty());
    /// # Ok::<(), coordcache::Refused>(())
    /// ```
    #[inline]
    pub fn is_empty(&self) -> bool {
        self.len() == 0
    }

    /// The limit that the cache was made with. It can hold more: see [`new`](Self::new).
    ///
    /// ```
    /// # use coordcache::CoordCache;
    /// assert_eq!(CoordCache::<()>::new(8, 300_000)?.max_entries(), 8);
    /// # Ok::<(), coordcache::Refused>(())
    /// ```
    #[inline]
    pub fn max_entries(&self) -> usize {
        self.head(packing::MAX_ENTRIES) as usize
    }

    /// The life of an entry that the cache was made with.
    ///
    /// ```
    /// # use coordcache::CoordCache;
    /// assert_eq!(CoordCache::<()>::new(8, 300_000)?.default_ttl_ms(), 300_000);
    /// # Ok::<(), coordcache::Refused>(())
    /// ```
    #[inline]
    pub fn default_ttl_ms(&self) -> u64 {
        self.head(packing::DEFAULT_TTL_MS)
    }

    /// Removes the entries that have expired, and says how many.
    ///
    /// ```
    /// # use coordcache::{CoordCache, NodeAddr, TreeCoordinate};
    /// # let a = NodeAddr::from_bytes([1; 16]);
    /// # let mut cache: CoordCache = CoordCache::new(8, 300_000)?;
    /// cache.insert_verified(a, TreeCoordinate::root(a), 0)?;
    /// assert_eq!(cache.purge_expired(300_000), 0);
    /// assert_eq!(cache.purge_expired(300_001), 1);
    /// # Ok::<(), coordcache::Refused>(())
    /// ```
    #[inline]
    pub fn purge_expired(&mut self, current_time_ms: u64) -> usize {
        self.state.purge_expired(current_time_ms) as usize
    }

    /// Removes every entry. The sequence numbers go on from where they were.
    ///
    /// ```
    /// # use coordcache::{CoordCache, NodeAddr, TreeCoordinate};
    /// # let a = NodeAddr::from_bytes([1; 16]);
    /// # let mut cache: CoordCache = CoordCache::new(8, 300_000)?;
    /// cache.insert_verified(a, TreeCoordinate::root(a), 0)?;
    /// cache.clear();
    /// assert!(cache.is_empty());
    /// # Ok::<(), coordcache::Refused>(())
    /// ```
    #[inline]
    pub fn clear(&mut self) {
        self.state.clear();
    }

    /// Removes the entries whose path passes a node, and says how many: for when that node has moved, so that no path through it
    /// holds any more.
    ///
    /// ```
    /// # use coordcache::{CoordCache, NodeAddr, TreeCoordinate};
    /// # let [a, b, moved] = [1, 2, 3].map(|n| NodeAddr::from_bytes([n; 16]));
    /// # let mut cache: CoordCache = CoordCache::new(8, 300_000)?;
    /// cache.insert_verified(a, TreeCoordinate::from_addrs(vec![a, moved, b])?, 0)?;
    /// cache.insert_verified(b, TreeCoordinate::root(b), 0)?;
    /// assert_eq!(cache.invalidate_via_node(&moved), 1);
    /// assert!(cache.contains(&b, 0));
    /// # Ok::<(), Box<dyn std::error::Error>>(())
    /// ```
    #[inline]
    pub fn invalidate_via_node(&mut self, node_addr: &NodeAddr) -> usize {
        self.state.invalidate_via_node(node_addr) as usize
    }

    /// Removes the entries whose path leads to another root, and says how many: for when the gateway's root changes, since nothing
    /// can be routed to a node of another tree.
    ///
    /// ```
    /// # use coordcache::{CoordCache, NodeAddr, TreeCoordinate};
    /// # let [a, old, new] = [1, 2, 3].map(|n| NodeAddr::from_bytes([n; 16]));
    /// # let mut cache: CoordCache = CoordCache::new(8, 300_000)?;
    /// cache.insert_verified(a, TreeCoordinate::from_addrs(vec![a, old])?, 0)?;
    /// assert_eq!(cache.invalidate_other_roots(&old), 0);
    /// assert_eq!(cache.invalidate_other_roots(&new), 1);
    /// # Ok::<(), Box<dyn std::error::Error>>(())
    /// ```
    #[inline]
    pub fn invalidate_other_roots(&mut self, current_root: &NodeAddr) -> usize {
        self.state.invalidate_other_roots(current_root) as usize
    }

    /// How many entries are held and how many have expired, and their mean age.
    ///
    /// ```
    /// # use coordcache::{CoordCache, NodeAddr, TreeCoordinate};
    /// # let [a, b] = [1, 2].map(|n| NodeAddr::from_bytes([n; 16]));
    /// # let mut cache: CoordCache = CoordCache::new(8, 300_000)?;
    /// cache.insert_verified(a, TreeCoordinate::root(a), 0)?;
    /// cache.insert_verified(b, TreeCoordinate::root(b), 11)?;
    /// let stats = cache.stats(300_001);
    /// assert_eq!((stats.entries, stats.expired, stats.avg_age_ms), (2, 1, 299_995));
    /// # Ok::<(), coordcache::Refused>(())
    /// ```
    #[inline]
    pub fn stats(&self, current_time_ms: u64) -> CacheStats {
        CacheStats::of(self.state.stats(current_time_ms))
    }

    /// The smallest [`expires_at`](CacheEntry::expires_at) that is held. That entry is still good in this millisecond:
    /// [`purge_expired`](Self::purge_expired) removes it in the next.
    ///
    /// ```
    /// # use coordcache::{CoordCache, NodeAddr, TreeCoordinate};
    /// # let a = NodeAddr::from_bytes([1; 16]);
    /// # let mut cache: CoordCache = CoordCache::new(8, 300_000)?;
    /// assert_eq!(cache.next_expiry(), None);
    /// cache.insert_verified(a, TreeCoordinate::root(a), 5)?;
    /// assert_eq!(cache.next_expiry(), Some(300_005));
    /// # Ok::<(), coordcache::Refused>(())
    /// ```
    #[inline]
    pub fn next_expiry(&self) -> Option<u64> {
        self.state.next_expiry()
    }

    /// The memory, to look at or to send to whoever asks what a gateway holds; `docs/PACKING.md` says what stands where.
    ///
    /// ```
    /// # use coordcache::CoordCache;
    /// let cache: CoordCache = CoordCache::new(8, 300_000)?;
    /// assert_eq!(cache.as_bytes()[..8], 8u64.to_le_bytes());
    /// # Ok::<(), coordcache::Refused>(())
    /// ```
    #[inline]
    pub fn as_bytes(&self) -> &[u8] {
        self.state.bytes()
    }

    /// Whether the memory is a sound state, which every call keeps it, as is proved. So it is false only where something outside
    /// the program's rules wrote there: failing memory, or unsafe code gone wrong. It looks at every row.
    ///
    /// ```
    /// # use coordcache::CoordCache;
    /// assert!(CoordCache::<()>::new(8, 300_000)?.is_sound());
    /// # Ok::<(), coordcache::Refused>(())
    /// ```
    pub fn is_sound(&self) -> bool {
        self.state.is_sound()
    }

    /// A number of the head.
    #[inline]
    fn head(&self, at: usize) -> u64 {
        packing::number(self.as_bytes(), at)
    }
}

impl<E> Clone for CoordCache<E> {
    fn clone(&self) -> Self {
        Self { state: self.state.clone(), unused: PhantomData }
    }
}

impl<E> fmt::Debug for CoordCache<E> {
    fn fmt(&self, f: &mut fmt::Formatter<'_>) -> fmt::Result {
        f.debug_struct("CoordCache")
            .field("entries", &self.len())
            .field("max_entries", &self.max_entries())
            .field("default_ttl_ms", &self.default_ttl_ms())
            .field("rows", &((self.as_bytes().len() - HEAD) / ROW))
            .finish()
    }
}
