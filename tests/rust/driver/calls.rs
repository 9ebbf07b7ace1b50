//! Calls, their answers, and the original under them: what it answers and what it then holds.
use crate::cache::{CacheEntry, CoordCache, CoordSource, Funding, HintOutcome, Placed, Segment};
use crate::entropy::EntropySource;
use crate::identity::NodeAddr;
pub use crate::numbers::Addr;
use crate::numbers::{ADDRS_PER_ENTRY, LAST_SEQ, MAX_ROWS, PLACES, PROBATION_DIVISOR, WEIGHT_LIMIT, refusal};
use crate::proto::stp::{CoordEntry, TreeCoordinate};
use std::cell::Cell;
use std::panic::{AssertUnwindSafe, catch_unwind};

#[derive(Clone, Debug, PartialEq, Eq, PartialOrd, Ord)]
pub struct Elem {
    pub addr: Addr,
    pub sequence: u64,
    pub timestamp: u64,
}

pub type Path = Vec<Elem>;

#[derive(Clone, Copy, Debug, PartialEq, Eq)]
pub enum Place {
    ByUse,
    Parked,
    Probation,
}

#[derive(Clone, Debug, PartialEq, Eq)]
pub struct Entry {
    pub path: Path,
    pub created_at: u64,
    pub last_used: u64,
    pub expires_at: u64,
    pub path_mtu: Option<u16>,
    pub verified: bool,
    pub verified_until: u64,
}

#[derive(Clone, Debug, PartialEq, Eq)]
pub struct Row {
    pub key: Addr,
    pub entry: Entry,
    pub place: Place,
    pub stamp: (u64, u64),
    pub weight: u64,
}

/// What is held after a call; rows in the order of keys.
#[derive(Clone, Debug, PartialEq, Eq)]
pub struct Held {
    pub max_entries: u64,
    pub default_ttl_ms: u64,
    pub seq: u64,
    pub stored_weight: u64,
    pub rows: Vec<Row>,
}

#[derive(Clone, Debug)]
pub enum Call {
    Fresh { max: u64, ttl: u64 },
    /// Not a call of the cache: sets the head's seq, so that a list reaches number 3.
    SetSeq { seq: u64 },
    Insert { key: Addr, path: Path, time: u64 },
    InsertWithTtl { key: Addr, path: Path, time: u64, ttl: u64 },
    InsertFunded { key: Addr, path: Path, time: u64, funding: Funding },
    InsertStated { key: Addr, path: Path, time: u64, funding: Funding },
    InsertVerified { key: Addr, path: Path, time: u64 },
    InsertVerifiedWithPathMtu { key: Addr, path: Path, time: u64, mtu: u16 },
    Get { key: Addr, time: u64 },
    GetAndTouch { key: Addr, time: u64 },
    Remove { key: Addr },
    Demote { key: Addr },
    ClearPathMtu { key: Addr },
    PurgeExpired { time: u64 },
    Clear,
    InvalidateViaNode { addr: Addr },
    InvalidateOtherRoots { addr: Addr },
    Stats { time: u64 },
    NextExpiry,
}

#[derive(Clone, Debug, PartialEq, Eq)]
pub enum Answer {
    Refused(u64),
    Hinted { placed: Placed, examined: u64 },
    Verified { weight: u64, examined: u64 },
    Looked(Option<Path>),
    Taken(Option<Entry>),
    Held(bool),
    Done,
    Removed(u64),
    /// `exact` is false where the original's total of ages overflows and the mean is ours.
    Counts { entries: u64, max: u64, expired: u64, mean: u64, exact: bool },
    Soonest(Option<u64>),
    /// The original panicked, or an assertion about it failed; the list ends here.
    Stopped,
}

/// The private parts of a cache.
pub trait Inside {
    fn place(
        &mut self,
        addr: NodeAddr,
        coords: TreeCoordinate,
        now: u64,
        ttl: u64,
        funding: Funding,
        stated: bool,
    ) -> Placed;
    fn rows(&self) -> Vec<Row>;
    fn row(&self, addr: &NodeAddr) -> Option<Row>;
    fn in_main(&self, addr: &NodeAddr) -> bool;
    fn main_rows(&self) -> u64;
    fn seq(&self) -> u64;
    fn set_seq(&mut self, seq: u64);
    fn stored_weight(&self) -> u64;
    /// Whether `make_room` makes room once the address's slot is out, tried on a copy.
    fn room_without(&self, addr: &NodeAddr, weight: u64, now: u64) -> bool;
    fn weight_of_path(coords: &TreeCoordinate) -> u64;
}

/// A source that gives each cache another key, the same ones in every run.
#[derive(Clone, Debug)]
pub struct Entropy;

thread_local! {
    static DRAWN: Cell<u64> = const { Cell::new(0) };
}

impl EntropySource for Entropy {
    fn fill(bytes: &mut [u8]) {
        let drawn = DRAWN.with(|d| d.replace(d.get() + 1));
        for (i, b) in bytes.iter_mut().enumerate() {
            *b = (drawn.wrapping_mul(0x9e37_79b9_7f4a_7c15) >> (8 * (i % 8))) as u8;
        }
    }
}

pub fn elements(coords: &TreeCoordinate) -> Path {
    coords
        .entries()
        .iter()
        .map(|e| Elem {
            addr: *e.node_addr.as_bytes(),
            sequence: e.sequence,
            timestamp: e.timestamp,
        })
        .collect()
}

fn coordinate(path: &Path) -> TreeCoordinate {
    let entries = path
        .iter()
        .map(|e| CoordEntry::new(NodeAddr::from_bytes(e.addr), e.sequence, e.timestamp))
        .collect();
    TreeCoordinate::new(entries).expect("a path that is not refused by 2")
}

impl Entry {
    pub fn of(entry: &CacheEntry) -> Self {
        Entry {
            path: elements(entry.coords()),
            created_at: entry.created_at(),
            last_used: entry.last_used(),
            expires_at: entry.expires_at(),
            path_mtu: entry.path_mtu(),
            verified: entry.source() == CoordSource::Verified,
            verified_until: entry.verified_until(),
        }
    }
}

impl Row {
    pub fn in_main(&self) -> bool {
        self.place != Place::Probation
    }
}

pub fn path_weight(path: &Path) -> u64 {
    (path.len() as u64).max(ADDRS_PER_ENTRY)
}

pub fn probation_bound(max: u64) -> u64 {
    (max / PROBATION_DIVISOR).max(1)
}

/// Whether a state cannot have so many rows at this limit.
pub fn bad_size(rows: u64, max: u64) -> bool {
    rows > MAX_ROWS || rows < max + probation_bound(max)
}

/// Whether a path cannot be stored.
pub fn bad_path(length: usize) -> bool {
    length == 0 || length > PLACES
}

type Cache = CoordCache<Entropy>;

/// The original with the rows of the lent memory, which it knows nothing of.
#[derive(Clone)]
pub struct Machine {
    pub rows: u64,
    cache: Cache,
}

impl Machine {
    /// Zeroed memory of so many rows.
    pub fn new(rows: u64) -> Self {
        Machine { rows, cache: Cache::new(0, 0) }
    }

    pub fn held(&self) -> Held {
        Held {
            max_entries: self.cache.max_entries() as u64,
            default_ttl_ms: self.cache.default_ttl_ms(),
            seq: self.cache.seq(),
            stored_weight: self.cache.stored_weight(),
            rows: self.cache.rows(),
        }
    }

    /// Numbers 1 to 3, by the rows and the head alone.
    fn refusal(&self, path: Option<&Path>, stamps: bool) -> Option<u64> {
        if bad_size(self.rows, self.cache.max_entries() as u64) {
            return Some(refusal::NOT_SOUND.into());
        }
        if path.is_some_and(|p| bad_path(p.len())) {
            return Some(refusal::PATH_LENGTH.into());
        }
        (stamps && self.cache.seq() > LAST_SEQ).then_some(refusal::SEQUENCE_USED_UP.into())
    }

    /// 01's closed form: whether room can be made for `weight` once the key's row is out.
    fn room_can_be_made(&self, key: &Addr, weight: u64, now: u64) -> bool {
        let max = self.cache.max_entries() as u64;
        let bound = ADDRS_PER_ENTRY * max;
        let (mut count, mut stored) = (0, 0);
        for row in self.cache.rows() {
            let verified = row.entry.verified && now <= row.entry.verified_until;
            if row.in_main() && verified && row.key != *key {
                count += 1;
                stored += row.weight;
            }
        }
        let can = count < max && stored + weight.min(bound) <= bound;
        let does = self.cache.room_without(&NodeAddr::from_bytes(*key), weight, now);
        assert_eq!(can, does, "01's closed form of room and the original's make_room differ");
        can
    }

    /// Number 4: key not in main, M main rows taken, room can't be made.
    fn no_place(&self, key: &Addr, path: &Path, now: u64) -> bool {
        let rows = self.cache.rows();
        let main = rows.iter().filter(|row| row.in_main()).count() as u64;
        let quota = probation_bound(self.cache.max_entries() as u64);
        let room = self.room_can_be_made(key, path_weight(path), now);
        !rows.iter().any(|row| row.key == *key && row.in_main()) && main >= self.rows - quota && !room
    }

    fn hint(&mut self, key: &Addr, path: &Path, time: u64, write: impl Fn(&mut Cache, NodeAddr, TreeCoordinate) -> Placed) -> Answer {
        if let Some(n) = self.refusal(Some(path), true) {
            return Answer::Refused(n);
        }
        for weight in [path_weight(path), ADDRS_PER_ENTRY, WEIGHT_LIMIT] {
            self.room_can_be_made(key, weight, time);
        }
        let coords = coordinate(path);
        assert_eq!(Cache::weight_of_path(&coords), path_weight(path), "the weight of a path");
        let before = self.cache.eviction_examined();
        let placed = write(&mut self.cache, NodeAddr::from_bytes(*key), coords);
        Answer::Hinted { placed, examined: self.cache.eviction_examined() - before }
    }

    /// `insert` and `insert_with_ttl` return the outcome alone: they run on a copy, and must agree
    /// with `place_hint`, which gives the whole answer.
    fn uncharged(&mut self, key: &Addr, path: &Path, time: u64, ttl: u64, write: impl Fn(&mut Cache, NodeAddr, TreeCoordinate) -> HintOutcome) -> Answer {
        let mut copy = self.clone();
        let answer = self.hint(key, path, time, |cache, addr, coords| {
            cache.place(addr, coords, time, ttl, Funding::Uncharged, false)
        });
        if let Answer::Hinted { placed, .. } = &answer {
            let outcome = write(&mut copy.cache, NodeAddr::from_bytes(*key), coordinate(path));
            assert_eq!(outcome, placed.outcome, "insert and place_hint differ");
            assert_eq!(copy.held(), self.held(), "insert and place_hint differ");
        }
        answer
    }

    fn verify(&mut self, key: &Addr, path: &Path, time: u64, write: impl Fn(&mut Cache, NodeAddr, TreeCoordinate)) -> Answer {
        if let Some(n) = self.refusal(Some(path), true) {
            return Answer::Refused(n);
        }
        if self.no_place(key, path, time) {
            return Answer::Refused(refusal::NO_MAIN_ROW.into());
        }
        let before = self.cache.eviction_examined();
        write(&mut self.cache, NodeAddr::from_bytes(*key), coordinate(path));
        let weight = self.cache.rows().iter().find(|row| row.key == *key).map_or(0, |row| row.weight);
        Answer::Verified { weight, examined: self.cache.eviction_examined() - before }
    }

    /// A call that takes no path.
    fn plain(&mut self, stamps: bool, run: impl FnOnce(&mut Cache) -> Answer) -> Answer {
        match self.refusal(None, stamps) {
            Some(n) => Answer::Refused(n),
            None => run(&mut self.cache),
        }
    }

    pub fn act(&mut self, call: &Call) -> Answer {
        let addr = NodeAddr::from_bytes;
        let ttl_now = self.cache.default_ttl_ms();
        match call {
            Call::Fresh { max, ttl } => {
                if bad_size(self.rows, *max) {
                    return Answer::Refused(refusal::ROW_COUNT.into());
                }
                self.cache = Cache::new(*max as usize, *ttl);
                Answer::Done
            }
            Call::SetSeq { seq } => {
                self.cache.set_seq(*seq);
                Answer::Done
            }
            Call::Insert { key, path, time } => self.uncharged(key, path, *time, ttl_now, |c, k, p| c.insert(k, p, *time)),
            Call::InsertWithTtl { key, path, time, ttl } => {
                self.uncharged(key, path, *time, *ttl, |c, k, p| c.insert_with_ttl(k, p, *time, *ttl))
            }
            Call::InsertFunded { key, path, time, funding } => {
                self.hint(key, path, *time, |c, k, p| c.insert_funded(k, p, *time, *funding))
            }
            Call::InsertStated { key, path, time, funding } => {
                self.hint(key, path, *time, |c, k, p| c.insert_stated(k, p, *time, *funding))
            }
            Call::InsertVerified { key, path, time } => self.verify(key, path, *time, |c, k, p| c.insert_verified(k, p, *time)),
            Call::InsertVerifiedWithPathMtu { key, path, time, mtu } => {
                self.verify(key, path, *time, |c, k, p| c.insert_verified_with_path_mtu(k, p, *time, *mtu))
            }
            Call::Get { key, time } => self.plain(false, |c| Answer::Looked(c.get(&addr(*key), *time).map(elements))),
            Call::GetAndTouch { key, time } => {
                self.plain(false, |c| Answer::Looked(c.get_and_touch(&addr(*key), *time).map(elements)))
            }
            Call::Remove { key } => self.plain(false, |c| Answer::Taken(c.remove(&addr(*key)).map(|e| Entry::of(&e)))),
            Call::Demote { key } => self.plain(true, |c| Answer::Held(c.demote(&addr(*key)))),
            Call::ClearPathMtu { key } => self.plain(false, |c| {
                c.clear_path_mtu(&addr(*key));
                Answer::Done
            }),
            Call::PurgeExpired { time } => self.plain(false, |c| Answer::Removed(c.purge_expired(*time) as u64)),
            Call::Clear => self.plain(false, |c| {
                c.clear();
                Answer::Done
            }),
            Call::InvalidateViaNode { addr: a } => self.plain(false, |c| Answer::Removed(c.invalidate_via_node(&addr(*a)) as u64)),
            Call::InvalidateOtherRoots { addr: a } => {
                self.plain(false, |c| Answer::Removed(c.invalidate_other_roots(&addr(*a)) as u64))
            }
            Call::Stats { time } => self.plain(false, |c| counts(c, *time)),
            Call::NextExpiry => self.plain(false, |c| Answer::Soonest(c.rows().iter().map(|row| row.entry.expires_at).min())),
        }
    }
}

/// The original's statistics; where its total of ages would overflow, ours, exact.
fn counts(cache: &Cache, time: u64) -> Answer {
    let rows = cache.rows();
    let total: u128 = rows.iter().map(|row| u128::from(time.saturating_sub(row.entry.created_at))).sum();
    let mean = if rows.is_empty() { 0 } else { (total / rows.len() as u128) as u64 };
    let expired = rows.iter().filter(|row| time > row.entry.expires_at).count() as u64;
    let exact = u64::try_from(total).is_ok();
    let ours = Answer::Counts {
        entries: rows.len() as u64,
        max: cache.max_entries() as u64,
        expired,
        mean,
        exact,
    };
    if exact {
        let stats = cache.stats(time);
        let theirs = Answer::Counts {
            entries: stats.entries as u64,
            max: stats.max_entries as u64,
            expired: stats.expired as u64,
            mean: stats.avg_age_ms,
            exact,
        };
        assert_eq!(ours, theirs, "the exact mean and the original's differ without an overflow");
    }
    ours
}

/// A call with what the original answered and then held.
pub struct Made {
    pub call: Call,
    pub answer: Answer,
    pub held: Held,
}

/// A list of calls on zeroed memory of so many rows.
pub struct List {
    pub name: String,
    pub rows: u64,
    /// what a file calls its addresses and paths
    pub names: super::text::Names,
    pub made: Vec<Made>,
}

impl List {
    pub fn new(name: String, rows: u64) -> (Self, Machine) {
        (List { name, rows, names: Default::default(), made: Vec::new() }, Machine::new(rows))
    }

    /// The list without some of its calls, made anew.
    pub fn without(&self, left_out: std::ops::Range<usize>) -> List {
        let (mut list, mut machine) = List::new(self.name.clone(), self.rows);
        list.names = self.names.clone();
        for (i, made) in self.made.iter().enumerate() {
            if !left_out.contains(&i) {
                list.make(&mut machine, made.call.clone());
            }
        }
        list
    }

    /// Makes a call. Where the original stops, or contradicts what is asserted of it here, the list
    /// is printed and the run ends as with a difference.
    pub fn make(&mut self, machine: &mut Machine, call: Call) {
        let made = catch_unwind(AssertUnwindSafe(|| (machine.act(&call), machine.held())));
        let Ok((answer, held)) = made else {
            let held = self.made.last().map_or_else(|| Machine::new(self.rows).held(), |made| made.held.clone());
            self.made.push(Made { call, answer: Answer::Stopped, held });
            let last = self.made.len() - 1;
            print!("{}", super::text::print(self, last + 1, |i| i + 1 == last));
            std::process::exit(1)
        };
        self.made.push(Made { call, answer, held });
    }
}

pub fn segment_name(segment: Segment) -> &'static str {
    match segment {
        Segment::Main => "Main",
        Segment::Probation => "Probation",
    }
}

impl Call {
    pub fn path(&self) -> Option<&Path> {
        match self {
            Call::Insert { path, .. }
            | Call::InsertWithTtl { path, .. }
            | Call::InsertFunded { path, .. }
            | Call::InsertStated { path, .. }
            | Call::InsertVerified { path, .. }
            | Call::InsertVerifiedWithPathMtu { path, .. } => Some(path),
            _ => None,
        }
    }

    /// The one address that the call names beside its path.
    pub fn addr(&self) -> Option<&Addr> {
        match self {
            Call::Insert { key, .. }
            | Call::InsertWithTtl { key, .. }
            | Call::InsertFunded { key, .. }
            | Call::InsertStated { key, .. }
            | Call::InsertVerified { key, .. }
            | Call::InsertVerifiedWithPathMtu { key, .. }
            | Call::Get { key, .. }
            | Call::GetAndTouch { key, .. }
            | Call::Remove { key }
            | Call::Demote { key }
            | Call::ClearPathMtu { key } => Some(key),
            Call::InvalidateViaNode { addr } | Call::InvalidateOtherRoots { addr } => Some(addr),
            _ => None,
        }
    }
}
