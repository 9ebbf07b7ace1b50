//! The original under the command stream: what 01 has a run answer and leave, by the original's own calls.
use super::decode::{self, Command};
use super::differences;
use super::handed::Handed;
use super::lines::Reply;
use super::proved::{Proved, Side};
use crate::cache::{CoordCache, HintOutcome, Placed, Segment};
use crate::driver::calls::{Addr, Entropy, Entry, Inside, Row, elements};
use crate::identity::NodeAddr;
use crate::numbers::{CHANGED, IN_MAIN, IN_PROBATION, INSERTED, PLACES, REJECTED, UNCHANGED, VALUES, Values, refusal};
use crate::proto::stp::{CoordEntry, TreeCoordinate};
use std::cell::{Cell, RefCell};
use std::panic::{AssertUnwindSafe, catch_unwind};

pub type Cache = CoordCache<Entropy>;

/// The original's cache, the rows of a lent memory that it knows nothing of, and the pending path.
#[derive(Clone)]
pub struct Original {
    pub rows: u64,
    cache: Cache,
    pending: Vec<CoordEntry>,
    /// by the last command; kept only where the proved side has the same, since the benchmark counts the original's time
    handed: Handed,
}

impl Original {
    /// As a done fresh leaves it, but for seq, which only a test can set.
    pub fn new(rows: u64, max: u64, ttl: u64, seq: u64) -> Self {
        let mut cache = Cache::new(max as usize, ttl);
        cache.set_seq(seq);
        Original { rows, cache, pending: Vec::with_capacity(PLACES), handed: Handed::Nothing }
    }

    pub fn cache(&self) -> &Cache {
        &self.cache
    }

    pub fn pending(&self) -> &[CoordEntry] {
        &self.pending
    }

    pub fn handed(&self) -> &Handed {
        &self.handed
    }

    pub fn row(&self, key: &Addr) -> Option<Row> {
        self.cache.row(&NodeAddr::from_bytes(*key))
    }

    /// Makes the command at the front of these bytes, which are the last of their run, and tells how many it has.
    pub fn command(&mut self, bytes: &[u8]) -> (Reply, usize) {
        let code = bytes[0];
        self.handed = Handed::Nothing;
        let Some((command, size)) = decode::command(bytes) else {
            if decode::empties_pending(code) {
                self.pending.clear();
            }
            return (Reply::new(code, Err(refusal::NO_COMMAND)), bytes.len());
        };
        (Reply::new(code, self.act(command)), size)
    }

    /// One run to its end, or up to and with the first 6.
    pub fn run(&mut self, mut bytes: &[u8], out: &mut Vec<u8>) {
        while !bytes.is_empty() {
            let (reply, size) = self.command(bytes);
            reply.write(out);
            if reply.refusal == refusal::NO_COMMAND {
                break;
            }
            bytes = &bytes[size..];
        }
    }

    fn act(&mut self, command: Command) -> Result<Values, u8> {
        let addr = NodeAddr::from_bytes;
        let default_ttl = self.cache.default_ttl_ms();
        match command {
            Command::Fresh { max, ttl } => {
                refused(differences::fresh_refused(self.rows, max))?;
                self.cache = Cache::new(max as usize, ttl);
                Ok([0; VALUES])
            }
            Command::Element(e) => {
                refused(differences::path_refused(self.pending.len() + 1))?;
                self.pending.push(CoordEntry::new(addr(e.addr), e.sequence, e.timestamp));
                Ok(first(self.pending.len() as u64))
            }
            Command::Insert { key, time } => {
                self.hint(|c, path| differences::uncharged(c, addr(key), path, time, default_ttl, |c, k, p| c.insert(k, p, time)))
            }
            Command::InsertWithTtl { key, time, ttl } => self.hint(|c, path| {
                differences::uncharged(c, addr(key), path, time, ttl, |c, k, p| c.insert_with_ttl(k, p, time, ttl))
            }),
            Command::InsertFunded { key, time, funding } => self.hint(|c, path| c.insert_funded(addr(key), path, time, funding)),
            Command::InsertStated { key, time, funding } => self.hint(|c, path| c.insert_stated(addr(key), path, time, funding)),
            Command::InsertVerified { key, time } => {
                self.verify(addr(key), time, |c, path| c.insert_verified(addr(key), path, time))
            }
            Command::InsertVerifiedWithPathMtu { key, time, mtu } => {
                self.verify(addr(key), time, |c, path| c.insert_verified_with_path_mtu(addr(key), path, time, mtu))
            }
            Command::Get { key, time } => Ok(found(self.cache.get(&addr(key), time), &mut self.handed)),
            Command::GetAndTouch { key, time } => Ok(found(self.cache.get_and_touch(&addr(key), time), &mut self.handed)),
            Command::Remove { key } => {
                let removed = self.cache.remove(&addr(key));
                if let Some(removed) = removed.as_ref().filter(|_| Proved::HANDS_BACK) {
                    self.handed = Handed::Entry(Entry::of(removed));
                }
                Ok(first(removed.is_some().into()))
            }
            Command::Demote { key } => {
                refused(differences::stamps_refused(&self.cache))?;
                Ok(first(self.cache.demote(&addr(key)).into()))
            }
            Command::ClearPathMtu { key } => {
                self.cache.clear_path_mtu(&addr(key));
                Ok([0; VALUES])
            }
            Command::PurgeExpired { time } => Ok(first(self.cache.purge_expired(time) as u64)),
            Command::Clear => {
                self.cache.clear();
                Ok([0; VALUES])
            }
            Command::InvalidateViaNode { addr: a } => Ok(first(self.cache.invalidate_via_node(&addr(a)) as u64)),
            Command::InvalidateOtherRoots { addr: a } => Ok(first(self.cache.invalidate_other_roots(&addr(a)) as u64)),
            Command::Stats { time } => Ok(differences::stats(&self.cache, time)),
            Command::NextExpiry => Ok(match differences::next_expiry(&self.cache) {
                Some(time) => [1, time, 0, 0, 0],
                None => [0; VALUES],
            }),
        }
    }

    /// Empties the pending path into a coordinate, refused by 2 or 3.
    fn take_pending(&mut self) -> Result<TreeCoordinate, u8> {
        let path = self.pending.to_vec();
        self.pending.clear();
        refused(differences::path_refused(path.len()))?;
        refused(differences::stamps_refused(&self.cache))?;
        Ok(TreeCoordinate::new(path).expect("a path that is not refused by 2"))
    }

    fn hint(&mut self, write: impl FnOnce(&mut Cache, TreeCoordinate) -> Placed) -> Result<Values, u8> {
        let coords = self.take_pending()?;
        let before = self.cache.eviction_examined();
        let placed = write(&mut self.cache, coords);
        let outcome = match placed.outcome {
            HintOutcome::Inserted => INSERTED,
            HintOutcome::Changed => CHANGED,
            HintOutcome::Unchanged => UNCHANGED,
            HintOutcome::Rejected => REJECTED,
        };
        let segment = match placed.segment {
            Segment::Main => IN_MAIN,
            Segment::Probation => IN_PROBATION,
        };
        let examined = self.cache.eviction_examined() - before;
        Ok([outcome, placed.added_weight, segment, placed.unfunded.into(), examined])
    }

    fn verify(&mut self, key: NodeAddr, time: u64, write: impl FnOnce(&mut Cache, TreeCoordinate)) -> Result<Values, u8> {
        let coords = self.take_pending()?;
        let weight = Cache::weight_of_path(&coords);
        refused(differences::verified_refused(&self.cache, self.rows, &key, weight, time))?;
        let before = self.cache.eviction_examined();
        write(&mut self.cache, coords);
        Ok([0, weight, 0, 0, self.cache.eviction_examined() - before])
    }
}

fn refused(number: Option<u8>) -> Result<(), u8> {
    number.map_or(Ok(()), Err)
}

/// What is answered by one number.
pub fn first(n: u64) -> Values {
    [n, 0, 0, 0, 0]
}

fn found(path: Option<&TreeCoordinate>, handed: &mut Handed) -> Values {
    let Some(path) = path else { return [0; VALUES] };
    if Proved::HANDS_BACK {
        *handed = Handed::Path(elements(path));
    }
    [1, path.entries().len() as u64, 0, 0, 0]
}

thread_local! {
    static CATCHING: Cell<bool> = const { Cell::new(false) };
    static SAID: RefCell<String> = const { RefCell::new(String::new()) };
}

/// Has panics under `caught` kept for it, and others printed as ever. Once, at the start.
pub fn keep_panics() {
    let usual = std::panic::take_hook();
    std::panic::set_hook(Box::new(move |info| {
        if CATCHING.get() {
            SAID.replace(info.to_string());
        } else {
            usual(info);
        }
    }));
}

/// Makes calls on the original where it may stop, at an assertion of its own or of this driver; tells what it then said.
pub fn caught<T>(calls: impl FnOnce() -> T) -> Result<T, String> {
    CATCHING.set(true);
    let made = catch_unwind(AssertUnwindSafe(calls));
    CATCHING.set(false);
    made.map_err(|_| SAID.take())
}
