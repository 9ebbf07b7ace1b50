//! The proved cache as a gateway has it: the crate of rust/, by its public calls. Commands are read here and the pending path
//! is kept here, as for the original.
use super::compare::LINE;
use super::decode::{self, Command};
use super::handed::Handed;
use super::lines::Reply;
use super::original::{caught, first};
use super::packed::{self, PENDING};
use super::proved::{Counts, GUARD, Report, Side, Stop};
use super::streams::Stream;
use crate::cache;
use crate::driver::calls::{Elem, Entry};
use crate::numbers::{BYTE, CHANGED, IN_MAIN, IN_PROBATION, INSERTED, PLACES, REJECTED, UNCHANGED, VALUES, Values, refusal};
use coordcache::{
    CacheEntry, CoordCache, CoordEntry, CoordError, CoordSource, Funding, HintOutcome, NodeAddr, Path, Placed, Refused, Segment,
    TreeCoordinate, VerifiedInsert,
};

#[derive(Clone)]
pub struct ByCrate {
    rows: usize,
    cache: CoordCache,
    pending: Vec<CoordEntry>,
    counts: Counts,
    handed: Handed,
}

impl Side for ByCrate {
    const NAME: &'static str = "the crate";
    const OPTION: &'static str = "--crate ";
    const SETS_SEQ: bool = false;
    const HANDS_BACK: bool = true;

    /// The crate owns its memory: nothing is lent to it, and no byte stands behind the last row.
    fn before(rows: u64) -> Vec<u8> {
        vec![0; packed::whole(rows)]
    }

    fn start(stream: &Stream) -> Result<Self, String> {
        let rows = stream.rows as usize;
        let made = caught(|| CoordCache::with_rows(rows, stream.max as usize, stream.ttl)).map_err(stopped)?;
        let cache = made.map_err(|refused| format!("with_rows is {refused}"))?;
        Ok(ByCrate { rows, cache, pending: Vec::new(), counts: Counts::STARTED, handed: Handed::Nothing })
    }

    fn state(&self) -> &[u8] {
        self.cache.as_bytes()
    }

    fn pending(&self) -> [u8; PENDING] {
        let mut bytes = [0; PENDING];
        bytes[0] = self.pending.len() as u8;
        if let Ok(path) = TreeCoordinate::new(self.pending.clone()) {
            bytes[BYTE..].iter_mut().zip(path.as_bytes()).for_each(|(to, from)| *to = *from);
        }
        bytes
    }

    fn counts(&self) -> Counts {
        self.counts
    }

    fn handed(&self) -> &Handed {
        &self.handed
    }

    fn run(&mut self, input: &[u8], last: bool, output: &mut [u8]) -> Result<Report, String> {
        let room = output.len() - GUARD;
        let mut report = Report { used: 0, written: 0, stop: Stop::End };
        while report.stop == Stop::End && report.used < input.len() {
            let bytes = &input[report.used..];
            if !last && decode::cut(bytes) {
                report.stop = Stop::Cut;
            } else if room - report.written < LINE {
                report.stop = Stop::Full;
            } else {
                let (reply, size) = caught(|| self.command(bytes)).map_err(stopped)?;
                let line = reply.line();
                output[report.written..][..line.len()].copy_from_slice(&line);
                report.written += line.len();
                report.used += size;
                self.counts.count(reply.refusal);
                if reply.refusal == refusal::NO_COMMAND {
                    report.stop = Stop::Six;
                }
            }
        }
        Ok(report)
    }
}

impl ByCrate {
    /// Makes the command at the front of these bytes, which are the last of their run, and tells how many it has.
    fn command(&mut self, bytes: &[u8]) -> (Reply, usize) {
        let code = bytes[0];
        self.handed = Handed::Nothing;
        let Some((command, size)) = decode::command(bytes) else {
            if decode::empties_pending(code) {
                self.pending.clear();
            }
            return (Reply::new(code, Err(refusal::NO_COMMAND)), bytes.len());
        };
        (Reply::new(code, self.act(command)), size)
    }

    fn act(&mut self, command: Command) -> Result<Values, u8> {
        let addr = NodeAddr::from_bytes;
        match command {
            Command::Fresh { max, ttl } => {
                // refused by 5 it keeps the cache that is there
                self.cache = CoordCache::with_rows(self.rows, max as usize, ttl).map_err(Refused::number)?;
                Ok([0; VALUES])
            }
            Command::Element(e) => {
                if self.pending.len() == PLACES {
                    return Err(refusal::PATH_LENGTH);
                }
                self.pending.push(CoordEntry::new(addr(e.addr), e.sequence, e.timestamp));
                Ok(first(self.pending.len() as u64))
            }
            Command::Insert { key, time } => self.hint(|c, path| c.insert(addr(key), path, time)),
            Command::InsertWithTtl { key, time, ttl } => self.hint(|c, path| c.insert_with_ttl(addr(key), path, time, ttl)),
            Command::InsertFunded { key, time, funding } => {
                self.hint(|c, path| c.insert_funded(addr(key), path, time, paid(funding)))
            }
            Command::InsertStated { key, time, funding } => {
                self.hint(|c, path| c.insert_stated(addr(key), path, time, paid(funding)))
            }
            Command::InsertVerified { key, time } => self.verify(|c, path| c.insert_verified(addr(key), path, time)),
            Command::InsertVerifiedWithPathMtu { key, time, mtu } => {
                self.verify(|c, path| c.insert_verified_with_path_mtu(addr(key), path, time, mtu))
            }
            Command::Get { key, time } => Ok(found(self.cache.get(&addr(key), time), &mut self.handed)),
            Command::GetAndTouch { key, time } => Ok(found(self.cache.get_and_touch(&addr(key), time), &mut self.handed)),
            Command::Remove { key } => {
                let removed = self.cache.remove(&addr(key));
                self.handed = removed.as_ref().map_or(Handed::Nothing, |removed| Handed::Entry(entry(removed)));
                Ok(first(removed.is_some().into()))
            }
            Command::Demote { key } => Ok(first(self.cache.demote(&addr(key)).map_err(Refused::number)?.into())),
            Command::ClearPathMtu { key } => {
                self.cache.clear_path_mtu(&addr(key));
                Ok([0; VALUES])
            }
            Command::PurgeExpired { time } => Ok(first(self.cache.purge_expired(time) as u64)),
            Command::Clear => {
                self.cache.clear();
                Ok([0; VALUES])
            }
            Command::InvalidateViaNode { addr: a } => Ok(first(self.cache.invalidate_via_node(&addr(a)) as u64)),
            Command::InvalidateOtherRoots { addr: a } => Ok(first(self.cache.invalidate_other_roots(&addr(a)) as u64)),
            Command::Stats { time } => {
                let stats = self.cache.stats(time);
                Ok([stats.entries as u64, stats.max_entries as u64, stats.expired as u64, stats.avg_age_ms, 0])
            }
            Command::NextExpiry => Ok(self.cache.next_expiry().map_or([0; VALUES], |time| [1, time, 0, 0, 0])),
        }
    }

    /// Empties the pending path into a coordinate. None can be made of an empty one, so number 2 is then given here and not by
    /// the crate: behind 1, which none of its calls gives, and before 3, which the call would come to next.
    fn take_pending(&mut self) -> Result<TreeCoordinate, u8> {
        TreeCoordinate::new(std::mem::take(&mut self.pending)).map_err(|CoordError::EmptyCoordinate| refusal::PATH_LENGTH)
    }

    fn hint(&mut self, write: impl FnOnce(&mut CoordCache, TreeCoordinate) -> Result<Placed, Refused>) -> Result<Values, u8> {
        let coords = self.take_pending()?;
        let placed = write(&mut self.cache, coords).map_err(Refused::number)?;
        let outcome = match placed.outcome {
            HintOutcome::Inserted => INSERTED,
            HintOutcome::Changed => CHANGED,
            HintOutcome::Unchanged => UNCHANGED,
            HintOutcome::Rejected => REJECTED,
        };
        let segment = match placed.segment {
            Segment::Main => IN_MAIN,
            Segment::Probation => IN_PROBATION,
        };
        Ok([outcome, placed.added_weight, segment, placed.unfunded.into(), placed.examined])
    }

    fn verify(
        &mut self,
        write: impl FnOnce(&mut CoordCache, TreeCoordinate) -> Result<VerifiedInsert, Refused>,
    ) -> Result<Values, u8> {
        let coords = self.take_pending()?;
        let done = write(&mut self.cache, coords).map_err(Refused::number)?;
        Ok([0, done.weight, 0, 0, done.examined])
    }
}

fn stopped(why: String) -> String {
    format!("the crate stopped: {why}")
}

/// The funding that was read, as the crate has it.
fn paid(funding: cache::Funding) -> Funding {
    match funding {
        cache::Funding::Uncharged => Funding::Uncharged,
        cache::Funding::Upto(amount) => Funding::Upto(amount),
    }
}

fn found(path: Option<&Path>, handed: &mut Handed) -> Values {
    let Some(path) = path else { return [0; VALUES] };
    *handed = Handed::Path(elements(path));
    [1, path.len() as u64, 0, 0, 0]
}

fn elements(path: &Path) -> Vec<Elem> {
    let elem = |e: CoordEntry| Elem { addr: *e.node_addr.as_bytes(), sequence: e.sequence, timestamp: e.timestamp };
    path.entries().map(elem).collect()
}

fn entry(removed: &CacheEntry) -> Entry {
    Entry {
        path: elements(removed.coords()),
        created_at: removed.created_at(),
        last_used: removed.last_used(),
        expires_at: removed.expires_at(),
        path_mtu: removed.path_mtu(),
        verified: removed.source() == CoordSource::Verified,
        verified_until: removed.verified_until(),
    }
}
