//! Random lists of calls. The choices look at what the original holds, so that times fall on
//! expiries, fundings on charges, and keys on held rows.
use super::calls::{Addr, Call, Elem, Held, List, Path, Row, path_weight, probation_bound};
use super::dice::Dice;
use crate::cache::Funding;
use crate::numbers::{ADDRESS, ADDRS_PER_ENTRY, COORDRUN_ROWS, LAST_SEQ, MAX_ROWS, PLACES, VERIFIED_TTL_MS, WEIGHT_LIMIT};

/// Addresses that differ in the first byte, in the last, in one between.
pub fn addresses() -> Vec<Addr> {
    let mut all = vec![[0; ADDRESS], [0x01; ADDRESS], [0xaa; ADDRESS], [0xff; ADDRESS]];
    for first in [0x02, 0x10, 0x1b, 0x2e, 0x37, 0x44, 0x5c, 0x6d, 0x77, 0x80, 0x91, 0xb0, 0xc4, 0xd3, 0xe8, 0xf2] {
        let mut a = [first; ADDRESS];
        a[ADDRESS - 1] = 0x11;
        all.push(a);
    }
    for (at, byte) in [(ADDRESS - 1, 0x01), (7, 0x80), (1, 0xff)] {
        let mut a = [0; ADDRESS];
        a[at] = byte;
        all.push(a);
    }
    let mut a = [0xaa; ADDRESS];
    a[ADDRESS - 1] = 0xab;
    all.push(a);
    all
}

/// The places of get_and_touch and demote among the kinds of calls.
const TOUCH: usize = 7;
const DEMOTE: usize = 9;

/// The longest path of the least weight.
const LIGHT: usize = ADDRS_PER_ENTRY as usize;

const LENGTHS: [usize; 20] = [
    1, 1, 1, 2, 3, 7, LIGHT - 1, LIGHT, LIGHT, LIGHT, LIGHT + 1, LIGHT + 1, LIGHT + 1, LIGHT + 2, LIGHT + 4, LIGHT + 8, PLACES - 1, PLACES,
    PLACES, PLACES,
];

/// What a list draws from.
struct Stock {
    keys: Vec<Addr>,
    paths: Vec<Path>,
    times: Vec<u64>,
    weights: Vec<u64>,
    /// in a hundred
    bad_paths: u64,
}

fn elem(dice: &mut Dice, addr: Addr) -> Elem {
    Elem {
        addr,
        sequence: dice.pick(&[0, 0, 0, 1, 2, u64::MAX]),
        timestamp: dice.pick(&[0, 0, 0, 1, 1_700_000_000, u64::MAX]),
    }
}

/// A path from one of the keys to one of the roots, in runs of one element.
fn path(dice: &mut Dice, keys: &[Addr], elems: &[Elem], roots: &[Elem]) -> Path {
    let length = dice.pick(&LENGTHS);
    let first = dice.pick(keys);
    let mut path = vec![elem(dice, first)];
    while path.len() < length {
        let (next, times) = (dice.pick(elems), 1 + dice.below(9));
        path.extend(vec![next; times.min(length - path.len())]);
    }
    if length > 1 {
        path[length - 1] = dice.pick(roots);
    }
    path
}

/// A path that differs from this one in one field of one element, or by its end.
fn variant(dice: &mut Dice, path: &Path, elems: &[Elem]) -> Path {
    let mut other = path.clone();
    let at = dice.below(other.len());
    match dice.below(5) {
        0 => other[at].sequence ^= 1,
        1 => other[at].timestamp ^= 1,
        2 => other[at].addr[ADDRESS - 1] ^= 1,
        3 if other.len() > 1 => {
            other.pop();
        }
        _ if other.len() < PLACES => other.push(dice.pick(elems)),
        _ => other[at].timestamp ^= 2,
    }
    other
}

impl Stock {
    fn new(dice: &mut Dice, max: u64) -> Self {
        let mut all = addresses();
        let wanted = (max as usize + 2 + dice.below(4)).clamp(3, 8 + dice.below(12));
        let mut keys = Vec::new();
        while keys.len() < wanted {
            keys.push(all.swap_remove(dice.below(all.len())));
        }
        let mut elems: Vec<Elem> = Vec::new();
        for _ in 0..8 {
            let addr = if dice.chance(40) { dice.pick(&keys) } else { dice.pick(&addresses()) };
            elems.push(elem(dice, addr));
        }
        let roots: Vec<Elem> = (0..3).map(|_| dice.pick(&elems)).collect();
        let mut paths: Vec<Path> = Vec::new();
        let wanted = keys.len() + 2 + dice.below(3);
        while paths.len() < wanted {
            let new = if !paths.is_empty() && dice.chance(30) {
                let from = dice.pick(&paths);
                variant(dice, &from, &elems)
            } else {
                path(dice, &keys, &elems, &roots)
            };
            if !paths.contains(&new) {
                paths.push(new);
            }
        }
        let start = dice.pick(&[0, 0, 1, 5, 1000, 400_000, 1_000_000, u64::MAX - 700_000, u64::MAX - 3]);
        // kinds of calls in the order of `call`, each list with its own taste
        let usual = [16, 12, 48, 36, 26, 10, 10, 26, 6, 10, 4, 3, 1, 1, 1, 5, 4, 1];
        let weights = usual.iter().map(|w| w * dice.pick(&[2, 5, 10, 10, 30])).collect();
        Stock { keys, paths, times: vec![start], weights, bad_paths: 1 }
    }

    fn key(&self, dice: &mut Dice, held: &Held) -> Addr {
        if !held.rows.is_empty() && dice.chance(45) {
            held.rows[dice.below(held.rows.len())].key
        } else {
            dice.pick(&self.keys)
        }
    }

    fn path(&self, dice: &mut Dice, key: &Addr, row: Option<&Row>) -> Path {
        if let Some(row) = row {
            if dice.chance(15) {
                return row.entry.path.clone();
            }
        }
        if dice.chance(self.bad_paths) {
            return if dice.chance(50) { Path::new() } else { vec![self.paths[0][0].clone(); PLACES + 1] };
        }
        let own: Vec<Path> = self.paths.iter().filter(|p| p[0].addr == *key).cloned().collect();
        if !own.is_empty() && dice.chance(50) { dice.pick(&own) } else { dice.pick(&self.paths) }
    }

    /// A time that was given before, or a little off it, or at an expiry or the end of a verification.
    fn time(&mut self, dice: &mut Dice, held: &Held) -> u64 {
        let last = *self.times.last().expect("it starts with one");
        let row = (!held.rows.is_empty()).then(|| &held.rows[dice.below(held.rows.len())]);
        let time = match (dice.below(100), row) {
            (0..40, _) => last,
            (40..60, _) => last.saturating_add(1 + dice.below(4) as u64),
            (60..66, _) => last.saturating_sub(1 + dice.below(4) as u64),
            (66..74, _) => dice.pick(&self.times),
            (74..80, Some(row)) => dice.near(row.entry.expires_at),
            (80..90, Some(row)) if row.entry.verified => dice.near(row.entry.verified_until),
            (90..97, Some(row)) => dice.near(row.entry.last_used),
            (97, _) => dice.pick(&[0, u64::MAX, u64::MAX - VERIFIED_TTL_MS]),
            _ => last,
        };
        // a jump far ahead is soon taken back
        if time < u64::MAX / 2 || last > u64::MAX / 2 {
            self.times.push(time);
        }
        time
    }

    fn funding(&self, dice: &mut Dice, path: &Path, row: Option<&Row>) -> Funding {
        let weight = path_weight(path);
        let old = row.map_or(weight, |row| row.weight);
        let near = match dice.below(10) {
            0..2 => return Funding::Uncharged,
            2 if row.is_none() => return Funding::Upto(weight - 1),
            2..6 if weight > old => weight - old,
            2..6 => weight,
            6..9 => weight.max(old),
            _ => dice.pick(&[0, 1, ADDRS_PER_ENTRY - 1, ADDRS_PER_ENTRY, WEIGHT_LIMIT, u64::MAX]),
        };
        Funding::Upto(dice.near(near))
    }

    fn call(&mut self, dice: &mut Dice, held: &Held) -> Call {
        let kind = dice.weighted(&self.weights);
        let mut key = self.key(dice, held);
        let on_probation: Vec<Addr> = held.rows.iter().filter(|row| !row.in_main()).map(|row| row.key).collect();
        if kind == TOUCH && !on_probation.is_empty() && dice.chance(40) {
            key = dice.pick(&on_probation);
        }
        let row = held.rows.iter().find(|row| row.key == key);
        let path = self.path(dice, &key, row);
        let funding = self.funding(dice, &path, row);
        // not every call takes a time: a time that is drawn is given
        let mut time = || self.time(dice, held);
        match kind {
            0 => Call::Insert { key, path, time: time() },
            1 => {
                let time = time();
                Call::InsertWithTtl { key, path, time, ttl: dice.pick(&[0, 1, 2, 10, 1000, 300_000, u64::MAX]) }
            }
            2 => Call::InsertFunded { key, path, time: time(), funding },
            3 => Call::InsertStated { key, path, time: time(), funding },
            4 => Call::InsertVerified { key, path, time: time() },
            5 => {
                let time = time();
                Call::InsertVerifiedWithPathMtu { key, path, time, mtu: dice.pick(&[0, 1, 1280, 1400, 65535]) }
            }
            6 => Call::Get { key, time: time() },
            7 => Call::GetAndTouch { key, time: time() },
            8 => Call::Remove { key },
            9 => Call::Demote { key },
            10 => Call::ClearPathMtu { key },
            11 => Call::PurgeExpired { time: time() },
            12 => Call::Clear,
            13 => Call::InvalidateViaNode { addr: path.get(dice.below(4)).map_or(key, |e| e.addr) },
            14 => Call::InvalidateOtherRoots { addr: path.last().map_or(key, |e| e.addr) },
            15 => Call::Stats { time: time() },
            16 => Call::NextExpiry,
            _ => Call::Fresh { max: dice.near(held.max_entries), ttl: dice.pick(&[10, 300_000]) },
        }
    }
}

/// Limits in the order in which lists take turns at them: the small ones fill up, 64 and more have a probation bound over 1.
const MAXES: [u64; 27] = [2, 1, 3, 0, 4, 64, 1, 2, 8, 5, 1, 3, 96, 2, 32, 6, 0, 4, 1, 500, 2, 12, 3, 31, 990, 1, 63];

/// List `index` of a seed: a fresh cache and so many calls.
pub fn random(seed: u64, index: u64, calls: usize) -> List {
    let mut dice = Dice(seed.wrapping_mul(0x0001_0000_0000_01b3) ^ index.rotate_left(24));
    dice.roll();
    let turn = |every: u64, at: u64| index % every == at;
    let max = MAXES[(index % MAXES.len() as u64) as usize];
    let least = max + probation_bound(max);
    let rows = match dice.below(10) {
        _ if turn(90, 89) => dice.pick(&[0, MAX_ROWS + 1, 4000]),
        0 => COORDRUN_ROWS.max(least),
        1 => MAX_ROWS,
        _ => least + dice.pick(&[0, 0, 0, 0, 1, 1, 2, 3]),
    };
    let ttl = dice.pick(&[0, 3, 10, 50, 1000, 300_000, 300_000, 300_000, 300_000, 400_000, 1_000_000, u64::MAX]);
    let mut stock = Stock::new(&mut dice, max);
    let (mut list, mut machine) = List::new(format!("seed-{seed}-{index}"), rows);
    if turn(11, 3) {
        // refused by 5, if just so: the zeroed memory stays
        list.make(&mut machine, Call::Fresh { max: rows + dice.below(2) as u64, ttl });
    }
    list.make(&mut machine, Call::Fresh { max, ttl });
    if turn(13, 5) {
        // number 3 within the list, also where 2 or 4 could be given
        stock.weights[DEMOTE] *= 4;
        stock.bad_paths = 8;
        list.make(&mut machine, Call::SetSeq { seq: LAST_SEQ - dice.below(1 + calls / 2) as u64 });
    }
    for _ in 0..calls {
        let held = machine.held();
        let call = stock.call(&mut dice, &held);
        list.make(&mut machine, call);
    }
    list
}
