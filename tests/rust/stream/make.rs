//! Streams made to a taste. The choices look at what the original holds, so that times fall on expiries and the ends of
//! verifications, amounts on charges, and keys on held rows.
use super::decode;
use super::encode;
use super::original::{Original, caught};
use super::profiles::{Keys, Taste};
use super::streams::Stream;
use crate::cache::Funding;
use crate::driver::calls::{Addr, Elem, Path, Row, path_weight, probation_bound};
use crate::driver::dice::Dice;
use crate::driver::lists;
use crate::numbers::{ADDRESS, ADDRS_PER_ENTRY, LAST_SEQ, PLACES, UPTO, VERIFIED_TTL_MS, WEIGHT_LIMIT, code};

struct Maker<'a> {
    taste: &'a Taste,
    dice: Dice,
    original: Original,
    keys: Vec<Addr>,
    elems: Vec<Elem>,
    roots: Vec<Elem>,
    times: Vec<u64>,
    commands: Vec<Vec<u8>>,
    /// the original stopped at the last command: the comparison will say so
    stopped: bool,
}

/// Stream `index` of a taste and a seed, on memory of so many rows where that is asked for. The taste's limits take turns.
pub fn stream(taste: &Taste, seed: u64, index: u64, rows: Option<u64>) -> Stream {
    let (own_rows, own_max) = taste.limits[((seed + index) % taste.limits.len() as u64) as usize];
    let rows = rows.unwrap_or(own_rows);
    let max = (0..=own_max).rev().find(|max| max + probation_bound(*max) <= rows).unwrap_or(0);
    at(taste, seed, index, (rows, max), taste.length)
}

/// The same at these limits, with about so many commands.
pub fn at(taste: &Taste, seed: u64, index: u64, (rows, max): (u64, u64), length: usize) -> Stream {
    let name = taste.name.bytes().fold(0, |n: u64, b| n.wrapping_mul(0x0100_0000_01b3) ^ u64::from(b));
    let mut dice = Dice(seed.wrapping_mul(0x0001_0000_0000_01b3) ^ index.rotate_left(24) ^ name);
    dice.roll();
    let ttl = dice.pick(taste.ttls);
    let seq = if taste.worn { LAST_SEQ - dice.below(20) as u64 } else { 0 };
    let mut maker = Maker::new(taste, dice, Original::new(rows, max, ttl, seq));
    if taste.fill {
        maker.fill(max);
    }
    let end = maker.commands.len() + length;
    while maker.commands.len() < end && !maker.stopped {
        maker.some();
    }
    Stream { name: format!("profile {}, seed {seed}, stream {index}", taste.name), rows, max, ttl, seq, commands: maker.commands }
}

/// An address: one that differs from others in a single byte, or any.
fn address(dice: &mut Dice) -> Addr {
    if dice.chance(50) {
        return dice.pick(&lists::addresses());
    }
    let mut addr = [dice.pick(&[0x00, 0x7f, 0x80, 0xff, 0x3c]); ADDRESS];
    let changed = 1 + dice.below(3);
    for _ in 0..changed {
        let at = dice.below(ADDRESS);
        addr[at] = dice.roll() as u8;
    }
    addr
}

fn elem(dice: &mut Dice, addr: Addr) -> Elem {
    let number = |dice: &mut Dice| dice.pick(&[0, 0, 0, 1, 2, 255, 256, 1_700_000_000, u64::MAX]);
    Elem { addr, sequence: number(dice), timestamp: number(dice) }
}

impl<'a> Maker<'a> {
    fn new(taste: &'a Taste, mut dice: Dice, original: Original) -> Self {
        let max = original.cache().max_entries();
        let held = max + probation_bound(max as u64) as usize;
        let (least, most) = match taste.keys {
            Keys::Count(least, most) => (least, most),
            Keys::Over(least, most) => (held + least, held + most),
        };
        let wanted = least + dice.below(most - least + 1);
        let mut keys: Vec<Addr> = Vec::new();
        while keys.len() < wanted {
            let key = address(&mut dice);
            if !keys.contains(&key) {
                keys.push(key);
            }
        }
        let mut elems = Vec::new();
        for _ in 0..10 {
            let addr = if dice.chance(40) { dice.pick(&keys) } else { address(&mut dice) };
            elems.push(elem(&mut dice, addr));
        }
        let roots = (0..3).map(|_| dice.pick(&elems)).collect();
        let times = vec![dice.pick(taste.starts)];
        Maker { taste, dice, original, keys, elems, roots, times, commands: Vec::new(), stopped: false }
    }

    fn put(&mut self, command: Vec<u8>) {
        if self.stopped {
            return;
        }
        let original = &mut self.original;
        self.stopped = caught(|| original.command(&command)).is_err();
        self.commands.push(command);
    }

    fn put_path(&mut self, path: &Path) {
        for e in path {
            self.put(encode::element(e));
            // the pending path outlives all but the inserts
            if self.dice.chance(1) {
                self.call_without_path();
            }
        }
    }

    /// A full main and a full probation, by paths of one element.
    fn fill(&mut self, max: u64) {
        let held = max + probation_bound(max);
        for i in 0..self.keys.len().min(held as usize) {
            let key = self.keys[i];
            let e = elem(&mut self.dice, key);
            let time = self.later();
            self.put(encode::element(&e));
            let main = (i as u64) < max;
            let verified = main && self.dice.chance(20);
            self.put(if verified {
                encode::keyed_at(code::INSERT_VERIFIED, &key, time)
            } else {
                encode::paid(code::INSERT_FUNDED, &key, time, UPTO, if main { ADDRS_PER_ENTRY } else { ADDRS_PER_ENTRY - 1 })
            });
        }
    }

    /// A command with what must stand before it.
    fn some(&mut self) {
        if self.dice.chance(self.taste.damage) {
            return self.damaged();
        }
        if self.dice.chance(self.taste.disorder) {
            return self.disordered();
        }
        let kind = self.dice.weighted(&self.taste.kinds);
        let key = self.key();
        if kind < 6 {
            let row = self.original.row(&key);
            let path = self.path(&key, row.as_ref());
            self.put_path(&path);
            let insert = self.insert(kind, &key, &path, row.as_ref());
            self.put(insert);
        } else {
            let command = self.plain(kind, &key);
            self.put(command);
        }
    }

    fn insert(&mut self, kind: usize, key: &Addr, path: &Path, row: Option<&Row>) -> Vec<u8> {
        let time = self.time(row);
        let unread = self.dice.pick(&[0, 0, ADDRS_PER_ENTRY, u64::MAX]);
        let funding = self.funding(path, row);
        match kind {
            0 => encode::keyed_at(code::INSERT, key, time),
            1 => {
                let row_ttl = self.original.cache().default_ttl_ms();
                encode::insert_with_ttl(key, time, self.dice.pick(&[0, 1, 2, 10, 1000, 300_000, row_ttl, u64::MAX]))
            }
            2 => encode::funded(code::INSERT_FUNDED, key, time, funding, unread),
            3 => encode::funded(code::INSERT_STATED, key, time, funding, unread),
            4 => encode::keyed_at(code::INSERT_VERIFIED, key, time),
            _ => encode::insert_verified_with_path_mtu(key, time, self.dice.pick(&[0, 1, 255, 256, 1280, 1400, 65535])),
        }
    }

    /// A command that takes no path, of a kind from 6.
    fn plain(&mut self, kind: usize, key: &Addr) -> Vec<u8> {
        let row = self.original.row(key);
        match kind {
            6 => encode::keyed_at(code::GET, key, self.time(row.as_ref())),
            7 => encode::keyed_at(code::GET_AND_TOUCH, key, self.time(row.as_ref())),
            8 => encode::addressed(code::REMOVE, key),
            9 => encode::addressed(code::DEMOTE, key),
            10 => encode::addressed(code::CLEAR_PATH_MTU, key),
            11 => encode::at(code::PURGE_EXPIRED, self.time(row.as_ref())),
            12 => encode::bare(code::CLEAR),
            13 => encode::addressed(code::INVALIDATE_VIA_NODE, &self.named(row.as_ref(), |path, dice| dice.below(path.len()))),
            14 => encode::addressed(code::INVALIDATE_OTHER_ROOTS, &self.named(row.as_ref(), |path, _| path.len() - 1)),
            15 => encode::at(code::STATS, self.time(row.as_ref())),
            16 => encode::bare(code::NEXT_EXPIRY),
            _ => {
                // at the bound of the rows, or the limits that are there
                let rows = self.original.rows;
                let own = self.original.cache().max_entries() as u64;
                let max = self.dice.pick(&[own, own, rows - 1, rows, rows + 1, 0, 65535]);
                encode::fresh(max, self.dice.pick(self.taste.ttls))
            }
        }
    }

    fn call_without_path(&mut self) {
        let kind = 6 + self.dice.weighted(&self.taste.kinds[6..]);
        let key = self.key();
        let command = self.plain(kind, &key);
        self.put(command);
    }

    /// An address of the row's path, or of no path at all.
    fn named(&mut self, row: Option<&Row>, at: impl FnOnce(&Path, &mut Dice) -> usize) -> Addr {
        match row {
            Some(row) if self.dice.chance(70) => {
                let at = at(&row.entry.path, &mut self.dice);
                row.entry.path[at].addr
            }
            _ if self.dice.chance(50) => self.dice.pick(&self.roots).addr,
            _ => address(&mut self.dice),
        }
    }

    fn key(&mut self) -> Addr {
        let key = self.dice.pick(&self.keys);
        // a second throw for a held one
        if self.original.row(&key).is_none() && self.dice.chance(30) { self.dice.pick(&self.keys) } else { key }
    }

    /// The row's own path, one that is like it but for one field or its end, or another.
    fn path(&mut self, key: &Addr, row: Option<&Row>) -> Path {
        match (row, self.dice.below(100)) {
            (Some(row), 0..18) => row.entry.path.clone(),
            (Some(row), 18..36) => self.variant(&row.entry.path),
            _ => {
                let length = self.dice.pick(self.taste.lengths);
                let first = if self.dice.chance(70) { *key } else { self.dice.pick(&self.keys) };
                let mut path = vec![elem(&mut self.dice, first)];
                while path.len() < length {
                    path.push(self.dice.pick(&self.elems));
                }
                if length > 1 {
                    path[length - 1] = self.dice.pick(&self.roots);
                }
                path
            }
        }
    }

    fn variant(&mut self, path: &Path) -> Path {
        let mut other = path.clone();
        let at = self.dice.below(other.len());
        let bit = 1 << self.dice.below(8);
        match self.dice.below(5) {
            0 => other[at].sequence ^= bit << (8 * self.dice.below(8)),
            1 => other[at].timestamp ^= bit << (8 * self.dice.below(8)),
            2 => other[at].addr[self.dice.below(ADDRESS)] ^= bit as u8,
            3 if other.len() > 1 => {
                other.pop();
            }
            _ if other.len() < PLACES => other.push(self.dice.pick(&self.elems)),
            _ => other[at].timestamp ^= 2,
        }
        other
    }

    /// The last time given, or a little later.
    fn later(&mut self) -> u64 {
        let last = *self.times.last().expect("it starts with one");
        let time = last.saturating_add(self.dice.below(2) as u64);
        self.times.push(time);
        time
    }

    fn time(&mut self, row: Option<&Row>) -> u64 {
        let last = *self.times.last().expect("it starts with one");
        let t = &self.taste.times;
        let dice = &mut self.dice;
        let time = match (dice.weighted(&[t.same, t.ahead, t.back, t.again, t.expiry, t.until, t.used, t.leap, t.far]), row) {
            (1, _) => last.saturating_add(1 + dice.below(4) as u64),
            (2, _) => last.saturating_sub(1 + dice.below(4) as u64),
            (3, _) => dice.pick(&self.times),
            (4, Some(row)) => dice.near(row.entry.expires_at),
            (5, Some(row)) if row.entry.verified => dice.near(row.entry.verified_until),
            (6, Some(row)) => dice.near(row.entry.last_used),
            (7, _) => {
                last.saturating_add(dice.pick(&[VERIFIED_TTL_MS / 3, VERIFIED_TTL_MS - 1, VERIFIED_TTL_MS, VERIFIED_TTL_MS + 1]))
            }
            (8, _) => dice.pick(&[0, 1, u64::MAX, u64::MAX - 1]),
            _ => last,
        };
        // a jump to the last times is taken back, or nothing would lie ahead
        if time < u64::MAX / 2 || last > u64::MAX / 2 {
            self.times.push(time);
        }
        time
    }

    /// Amounts around the charge, and around the least and the most that a path weighs.
    fn funding(&mut self, path: &Path, row: Option<&Row>) -> Funding {
        let weight = path_weight(path);
        let old = row.map_or(0, |row| row.weight);
        let (light, heavy) = (ADDRS_PER_ENTRY, WEIGHT_LIMIT);
        let dice = &mut self.dice;
        Funding::Upto(match dice.below(12) {
            0..2 => return Funding::Uncharged,
            2..5 => dice.near(weight.saturating_sub(old)),
            5..7 => dice.near(weight),
            7..9 => dice.near(weight.max(old)),
            9..11 => light - 1 + dice.below((heavy - light + 3) as usize) as u64,
            _ => dice.pick(&[0, 1, light - 1, light, light + 1, heavy - 1, heavy, heavy + 1, 256, u64::MAX]),
        })
    }

    /// What is refused by 2, or leaves the pending path longer than one thinks.
    fn disordered(&mut self) {
        let key = self.key();
        match self.dice.below(4) {
            0 => {
                let insert = self.insert_of_any_kind(&key);
                self.put(insert);
            }
            1 => {
                let left_over = 1 + self.dice.below(2);
                for _ in 0..left_over {
                    let e = self.dice.pick(&self.elems);
                    self.put(encode::element(&e));
                }
            }
            2 => {
                let length = PLACES - 1 + self.dice.below(4);
                for _ in 0..length {
                    let e = self.dice.pick(&self.elems);
                    self.put(encode::element(&e));
                }
                if self.dice.chance(80) {
                    let insert = self.insert_of_any_kind(&key);
                    self.put(insert);
                }
            }
            _ => self.call_without_path(),
        }
    }

    fn insert_of_any_kind(&mut self, key: &Addr) -> Vec<u8> {
        let row = self.original.row(key);
        let kind = self.dice.below(6);
        self.insert(kind, key, &vec![], row.as_ref())
    }

    /// What is refused by 6, or a command whose operands are any bytes.
    fn damaged(&mut self) {
        let key = self.key();
        let mut whole = if self.dice.chance(50) {
            self.insert_of_any_kind(&key)
        } else {
            let kind = 6 + self.dice.below(12);
            self.plain(kind, &key)
        };
        let time = self.time(None);
        match self.dice.below(6) {
            0 => loop {
                let code = self.dice.roll() as u8;
                if decode::size(code).is_none() {
                    return self.put(vec![code]);
                }
            },
            1 => {
                if self.dice.chance(30) {
                    whole = encode::element(&self.elems[0]);
                }
                whole.truncate(1 + self.dice.below(whole.len()));
                self.put(whole);
            }
            2 => {
                let kind = self.dice.pick(&[2, 2, 3, 127, 128, 255]);
                let code = self.dice.pick(&[code::INSERT_FUNDED, code::INSERT_STATED]);
                self.put(encode::paid(code, &key, time, kind, ADDRS_PER_ENTRY));
            }
            3 => {
                let turned = 1 + self.dice.below(3);
                for _ in 0..turned {
                    let at = self.dice.below(whole.len());
                    whole[at] ^= 1 << self.dice.below(8);
                }
                decode::split(&whole).into_iter().for_each(|command| self.put(command));
            }
            4 => {
                whole[1..].iter_mut().for_each(|b| *b = self.dice.roll() as u8);
                self.put(whole);
            }
            _ => {
                let any: Vec<u8> = (0..1 + self.dice.below(40)).map(|_| self.dice.roll() as u8 & 0x35).collect();
                decode::split(&any).into_iter().for_each(|command| self.put(command));
            }
        }
    }
}
