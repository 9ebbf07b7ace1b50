//! Lists of calls as text, one call a line: read for `--show` and `--try`, and printed.
//!
//!     rows 9                       the rows of the lent memory, R (24 if not said)
//!     key A 01                     a name for an address; hex, zero bytes follow
//!     path p A,B:1:2,C*14          a name for a path; ADDRESS[:SEQUENCE[:TIMESTAMP]][*TIMES], or - for none
//!     fresh 8 300000               max_entries, default_ttl_ms
//!     seq 7                        sets the head's seq; not a call
//!     insert A p 5                 key, path, time
//!     insert_with_ttl A p 5 10
//!     insert_funded A p 5 upto 16
//!     insert_stated A p 5 uncharged
//!     insert_verified A p 5
//!     insert_verified_with_path_mtu A p 5 1400
//!     get A 5
//!     get_and_touch A 5
//!     remove A
//!     demote A
//!     clear_path_mtu A
//!     purge_expired 5
//!     clear
//!     invalidate_via_node A
//!     invalidate_other_roots A
//!     stats 5
//!     next_expiry
//!
//! A line `list NAME` begins another list; `#` begins a comment.
use super::calls::{Addr, Answer, Call, Elem, Entry, Held, List, Machine, Path, Place, Row, segment_name};
use crate::cache::{Funding, HintOutcome};
use crate::numbers::{ADDRESS, COORDRUN_ROWS};
use std::fmt::Write;

// ---- reading

/// Names of addresses and paths.
#[derive(Clone, Default)]
pub struct Names {
    keys: Vec<(String, Addr)>,
    paths: Vec<(String, Path)>,
}

struct Words<'a> {
    rest: std::str::SplitWhitespace<'a>,
    names: &'a Names,
}

impl Words<'_> {
    fn word(&mut self, what: &str) -> Result<&str, String> {
        self.rest.next().ok_or_else(|| format!("{what} is missing"))
    }

    fn number(&mut self, what: &str) -> Result<u64, String> {
        number(self.word(what)?, what)
    }

    fn addr(&mut self) -> Result<Addr, String> {
        let names = self.names;
        names.addr(self.word("an address")?)
    }

    fn path(&mut self) -> Result<Path, String> {
        let names = self.names;
        names.path(self.word("a path")?)
    }

    fn funding(&mut self) -> Result<Funding, String> {
        match self.word("a funding")? {
            "uncharged" => Ok(Funding::Uncharged),
            "upto" => Ok(Funding::Upto(self.number("an amount")?)),
            other => Err(format!("{other} is no funding: say upto N, or uncharged")),
        }
    }
}

fn number(word: &str, what: &str) -> Result<u64, String> {
    word.parse().map_err(|_| format!("{word} is not {what}"))
}

impl Names {
    fn addr(&self, word: &str) -> Result<Addr, String> {
        if let Some((_, addr)) = self.keys.iter().rev().find(|(name, _)| name == word) {
            return Ok(*addr);
        }
        let wrong = || format!("{word} is neither a name nor the hex digits of an address");
        if word.len() % 2 != 0 || word.len() > 2 * ADDRESS || !word.is_ascii() {
            return Err(wrong());
        }
        let mut addr = [0; ADDRESS];
        for (i, byte) in addr.iter_mut().enumerate().take(word.len() / 2) {
            *byte = u8::from_str_radix(&word[2 * i..2 * i + 2], 16).map_err(|_| wrong())?;
        }
        Ok(addr)
    }

    fn path(&self, word: &str) -> Result<Path, String> {
        if let Some((_, path)) = self.paths.iter().rev().find(|(name, _)| name == word) {
            return Ok(path.clone());
        }
        let mut path = Path::new();
        if word == "-" {
            return Ok(path);
        }
        for part in word.split(',') {
            let (part, times) = part.split_once('*').unwrap_or((part, "1"));
            let mut fields = part.split(':');
            let elem = Elem {
                addr: self.addr(fields.next().unwrap_or(""))?,
                sequence: number(fields.next().unwrap_or("0"), "a sequence")?,
                timestamp: number(fields.next().unwrap_or("0"), "a timestamp")?,
            };
            for _ in 0..number(times, "a number of times")? {
                path.push(elem.clone());
            }
        }
        Ok(path)
    }
}

fn call_of(verb: &str, mut w: Words) -> Result<Call, String> {
    let call = match verb {
        "fresh" => Call::Fresh { max: w.number("max_entries")?, ttl: w.number("a ttl")? },
        "seq" => Call::SetSeq { seq: w.number("a seq")? },
        "insert" => Call::Insert { key: w.addr()?, path: w.path()?, time: w.number("a time")? },
        "insert_with_ttl" => {
            Call::InsertWithTtl { key: w.addr()?, path: w.path()?, time: w.number("a time")?, ttl: w.number("a ttl")? }
        }
        "insert_funded" => {
            Call::InsertFunded { key: w.addr()?, path: w.path()?, time: w.number("a time")?, funding: w.funding()? }
        }
        "insert_stated" => {
            Call::InsertStated { key: w.addr()?, path: w.path()?, time: w.number("a time")?, funding: w.funding()? }
        }
        "insert_verified" => Call::InsertVerified { key: w.addr()?, path: w.path()?, time: w.number("a time")? },
        "insert_verified_with_path_mtu" => Call::InsertVerifiedWithPathMtu {
            key: w.addr()?,
            path: w.path()?,
            time: w.number("a time")?,
            mtu: u16::try_from(w.number("an MTU")?).map_err(|_| "an MTU has 16 bits")?,
        },
        "get" => Call::Get { key: w.addr()?, time: w.number("a time")? },
        "get_and_touch" => Call::GetAndTouch { key: w.addr()?, time: w.number("a time")? },
        "remove" => Call::Remove { key: w.addr()? },
        "demote" => Call::Demote { key: w.addr()? },
        "clear_path_mtu" => Call::ClearPathMtu { key: w.addr()? },
        "purge_expired" => Call::PurgeExpired { time: w.number("a time")? },
        "clear" => Call::Clear,
        "invalidate_via_node" => Call::InvalidateViaNode { addr: w.addr()? },
        "invalidate_other_roots" => Call::InvalidateOtherRoots { addr: w.addr()? },
        "stats" => Call::Stats { time: w.number("a time")? },
        "next_expiry" => Call::NextExpiry,
        _ => return Err(format!("{verb} is no call")),
    };
    match w.rest.next() {
        Some(extra) => Err(format!("{extra} is one word too many")),
        None => Ok(call),
    }
}

#[derive(Default)]
struct Reader {
    names: Names,
    lists: Vec<(List, Machine)>,
}

impl Reader {
    fn line(&mut self, line: &str) -> Result<(), String> {
        let mut rest = line.split('#').next().unwrap_or("").split_whitespace();
        let Some(verb) = rest.next() else { return Ok(()) };
        let mut w = Words { rest, names: &self.names };
        match verb {
            "list" => {
                let name = w.word("a name")?.to_string();
                self.lists.push(List::new(name, COORDRUN_ROWS));
            }
            "rows" => {
                let rows = w.number("a number of rows")?;
                match self.lists.last_mut() {
                    Some((list, machine)) if list.made.is_empty() => {
                        list.rows = rows;
                        *machine = Machine::new(rows);
                    }
                    Some(_) => return Err("rows stands before the list's first call".to_string()),
                    None => self.lists.push(List::new("file".to_string(), rows)),
                }
            }
            "key" => {
                let name = w.word("a name")?.to_string();
                let addr = w.addr()?;
                self.names.keys.push((name, addr));
            }
            "path" => {
                let name = w.word("a name")?.to_string();
                let path = w.path()?;
                self.names.paths.push((name, path));
            }
            _ => {
                let call = call_of(verb, w)?;
                if self.lists.is_empty() {
                    self.lists.push(List::new("file".to_string(), COORDRUN_ROWS));
                }
                let (list, machine) = self.lists.last_mut().expect("just made");
                list.make(machine, call);
            }
        }
        Ok(())
    }
}

/// The lists of a file, made on the original.
pub fn read(text: &str) -> Result<Vec<List>, String> {
    let mut reader = Reader::default();
    for (at, line) in text.lines().enumerate() {
        reader.line(line).map_err(|why| format!("line {}: {why}", at + 1))?;
    }
    let named = |(mut list, _): (List, Machine)| {
        list.names = reader.names.clone();
        list
    };
    Ok(reader.lists.into_iter().map(named).collect())
}

// ---- printing

fn hex(addr: &Addr) -> String {
    let used = addr.iter().rposition(|b| *b != 0).map_or(1, |i| i + 1);
    addr[..used].iter().map(|b| format!("{b:02x}")).collect()
}

impl Names {
    /// Names for all that the calls up to a step name: the list's own, or A, B, .. in the order of addresses, p0, p1, ..
    fn of(list: &List, upto: usize) -> Self {
        let mut used: Vec<Addr> = Vec::new();
        let mut paths: Vec<&Path> = Vec::new();
        for made in list.made.iter().take(upto) {
            used.extend(made.call.addr());
            if let Some(path) = made.call.path() {
                used.extend(path.iter().map(|e| e.addr));
                if !paths.contains(&path) {
                    paths.push(path);
                }
            }
        }
        used.sort();
        used.dedup();
        let given = |name: &String| list.names.keys.iter().any(|(n, _)| n == name);
        let mut fresh = (0..).flat_map(|round: u32| {
            (b'A'..=b'Z').map(move |c| if round == 0 { char::from(c).to_string() } else { format!("{}{round}", char::from(c)) })
        });
        let mut names = Names::default();
        for addr in used {
            let own = list.names.keys.iter().rev().find(|(_, a)| *a == addr).map(|(name, _)| name.clone());
            let name = own.unwrap_or_else(|| fresh.by_ref().find(|name| !given(name)).expect("there is always another"));
            names.keys.push((name, addr));
        }
        for path in paths {
            let own = list.names.paths.iter().rev().find(|(_, p)| p == path).map(|(name, _)| name.clone());
            let mut fresh = (0..).map(|i| format!("p{i}"));
            let taken = |name: &String| names.paths.iter().chain(&list.names.paths).any(|(n, _)| n == name);
            let name = own.unwrap_or_else(|| fresh.find(|name| !taken(name)).expect("there is always another"));
            names.paths.push((name, path.clone()));
        }
        names
    }

    fn a(&self, addr: &Addr) -> String {
        self.keys.iter().find(|(_, a)| a == addr).map_or_else(|| hex(addr), |(name, _)| name.clone())
    }

    fn elements(&self, path: &Path) -> String {
        if path.is_empty() {
            return "-".to_string();
        }
        let mut parts: Vec<String> = Vec::new();
        for same in path.chunk_by(|a, b| a == b) {
            let e = &same[0];
            let mut part = self.a(&e.addr);
            if (e.sequence, e.timestamp) != (0, 0) {
                write!(part, ":{}:{}", e.sequence, e.timestamp).unwrap();
            }
            if same.len() > 1 {
                write!(part, "*{}", same.len()).unwrap();
            }
            parts.push(part);
        }
        parts.join(",")
    }

    fn p(&self, path: &Path) -> String {
        self.paths.iter().find(|(_, p)| p == path).map_or_else(|| self.elements(path), |(name, _)| name.clone())
    }

    fn call(&self, call: &Call) -> String {
        let f = |funding: &Funding| match funding {
            Funding::Uncharged => "uncharged".to_string(),
            Funding::Upto(n) => format!("upto {n}"),
        };
        match call {
            Call::Fresh { max, ttl } => format!("fresh {max} {ttl}"),
            Call::SetSeq { seq } => format!("seq {seq}"),
            Call::Insert { key, path, time } => format!("insert {} {} {time}", self.a(key), self.p(path)),
            Call::InsertWithTtl { key, path, time, ttl } => {
                format!("insert_with_ttl {} {} {time} {ttl}", self.a(key), self.p(path))
            }
            Call::InsertFunded { key, path, time, funding } => {
                format!("insert_funded {} {} {time} {}", self.a(key), self.p(path), f(funding))
            }
            Call::InsertStated { key, path, time, funding } => {
                format!("insert_stated {} {} {time} {}", self.a(key), self.p(path), f(funding))
            }
            Call::InsertVerified { key, path, time } => format!("insert_verified {} {} {time}", self.a(key), self.p(path)),
            Call::InsertVerifiedWithPathMtu { key, path, time, mtu } => {
                format!("insert_verified_with_path_mtu {} {} {time} {mtu}", self.a(key), self.p(path))
            }
            Call::Get { key, time } => format!("get {} {time}", self.a(key)),
            Call::GetAndTouch { key, time } => format!("get_and_touch {} {time}", self.a(key)),
            Call::Remove { key } => format!("remove {}", self.a(key)),
            Call::Demote { key } => format!("demote {}", self.a(key)),
            Call::ClearPathMtu { key } => format!("clear_path_mtu {}", self.a(key)),
            Call::PurgeExpired { time } => format!("purge_expired {time}"),
            Call::Clear => "clear".to_string(),
            Call::InvalidateViaNode { addr } => format!("invalidate_via_node {}", self.a(addr)),
            Call::InvalidateOtherRoots { addr } => format!("invalidate_other_roots {}", self.a(addr)),
            Call::Stats { time } => format!("stats {time}"),
            Call::NextExpiry => "next_expiry".to_string(),
        }
    }

    fn entry(&self, entry: &Entry) -> String {
        format!(
            "path {} length {} created_at {} last_used {} expires_at {} path_mtu {} {} verified_until {}",
            self.p(&entry.path),
            entry.path.len(),
            entry.created_at,
            entry.last_used,
            entry.expires_at,
            entry.path_mtu.map_or("none".to_string(), |m| m.to_string()),
            if entry.verified { "Verified" } else { "Hint" },
            entry.verified_until
        )
    }

    fn row(&self, row: &Row) -> String {
        let place = match row.place {
            Place::ByUse => "ByUse",
            Place::Parked => "Parked",
            Place::Probation => "Probation",
        };
        let (first, seq) = row.stamp;
        format!("{} {place} stamp ({first}, {seq}) weight {}; {}", self.a(&row.key), row.weight, self.entry(&row.entry))
    }

    fn answer(&self, answer: &Answer) -> String {
        match answer {
            Answer::Refused(n) => format!("refused by {n}"),
            Answer::Hinted { placed, examined } => format!(
                "{}, added {}, {}{}, examined {examined}",
                match placed.outcome {
                    HintOutcome::Inserted => "Inserted",
                    HintOutcome::Changed => "Changed",
                    HintOutcome::Unchanged => "Unchanged",
                    HintOutcome::Rejected => "Rejected",
                },
                placed.added_weight,
                segment_name(placed.segment),
                if placed.unfunded { ", unfunded" } else { "" }
            ),
            Answer::Verified { weight, examined } => format!("done, weight {weight}, examined {examined}"),
            Answer::Looked(None) => "nothing found".to_string(),
            Answer::Looked(Some(path)) => format!("found {}, length {}", self.p(path), path.len()),
            Answer::Taken(None) => "nothing removed".to_string(),
            Answer::Taken(Some(entry)) => format!("removed {}", self.entry(entry)),
            Answer::Held(true) => "held".to_string(),
            Answer::Held(false) => "not held".to_string(),
            Answer::Done => "done".to_string(),
            Answer::Removed(n) => format!("removed {n}"),
            Answer::Counts { entries, max, expired, mean, exact } => format!(
                "entries {entries}, max_entries {max}, expired {expired}, mean age {mean}{}",
                if *exact { "" } else { " (the original's total overflows)" }
            ),
            Answer::Soonest(None) => "no expiry".to_string(),
            Answer::Soonest(Some(t)) => format!("next expiry {t}"),
            Answer::Stopped => "the original stopped, or is not as asserted".to_string(),
        }
    }

    fn held(&self, held: &Held, out: &mut String) {
        let (seq, stored) = (held.seq, held.stored_weight);
        writeln!(out, "        # seq {seq}, stored weight {stored}, rows {}", held.rows.len()).unwrap();
        for row in &held.rows {
            writeln!(out, "        #   {}", self.row(row)).unwrap();
        }
    }
}

/// The calls of a list up to a step, with each answer, and the rows held after the calls that `rows_at` picks. What is not a
/// call stands behind `#`, so the text can be read again.
pub fn print(list: &List, upto: usize, rows_at: impl Fn(usize) -> bool) -> String {
    let names = Names::of(list, upto);
    let mut out = String::new();
    writeln!(out, "list {}\nrows {}", list.name, list.rows).unwrap();
    for (name, addr) in &names.keys {
        writeln!(out, "key {name} {}", hex(addr)).unwrap();
    }
    for (name, path) in &names.paths {
        writeln!(out, "path {name} {}", names.elements(path)).unwrap();
    }
    for (i, made) in list.made.iter().enumerate().take(upto) {
        writeln!(out, "{:<40} # {i}: {}", names.call(&made.call), names.answer(&made.answer)).unwrap();
        if rows_at(i) {
            names.held(&made.held, &mut out);
        }
    }
    out
}
