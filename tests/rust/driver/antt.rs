//! Lists as antt text, in the words of the prelude.
use super::calls::{Addr, Answer, Call, Elem, Entry, List, Made, Path, Place, Row};
use crate::cache::{Funding, HintOutcome, Segment};
use std::collections::BTreeMap;
use std::fmt::Write;

const USES: &str = "use Rattle.std.specs.Prelude.{◌≡◌, refl, List, [], ◌∷◌, true, false}\n";

const CRATE: &str = "Rattle.tried.specs";

/// The words of the prelude.
const VALUES: &str = "Address, Element, address, element";
const LISTS: &str = "Element, Row, Answer, asked, no_mtu, mtu, verified, hint, by_use, parked, probation, entry, row, state, \
    uncharged, upto, inserted, changed, unchanged, rejected, in_main, in_probation, \
    insert, insert_with_ttl, insert_funded, insert_stated, insert_verified, insert_verified_with_path_mtu, \
    get, get_and_touch, remove, demote, clear_path_mtu, \
    purge_expired, clear, invalidate_via_node, invalidate_other_roots, stats, next_expiry, \
    refused, hinted, verified_at, found, not_found, took, took_nothing, held, done, removed, counts, soonest, no_expiry, \
    calling, freshening, setting_seq, Seen, saw, put, new, cut, by_rules, by_rust, \
    answer_by_rules, head_by_rules, rows_by_rules, keys_of, fields_of, paths_of";

/// Addresses and elements under names that all files share.
pub struct Names {
    addrs: BTreeMap<Addr, usize>,
    elems: BTreeMap<Elem, usize>,
}

impl Names {
    pub fn of(lists: &[&List]) -> Self {
        let mut names = Names { addrs: BTreeMap::new(), elems: BTreeMap::new() };
        for made in lists.iter().flat_map(|list| &list.made) {
            for elem in made.call.path().into_iter().flatten() {
                names.addrs.insert(elem.addr, 0);
                names.elems.insert(elem.clone(), 0);
            }
            if let Some(addr) = made.call.addr() {
                names.addrs.insert(*addr, 0);
            }
        }
        for (i, n) in names.addrs.values_mut().enumerate() {
            *n = i;
        }
        for (i, n) in names.elems.values_mut().enumerate() {
            *n = i;
        }
        names
    }

    fn addr(&self, addr: &Addr) -> String {
        format!("k{}", self.addrs[addr])
    }

    /// The file that declares them.
    pub fn file(&self) -> String {
        let mut out = format!("{USES}use {CRATE}.Prelude.{{{VALUES}}}\n");
        for (addr, i) in &self.addrs {
            let bytes: String = addr.iter().map(|b| format!("{b} ∷ ")).collect();
            write!(out, "\nabbrev pub k{i} : Address\nk{i} = address ({bytes}[])\n").unwrap();
        }
        for (elem, i) in &self.elems {
            let (k, n, t) = (self.addr(&elem.addr), elem.sequence, elem.timestamp);
            write!(out, "\nabbrev pub e{i} : Element\ne{i} = element {k} {n} {t}\n").unwrap();
        }
        out
    }

    fn uses(&self) -> String {
        let all = self.addrs.values().map(|i| format!("k{i}")).chain(self.elems.values().map(|i| format!("e{i}")));
        let all = all.collect::<Vec<_>>().join(", ");
        let names = if all.is_empty() { String::new() } else { format!("use {CRATE}.Names.{{{all}}}\n") };
        format!("{USES}use {CRATE}.Prelude.{{{LISTS}}}\n{names}")
    }
}

/// Writes one list.
struct Writer<'a> {
    names: &'a Names,
    list: &'a List,
    /// the list's paths, and the beginning of their names
    paths: Vec<&'a Path>,
    tag: String,
}

impl<'a> Writer<'a> {
    fn new(names: &'a Names, list: &'a List, tag: String) -> Self {
        let mut paths: Vec<&Path> = Vec::new();
        for path in list.made.iter().filter_map(|made| made.call.path()) {
            if !paths.contains(&path) {
                paths.push(path);
            }
        }
        Writer { names, list, paths, tag }
    }

    fn path(&self, path: &Path) -> String {
        let at = self.paths.iter().position(|p| *p == path).expect("a held path came with a call");
        format!("{}p{at}", self.tag)
    }

    fn entry(&self, e: &Entry) -> String {
        format!(
            "(entry {} {} {} {} {} {} {})",
            self.path(&e.path),
            e.created_at,
            e.last_used,
            e.expires_at,
            e.path_mtu.map_or("no_mtu".to_string(), |m| format!("(mtu {m})")),
            if e.verified { "verified" } else { "hint" },
            e.verified_until
        )
    }

    fn row(&self, r: &Row) -> String {
        let place = match r.place {
            Place::ByUse => "by_use",
            Place::Parked => "parked",
            Place::Probation => "probation",
        };
        format!("(row {} {place} {} {} {} {})", self.names.addr(&r.key), r.stamp.0, r.stamp.1, r.weight, self.entry(&r.entry))
    }

    fn doing(&self, call: &Call) -> String {
        let k = |key| self.names.addr(key);
        let p = |path| format!("(asked {})", self.path(path));
        let f = |funding: &Funding| match funding {
            Funding::Uncharged => "uncharged".to_string(),
            Funding::Upto(n) => format!("(upto {n})"),
        };
        let words = match call {
            Call::Fresh { max, ttl } => return format!("(freshening {max} {ttl})"),
            Call::SetSeq { seq } => return format!("(setting_seq {seq})"),
            Call::Insert { key, path, time } => format!("insert {} {} {time}", k(key), p(path)),
            Call::InsertWithTtl { key, path, time, ttl } => format!("insert_with_ttl {} {} {time} {ttl}", k(key), p(path)),
            Call::InsertFunded { key, path, time, funding } => {
                format!("insert_funded {} {} {time} {}", k(key), p(path), f(funding))
            }
            Call::InsertStated { key, path, time, funding } => {
                format!("insert_stated {} {} {time} {}", k(key), p(path), f(funding))
            }
            Call::InsertVerified { key, path, time } => format!("insert_verified {} {} {time}", k(key), p(path)),
            Call::InsertVerifiedWithPathMtu { key, path, time, mtu } => {
                format!("insert_verified_with_path_mtu {} {} {time} {mtu}", k(key), p(path))
            }
            Call::Get { key, time } => format!("get {} {time}", k(key)),
            Call::GetAndTouch { key, time } => format!("get_and_touch {} {time}", k(key)),
            Call::Remove { key } => format!("remove {}", k(key)),
            Call::Demote { key } => format!("demote {}", k(key)),
            Call::ClearPathMtu { key } => format!("clear_path_mtu {}", k(key)),
            Call::PurgeExpired { time } => format!("purge_expired {time}"),
            Call::Clear => "clear".to_string(),
            Call::InvalidateViaNode { addr } => format!("invalidate_via_node {}", k(addr)),
            Call::InvalidateOtherRoots { addr } => format!("invalidate_other_roots {}", k(addr)),
            Call::Stats { time } => format!("stats {time}"),
            Call::NextExpiry => "next_expiry".to_string(),
        };
        format!("(calling ({words}))")
    }

    fn answer(&self, answer: &Answer) -> String {
        let words = match answer {
            Answer::Refused(n) => format!("refused {n}"),
            Answer::Hinted { placed, examined } => {
                let outcome = match placed.outcome {
                    HintOutcome::Inserted => "inserted",
                    HintOutcome::Changed => "changed",
                    HintOutcome::Unchanged => "unchanged",
                    HintOutcome::Rejected => "rejected",
                };
                let segment = match placed.segment {
                    Segment::Main => "in_main",
                    Segment::Probation => "in_probation",
                };
                format!("hinted {outcome} {} {segment} {} {examined}", placed.added_weight, placed.unfunded)
            }
            Answer::Verified { weight, examined } => format!("verified_at {weight} {examined}"),
            Answer::Looked(None) => "not_found".to_string(),
            Answer::Looked(Some(path)) => format!("found {}", self.path(path)),
            Answer::Taken(None) => "took_nothing".to_string(),
            Answer::Taken(Some(e)) => format!("took {}", self.entry(e)),
            Answer::Held(b) => format!("held {b}"),
            Answer::Done => "done".to_string(),
            Answer::Removed(n) => format!("removed {n}"),
            Answer::Counts { entries, max, expired, mean, .. } => format!("counts {entries} {max} {expired} {mean}"),
            Answer::Soonest(None) => "no_expiry".to_string(),
            Answer::Soonest(Some(t)) => format!("soonest {t}"),
            Answer::Stopped => unreachable!("the run ended there"),
        };
        format!("({words})")
    }

    /// What became of `rs`: rows that went, the last first, then rows that changed or came.
    fn edits(&self, was: &[Row], now: &[Row], rs: &str) -> String {
        let mut steps = Vec::new();
        let mut left: Vec<&Row> = was.iter().collect();
        for i in (0..was.len()).rev() {
            if !now.iter().any(|row| row.key == was[i].key) {
                steps.push(format!("cut {i}"));
                left.remove(i);
            }
        }
        for (i, row) in now.iter().enumerate() {
            match left.get(i) {
                Some(old) if *old == row => {}
                Some(old) if old.key == row.key => steps.push(format!("put {i} {}", self.row(row))),
                _ => {
                    steps.push(format!("new {i} {}", self.row(row)));
                    left.insert(i, row);
                }
            }
        }
        steps.iter().fold(rs.to_string(), |rows, step| format!("({step} {rows})"))
    }

    fn seen(&self, was: &[Row], made: &Made) -> String {
        let h = &made.held;
        format!(
            "saw {} {} {} {} {} {} (λ rs. {})",
            self.doing(&made.call),
            self.answer(&made.answer),
            h.max_entries,
            h.default_ttl_ms,
            h.seq,
            h.stored_weight,
            self.edits(was, &h.rows, "rs")
        )
    }

    fn paths(&self, out: &mut String) {
        for path in &self.paths {
            let elems: String = path.iter().map(|e| format!("e{} ∷ ", self.names.elems[e])).collect();
            let name = self.path(path);
            write!(out, "\nabbrev {name} : List Element\n{name} = {elems}[]\n").unwrap();
        }
    }

    /// The whole list as one theorem.
    fn list(&self, at: usize, out: &mut String) {
        self.paths(out);
        write!(out, "\nabbrev seen{at} : List Seen\nseen{at} =\n").unwrap();
        let mut was: &[Row] = &[];
        for made in &self.list.made {
            writeln!(out, "    {} ∷", self.seen(was, made)).unwrap();
            was = &made.held.rows;
        }
        let rows = self.list.rows;
        write!(
            out,
            "    []\n\nlist{at} : by_rules {rows} seen{at} ≡ by_rust seen{at}\nunfolding by_rules by_rust\nlist{at} = refl\n"
        )
        .unwrap();
    }

    /// Each step by itself, from what the original held before it: its answer, the head, and of the rows the keys, the
    /// numbers and the paths.
    fn steps(&self, out: &mut String) {
        self.paths(out);
        let mut was: &[Row] = &[];
        let mut before = "(state 0 0 0 0 [])".to_string();
        let mut rows = "[]".to_string();
        for (i, made) in self.list.made.iter().enumerate() {
            let (h, d) = (&made.held, self.doing(&made.call));
            let now = self.edits(was, &h.rows, &rows);
            write!(out, "\nabbrev rows{i} : List Row\nrows{i} = {now}\n").unwrap();
            let head = format!(
                "{} ∷ {} ∷ {} ∷ {} ∷ {} ∷ []",
                h.max_entries,
                h.default_ttl_ms,
                h.seq,
                h.stored_weight,
                h.rows.len()
            );
            let ours = |rule| format!("{rule} {} {before} {d}", self.list.rows);
            let mut say = |part: &str, ours: String, theirs: String, open: &str| {
                write!(out, "\n{part}_{i} : {ours} ≡ {theirs}\nunfolding {open}\n{part}_{i} = refl\n").unwrap();
            };
            say("answer", ours("answer_by_rules"), self.answer(&made.answer), "answer_by_rules put new cut");
            say("head", ours("head_by_rules"), head, "head_by_rules put new cut");
            for (part, read) in [("keys", "keys_of"), ("fields", "fields_of"), ("paths", "paths_of")] {
                let theirs = format!("{read} rows{i}");
                say(part, format!("{read} ({})", ours("rows_by_rules")), theirs, &format!("{read} rows_by_rules put new cut"));
            }
            rows = format!("rows{i}");
            before = format!("(state {} {} {} {} {rows})", h.max_entries, h.default_ttl_ms, h.seq, h.stored_weight);
            was = &h.rows;
        }
    }
}

/// A file of lists; a list's theorem is called by its place among all lists.
pub fn lists(names: &Names, lists: &[(usize, &List)]) -> String {
    let mut out = names.uses();
    for (at, list) in lists {
        Writer::new(names, list, format!("l{at}")).list(*at, &mut out);
    }
    out
}

/// A file of one list's steps.
pub fn steps(names: &Names, list: &List) -> String {
    let mut out = names.uses();
    Writer::new(names, list, String::new()).steps(&mut out);
    out
}
