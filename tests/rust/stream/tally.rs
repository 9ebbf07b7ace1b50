//! How often each kind of reply came: that no profile passes by what it is for.
use super::lines::Reply;
use super::streams::Stream;
use crate::numbers::{ADDRS_PER_ENTRY, VALUES, Values, code, refusal};
use std::collections::BTreeMap;

#[derive(Default)]
pub struct Tally {
    pub commands: u64,
    pub refused: u64,
    pub skipped_streams: u64,
    pub skipped_commands: u64,
    replies: BTreeMap<Kind, u64>,
}

/// A code, a refusal, and of the five numbers what tells one branch from another.
type Kind = (u8, u8, Values);

impl Tally {
    pub fn count(&mut self, reply: &Reply) {
        self.commands += 1;
        self.refused += u64::from(reply.refusal != 0);
        let [a, b, c, d, e] = reply.numbers;
        let some = |n: u64| n.min(1);
        let numbers = match reply.code {
            byte if code::HINTS.contains(&byte) => [a, some(b), c, d, e.min(2)],
            byte if code::VERIFIED_INSERTS.contains(&byte) => [0, some(b.saturating_sub(ADDRS_PER_ENTRY)), 0, 0, e.min(2)],
            code::GET..=code::DEMOTE | code::NEXT_EXPIRY => [a, 0, 0, 0, 0],
            code::PURGE_EXPIRED | code::INVALIDATE_VIA_NODE | code::INVALIDATE_OTHER_ROOTS => [a.min(2), 0, 0, 0, 0],
            code::STATS => [some(a), 0, some(c), 0, 0],
            _ => [0; VALUES],
        };
        // a command that is damaged has any code
        let code = if reply.refusal == refusal::NO_COMMAND { 0xff } else { reply.code };
        *self.replies.entry((code, reply.refusal, numbers)).or_insert(0) += 1;
    }

    pub fn skip(&mut self, stream: &Stream) {
        self.skipped_streams += 1;
        self.skipped_commands += stream.commands.len() as u64;
    }

    pub fn add(&mut self, other: &Tally) {
        self.commands += other.commands;
        self.refused += other.refused;
        self.skipped_streams += other.skipped_streams;
        self.skipped_commands += other.skipped_commands;
        for (kind, n) in &other.replies {
            *self.replies.entry(*kind).or_insert(0) += n;
        }
    }

    pub fn print(&self) -> String {
        self.replies.iter().map(|(kind, n)| format!("{n:>9}  {}\n", name(kind))).collect()
    }
}

fn name(&(code, refusal, [a, b, c, d, e]): &Kind) -> String {
    let or = |n: u64, words: [&'static str; 3]| words[n.min(2) as usize];
    let what = match refusal {
        0 => match code {
            byte if code::HINTS.contains(&byte) => format!(
                "{} {}{}{}{}",
                ["Inserted", "Changed", "Unchanged", "Rejected"][a as usize],
                or(c, ["Main", "Probation", ""]),
                or(b, ["", ", added", ""]),
                or(d, ["", ", unfunded", ""]),
                or(e, ["", ", examined 1", ", examined more"])
            ),
            byte if code::VERIFIED_INSERTS.contains(&byte) => {
                format!("done{}{}", or(b, ["", ", heavy", ""]), or(e, ["", ", examined 1", ", examined more"]))
            }
            code::GET..=code::DEMOTE => or(a, ["nothing", "found", ""]).to_string(),
            code::PURGE_EXPIRED | code::INVALIDATE_VIA_NODE | code::INVALIDATE_OTHER_ROOTS => {
                or(a, ["removed none", "removed one", "removed more"]).to_string()
            }
            code::STATS => format!("{}{}", or(a, ["empty", "entries", ""]), or(c, ["", ", expired ones", ""])),
            code::NEXT_EXPIRY => or(a, ["none", "a time", ""]).to_string(),
            _ => "done".to_string(),
        },
        refusal::NO_COMMAND => return "refused by 6".to_string(),
        n => format!("refused by {n}"),
    };
    format!("{code:02x} {what}")
}
