//! How often the lists came by each kind of call and answer.
use super::calls::{Answer, Call, List, Place, path_weight, segment_name};
use crate::numbers::ADDRS_PER_ENTRY;
use std::collections::BTreeMap;

fn kind(call: &Call) -> &'static str {
    match call {
        Call::Fresh { .. } => "fresh",
        Call::SetSeq { .. } => "(seq set)",
        Call::Insert { .. } => "insert",
        Call::InsertWithTtl { .. } => "insert_with_ttl",
        Call::InsertFunded { .. } => "insert_funded",
        Call::InsertStated { .. } => "insert_stated",
        Call::InsertVerified { .. } => "insert_verified",
        Call::InsertVerifiedWithPathMtu { .. } => "insert_verified_with_path_mtu",
        Call::Get { .. } => "get",
        Call::GetAndTouch { .. } => "get_and_touch",
        Call::Remove { .. } => "remove",
        Call::Demote { .. } => "demote",
        Call::ClearPathMtu { .. } => "clear_path_mtu",
        Call::PurgeExpired { .. } => "purge_expired",
        Call::Clear => "clear",
        Call::InvalidateViaNode { .. } => "invalidate_via_node",
        Call::InvalidateOtherRoots { .. } => "invalidate_other_roots",
        Call::Stats { .. } => "stats",
        Call::NextExpiry => "next_expiry",
    }
}

fn answer(answer: &Answer) -> String {
    match answer {
        Answer::Refused(n) => format!("refused by {n}"),
        Answer::Hinted { placed, .. } => format!(
            "{:?} {}{}{}",
            placed.outcome,
            segment_name(placed.segment),
            if placed.added_weight > 0 { " added" } else { "" },
            if placed.unfunded { " unfunded" } else { "" }
        ),
        Answer::Verified { .. } | Answer::Done => "done".to_string(),
        Answer::Looked(path) => if path.is_some() { "found" } else { "nothing" }.to_string(),
        Answer::Taken(entry) => if entry.is_some() { "removed" } else { "nothing" }.to_string(),
        Answer::Held(held) => if *held { "held" } else { "not held" }.to_string(),
        Answer::Removed(n) => if *n > 0 { "removed some" } else { "removed none" }.to_string(),
        Answer::Counts { exact, .. } => if *exact { "counts" } else { "counts (total overflows)" }.to_string(),
        Answer::Stopped => "stopped".to_string(),
        Answer::Soonest(t) => if t.is_some() { "a time" } else { "none" }.to_string(),
    }
}

pub fn print(lists: &[List]) -> String {
    let mut calls: BTreeMap<(&str, String), u64> = BTreeMap::new();
    let mut other: BTreeMap<&str, u64> = BTreeMap::new();
    let mut count = |what, is: bool| *other.entry(what).or_insert(0) += u64::from(is);
    for list in lists {
        for (at, made) in list.made.iter().enumerate() {
            *calls.entry((kind(&made.call), answer(&made.answer))).or_insert(0) += 1;
            let examined = match made.answer {
                Answer::Hinted { examined, .. } | Answer::Verified { examined, .. } => examined,
                _ => 0,
            };
            count("examined 1", examined == 1);
            count("examined 2 or more", examined > 1);
            let rows = &made.held.rows;
            let main = rows.iter().filter(|row| row.in_main()).count() as u64;
            count("with a parked row", rows.iter().any(|row| row.place == Place::Parked));
            count("with a probation row", rows.iter().any(|row| row.place == Place::Probation));
            count("main rows over max_entries", main > made.held.max_entries);
            count("stored weight over the bound", made.held.stored_weight > ADDRS_PER_ENTRY * made.held.max_entries);
            count("a row heavier than its path", rows.iter().any(|row| row.weight > path_weight(&row.entry.path)));
            if at > 0 {
                let was = &list.made[at - 1].held.rows;
                let gone = was.iter().filter(|old| !rows.iter().any(|row| row.key == old.key)).count();
                count("a call that took out two rows or more", gone > 1 && examined > 0);
                let back = was.iter().any(|old| {
                    old.place == Place::Parked && rows.iter().any(|row| row.key == old.key && row.place == Place::ByUse)
                });
                count("a parked row returned", back && examined > 0);
            }
        }
    }
    let mut out = String::new();
    for ((call, answer), n) in calls {
        out += &format!("{n:>7}  {call}: {answer}\n");
    }
    for (what, n) in other {
        out += &format!("{n:>7}  calls: {what}\n");
    }
    let held: usize = lists.iter().flat_map(|l| &l.made).map(|m| m.held.rows.len()).sum();
    let made: usize = lists.iter().map(|l| l.made.len()).sum();
    out += &format!("{:>7.2}  rows held on average\n", held as f64 / made.max(1) as f64);
    out
}
