//! The incident: two writes in one millisecond, and only one place. The first is a route that a lookup verified; the second, a hint
//! for another branch, needs room. It is answered, and the verified route stays.
//!
//!     cargo run --example incident
//!
//! Exit status: 0 so it is; 1 it is not.

use std::error::Error;
use std::process::ExitCode;

use coordcache::{CoordCache, Funding, HintOutcome, NodeAddr, Segment, TreeCoordinate};

const NOW: u64 = 1_700_000_000_000;

fn main() -> ExitCode {
    match incident() {
        Ok(()) => ExitCode::SUCCESS,
        Err(why) => {
            eprintln!("incident: {why}");
            ExitCode::FAILURE
        }
    }
}

fn incident() -> Result<(), Box<dyn Error>> {
    let [payroll, branch, root] = [1, 2, 0xff].map(|byte| NodeAddr::from_bytes([byte; 16]));
    let route = TreeCoordinate::from_addrs(vec![payroll, root])?;
    let hint = TreeCoordinate::from_addrs(vec![branch, root])?;

    let mut first: CoordCache = CoordCache::new(1, 300_000)?;
    let verified = first.insert_verified(payroll, &route, NOW)?;
    println!("at {NOW}, max_entries 1:");
    println!("  a verified route of {} elements is stored, weight {}", route.len(), verified.weight);

    let seconds = [
        ("uncharged", Funding::Uncharged, HintOutcome::Rejected, Segment::Main, false),
        ("paying up to 16", Funding::Upto(16), HintOutcome::Inserted, Segment::Probation, false),
        ("paying up to 15", Funding::Upto(15), HintOutcome::Inserted, Segment::Probation, true),
    ];
    for (writer, funding, outcome, segment, unfunded) in seconds {
        let mut cache = first.clone();
        let placed = cache.insert_funded(branch, &hint, NOW, funding)?;
        let told = match placed.outcome {
            HintOutcome::Rejected => "rejected, and not stored".to_string(),
            outcome => format!("{outcome:?} in {:?}, charged {}", placed.segment, placed.added_weight),
        };
        println!("  a second write, a hint {writer}: {told}");
        if (placed.outcome, placed.segment, placed.unfunded, placed.added_weight) != (outcome, segment, unfunded, 0) {
            return Err(format!("the hint was answered {placed:?}").into());
        }
        if cache.contains(&branch, NOW) != (outcome == HintOutcome::Inserted) {
            return Err("the hint's answer is not what was done".into());
        }
        if cache.get(&payroll, NOW).is_none_or(|stored| *stored != route) {
            return Err("the verified route is gone".into());
        }
        if !cache.remove(&payroll).is_some_and(|entry| entry.is_verified(NOW)) {
            return Err("the route is no longer verified".into());
        }
    }
    println!("  each time the verified route stayed as it was");
    Ok(())
}
