//! The original and the crate `coordcache` side by side in one process, on the same calls.
mod lines;
mod sides;
mod table;

use crate::numbers::MOST_ENTRIES;
use sides::{COORDRUN_MAX, Cache, Original, Ours, Public};
use std::process::ExitCode;

/// The limits at which every line is measured.
const LIMITS: [usize; 3] = [COORDRUN_MAX, 192, MOST_ENTRIES as usize - 1];

/// Nanoseconds a call, of one round on each side.
struct Round {
    original: f64,
    ours: f64,
    public: f64,
}

/// One line at one limit: every side makes the same calls, each on a cache of its own that is filled anew for every round.
/// The sides take turns in going first.
fn measure(line: &lines::Line, max: usize, rounds: usize, share: usize) -> Result<Vec<Round>, String> {
    let (setup, calls) = (line.make)(max, (line.calls)(max) * share / 100);
    let (original, ours, public) = (sides::typed::<Original>(&setup), sides::typed::<Ours>(&setup), sides::typed::<Public>(&setup));
    let (to_original, to_ours, to_public) = (sides::typed::<Original>(&calls), sides::typed::<Ours>(&calls), sides::typed::<Public>(&calls));
    let mut all = Vec::new();
    for round in 0..rounds {
        let mut times = [0.0; 3];
        let mut sums = [0; 3];
        for turn in 0..3 {
            let side = (round + turn) % 3;
            (times[side], sums[side]) = match side {
                0 => run::<Original>(max, &original, &to_original),
                1 => run::<Ours>(max, &ours, &to_ours),
                _ => run::<Public>(max, &public, &to_public),
            };
        }
        if sums[1] != sums[0] || sums[2] != sums[0] {
            return Err(format!("{}, max {max}: the answers differ (sums {sums:?})", line.name));
        }
        all.push(Round { original: times[0], ours: times[1], public: times[2] });
    }
    Ok(all)
}

/// Nanoseconds a call, and the sum of what the calls answered.
fn run<C: Cache>(max: usize, setup: &[sides::Call<C>], calls: &[sides::Call<C>]) -> (f64, u64) {
    let mut cache = C::new(max, lines::TTL);
    for call in setup {
        call.make(&mut cache);
    }
    let mut sum = 0u64;
    let start = std::time::Instant::now();
    for call in calls {
        sum = sum.wrapping_add(call.make(&mut cache));
    }
    let time = start.elapsed().as_nanos() as f64 / calls.len() as f64;
    (time, std::hint::black_box(sum))
}

struct Words {
    rounds: usize,
    share: usize,
    /// Only lines whose name has this in it.
    only: String,
    max: Option<usize>,
    write: Option<String>,
}

fn words() -> Result<Words, String> {
    let mut words = std::env::args().skip(1);
    let (mut rounds, mut share, mut only, mut max, mut write) = (15, 100, String::new(), None, None);
    while let Some(word) = words.next() {
        let mut value = || words.next().ok_or(format!("{word} wants a word after it"));
        let number = |text: String| text.parse().map_err(|_| format!("'{text}' is not a number"));
        match word.as_str() {
            "rounds" => rounds = number(value()?)?,
            "share" => share = number(value()?)?,
            "only" => only = value()?,
            "max" => max = Some(number(value()?)?),
            "write" => write = Some(value()?),
            _ => return Err(format!("unknown word '{word}'")),
        }
    }
    Ok(Words { rounds: rounds.max(1), share: share.max(1), only, max, write })
}

fn all() -> Result<(), String> {
    let Words { rounds, share, only, max, write } = words()?;
    let mut table = table::Table::new(rounds);
    table.head();
    for max in max.map_or(LIMITS.to_vec(), |max| vec![max]) {
        for line in lines::ALL.iter().filter(|line| line.name.contains(&only)) {
            table.row(max, line.name, &measure(line, max, rounds, share)?);
        }
    }
    println!();
    table.notes();
    match write {
        Some(file) => table.write(&file).map_err(|e| format!("{file}: {e}")),
        None => Ok(()),
    }
}

pub fn main() -> ExitCode {
    match all() {
        Ok(()) => ExitCode::SUCCESS,
        Err(text) => {
            eprintln!("benchmark: {text}");
            ExitCode::from(1)
        }
    }
}
