//! How long a stream takes through the proved library and through the original, in one run of one process.
use super::compare::LINE;
use super::make;
use super::original::Original;
use super::profiles::{GATEWAY, Keys, Taste};
use super::proved::{Proved, Side, Stop, output};
use super::streams::Stream;
use crate::driver::calls::probation_bound;
use crate::numbers::{COORDRUN_ROWS, MAX_ROWS, MOST_ENTRIES, code};
use std::hint::black_box;
use std::time::Instant;

/// The bytes that are lent at a time, of input and of output.
const CHUNK: usize = 65536;

const ROUNDS: usize = 5;

/// The whole run through the proved library; `take` gets each output.
fn proved(stream: &Stream, bytes: &[u8], mut take: impl FnMut(&[u8])) -> Result<f64, String> {
    let mut proved = Proved::start(stream)?;
    let mut out = output(CHUNK);
    let mut from = 0;
    let start = Instant::now();
    loop {
        let to = bytes.len().min(from + CHUNK);
        let last = to == bytes.len();
        let report = proved.run(&bytes[from..to], last, &mut out)?;
        take(&out[..report.written]);
        from += report.used;
        match report.stop {
            Stop::End if last => return Ok(start.elapsed().as_secs_f64()),
            Stop::Six => return Err("a command of the benchmark was refused by 6".to_string()),
            _ if report.used == 0 => return Err(format!("said {:?} and used nothing of {} bytes", report.stop, to - from)),
            _ => (),
        }
    }
}

/// The same through the original.
fn original(stream: &Stream, bytes: &[u8], mut take: impl FnMut(&[u8])) -> f64 {
    let mut original = Original::new(stream.rows, stream.max, stream.ttl, 0);
    let mut out = Vec::with_capacity(CHUNK + LINE);
    let mut left = bytes;
    let start = Instant::now();
    while !left.is_empty() {
        let (reply, used) = original.command(left);
        reply.write(&mut out);
        left = &left[used..];
        if out.len() >= CHUNK {
            take(&out);
            out.clear();
        }
    }
    take(&out);
    start.elapsed().as_secs_f64()
}

fn median(mut all: Vec<f64>) -> f64 {
    all.sort_by(f64::total_cmp);
    all[all.len() / 2]
}

/// What the stream is made of.
fn composition(stream: &Stream) -> String {
    let share = |codes: std::ops::RangeInclusive<u8>| {
        let n = stream.commands.iter().filter(|c| codes.contains(&c[0])).count();
        100.0 * n as f64 / stream.commands.len() as f64
    };
    format!(
        "path elements {:.0} %, inserts {:.0} %, lookups {:.0} %, other {:.1} %",
        share(code::ELEMENT..=code::ELEMENT),
        share(code::INSERTS),
        share(code::GET..=code::GET_AND_TOUCH),
        share(code::REMOVE..=0xff)
    )
}

fn at(rows: u64, max: u64, commands: usize, seed: u64) -> Result<(), String> {
    let taste = Taste { keys: Keys::Over(max as usize / 20 + 1, max as usize / 10 + 4), fill: true, ..GATEWAY };
    let mut stream = make::at(&taste, seed, 0, (rows, max), commands);
    stream.commands.truncate(commands);
    let bytes = stream.commands.concat();
    let (mut ours, mut theirs) = (Vec::new(), Vec::new());
    proved(&stream, &bytes, |lines| ours.extend_from_slice(lines))?;
    original(&stream, &bytes, |lines| theirs.extend_from_slice(lines));
    if ours != theirs {
        return Err(format!("the lines differ at {rows} rows; run --profile gateway --rows {rows} --seed {seed}"));
    }
    let (mut ours, mut theirs) = (Vec::new(), Vec::new());
    for round in 0..ROUNDS {
        // each goes first in turn, so that neither has the warmer caches always
        if round % 2 == 0 {
            ours.push(proved(&stream, &bytes, |lines| _ = black_box(lines))?);
        }
        theirs.push(original(&stream, &bytes, |lines| _ = black_box(lines)));
        if round % 2 == 1 {
            ours.push(proved(&stream, &bytes, |lines| _ = black_box(lines))?);
        }
    }
    let ratios: Vec<f64> = ours.iter().zip(&theirs).map(|(a, b)| a / b).collect();
    let (least, most) = ratios.iter().fold((f64::MAX, 0f64), |(l, m), r| (l.min(*r), m.max(*r)));
    let n = stream.commands.len() as f64;
    println!(
        "{rows} rows, max {max}: {} commands of profile gateway, seed {seed} ({})",
        stream.commands.len(),
        composition(&stream)
    );
    for (name, times) in [("proved", ours), ("Rust", theirs)] {
        let time = median(times);
        println!("  {name:<8}{:>10.2} ms{:>10.0} ns a command", time * 1e3, time * 1e9 / n);
    }
    println!("  ratio   {:>10.2} times the Rust's ({least:.2} to {most:.2} over {ROUNDS} rounds)", median(ratios));
    Ok(())
}

/// At coordrun's limits and at the largest, or at as many rows as are asked for. The times are medians of the rounds.
pub fn run(commands: usize, seed: u64, rows: Option<u64>) -> Result<(), String> {
    let limits = match rows {
        None => vec![(COORDRUN_ROWS, 8), (MAX_ROWS, MOST_ENTRIES - 1)],
        Some(rows) => {
            let max = (0..rows).rev().find(|max| max + probation_bound(*max) <= rows).unwrap_or(0);
            vec![(rows, max)]
        }
    };
    limits.into_iter().try_for_each(|(rows, max)| at(rows, max, commands.max(1), seed))
}
