//! The driver of tests/stream-against-rust: the proved command stream beside the original, at scale; with `--cfg through_crate`
//! the crate of rust/ in its place.
//!
//!     driver compare COMMANDS SEED LETTERS PROFILE|- ROWS|- CURRENT TALLY|-
//!     driver bytes ROWS MAX TTL SEQ HEX|@FILE
//!     driver record FILE
//!     driver speed COMMANDS SEED ROWS|-
//!
//! `-` is for what is not asked for; CURRENT is a file that holds the stream being tried, for a library that dies on it.
//! Exit status: 0 no difference, 1 a difference, 2 not tried.
mod all;
#[cfg(through_crate)]
mod by_crate;
mod compare;
mod decode;
mod differences;
mod encode;
mod handed;
#[cfg(not(through_crate))]
mod library;
mod lines;
mod make;
mod original;
mod packed;
mod profiles;
mod progress;
mod proved;
mod record;
mod sequences;
mod show;
mod shrink;
mod speed;
mod streams;
mod tally;
mod words;

use all::All;
use compare::compare;
use proved::{Proved, Side};
use std::process::ExitCode;
use streams::Stream;
use tally::Tally;

/// Why a run ends without 0.
enum End {
    Differs,
    NotTried(String),
}

pub fn main() -> ExitCode {
    original::keep_panics();
    let words: Vec<String> = std::env::args().skip(1).collect();
    let words: Vec<&str> = words.iter().map(String::as_str).collect();
    match run(&words) {
        Ok(()) => ExitCode::SUCCESS,
        Err(End::Differs) => ExitCode::from(1),
        Err(End::NotTried(why)) => {
            eprintln!("{why}");
            ExitCode::from(2)
        }
    }
}

fn run(words: &[&str]) -> Result<(), End> {
    match words {
        ["compare", commands, seed, letters, profile, rows, current, tally] => All {
            commands: number(commands)?,
            seed: number(seed)?,
            letters: number(letters)? as usize,
            profile: asked(profile),
            rows: asked(rows).map(number).transpose()?,
            current,
            tally: asked(tally).is_some(),
        }
        .run(),
        ["bytes", rows, max, ttl, seq, hex] => {
            let text = match hex.strip_prefix('@') {
                Some(file) => std::fs::read_to_string(file).map_err(|e| End::NotTried(format!("{file}: {e}")))?,
                None => hex.to_string(),
            };
            let commands = Stream::commands_of(&text).map_err(End::NotTried)?;
            let (rows, max, ttl, seq) = (number(rows)?, number(max)?, number(ttl)?, number(seq)?);
            bytes(&Stream { name: "the bytes given".to_string(), rows, max, ttl, seq, commands })
        }
        ["record", file] => record::write(file).map_err(End::NotTried),
        ["speed", commands, seed, rows] => {
            speed::run(number(commands)? as usize, number(seed)?, asked(rows).map(number).transpose()?).map_err(|why| {
                println!("{why}");
                End::Differs
            })
        }
        _ => Err(End::NotTried("the driver's words are in tests/rust/stream/mod.rs".to_string())),
    }
}

fn asked<'a>(word: &'a str) -> Option<&'a str> {
    (word != "-").then_some(word)
}

fn number(word: &str) -> Result<u64, End> {
    word.parse().map_err(|_| End::NotTried(format!("{word} is not a number")))
}

/// One stream, shown whole.
fn bytes(stream: &Stream) -> Result<(), End> {
    stream.startable().map_err(End::NotTried)?;
    if stream.left_out() {
        return Err(End::NotTried(format!("{} cannot be given another seq than 0", Proved::NAME)));
    }
    match compare(stream, &mut Tally::default()) {
        Ok(()) => {
            print!("{}", show::commands(stream, stream.commands.len()));
            println!("{} commands, 0 differences", stream.commands.len());
            Ok(())
        }
        Err(difference) => {
            print!("{}", show::difference(stream, &difference));
            Err(End::Differs)
        }
    }
}
