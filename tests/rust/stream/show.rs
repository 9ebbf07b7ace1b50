//! Streams and differences in words.
use super::compare::Difference;
use super::decode;
use super::lines::shown;
use super::original::{Original, caught};
use super::packed::hex;
use super::proved::{Proved, Side};
use super::streams::Stream;
use crate::numbers::{BYTE, NUMBER, number};

/// A command's code and operands, hex, with numbers of up to eight bytes in decimal.
fn command(bytes: &[u8]) -> String {
    let whole = decode::size(bytes[0]) == Some(bytes.len());
    let Some(widths) = decode::operands(bytes[0]).filter(|_| whole) else { return hex(bytes) };
    let mut text = hex(&bytes[..BYTE]);
    let mut at = BYTE;
    for width in widths {
        let operand = &bytes[at..at + width];
        at += width;
        text += " ";
        text += &if *width > NUMBER { hex(operand) } else { number(operand).to_string() };
    }
    text
}

/// The first commands of a stream, each with the original's line.
pub fn commands(stream: &Stream, first: usize) -> String {
    let mut original = Original::new(stream.rows, stream.max, stream.ttl, stream.seq);
    let mut text = String::new();
    for (i, bytes) in stream.commands.iter().take(first).enumerate() {
        let line = caught(|| original.command(bytes).0.line());
        let line = line.map_or("the original stops".to_string(), |line| shown(&line));
        text += &format!("{:>5}  {:<60}  {line}\n", i + 1, command(bytes));
    }
    text
}

/// The last commands of a long stream are shown, and those that differ.
const SHOWN: usize = 60;

pub fn difference(stream: &Stream, difference: &Difference) -> String {
    let first = (difference.at + 1).min(stream.commands.len());
    let all = commands(stream, first);
    let skipped = first.saturating_sub(SHOWN);
    let mut text = format!(
        "rows {}, max {}, ttl {}, seq {}; each command with the Rust's line:\n",
        stream.rows, stream.max, stream.ttl, stream.seq
    );
    if skipped > 0 {
        text += &format!("       {skipped} commands before\n");
    }
    for line in all.lines().skip(skipped) {
        text += line;
        text += "\n";
    }
    let whole = if difference.at < stream.commands.len() { "the last command" } else { "the stream" };
    text += &format!("{whole}, expected as the Rust has it, found as {} has it:\n", Proved::NAME);
    for line in &difference.unlike {
        text += &format!("       {line}\n");
    }
    text
}
