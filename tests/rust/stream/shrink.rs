//! A shorter stream that still differs.
use super::compare::{compare, ends_unlike};
use super::decode;
use super::streams::Stream;
use super::tally::Tally;
use crate::driver::calls::probation_bound;
use crate::numbers::{ADDRESS, ADDRS_PER_ENTRY, BYTE, COORDRUN_ROWS, NUMBER, SHORT, VERIFIED_TTL_MS, WEIGHT_LIMIT, code, number};
use std::time::{Duration, Instant};

/// The shortest stream found to differ, and how long to look on.
struct Search {
    best: Stream,
    /// whether a stream differs, in whatever way
    differs: fn(&Stream) -> bool,
    until: Instant,
}

impl Search {
    /// Takes the changed stream if it differs.
    fn take(&mut self, change: impl FnOnce(&mut Stream)) -> bool {
        if Instant::now() > self.until {
            return false;
        }
        let mut tried = self.best.clone();
        change(&mut tried);
        let differs = tried.startable().is_ok() && (self.differs)(&tried);
        if differs {
            self.best = tried;
        }
        differs
    }

    /// Leaves out commands, in halves and smaller parts down to one.
    fn fewer(&mut self) {
        let mut size = self.best.commands.len().div_ceil(2).max(1);
        loop {
            let mut from = 0;
            while from < self.best.commands.len() {
                let to = (from + size).min(self.best.commands.len());
                if !self.take(|s| drop(s.commands.drain(from..to))) {
                    from = to;
                }
            }
            if size == 1 {
                return;
            }
            size = size.div_ceil(2);
        }
    }

    /// Moves all times back by the earliest.
    fn earlier(&mut self) {
        let at = |command: &Vec<u8>| {
            let at = match command[0] {
                byte if code::INSERTS.contains(&byte) => BYTE + ADDRESS,
                code::GET | code::GET_AND_TOUCH => BYTE + ADDRESS,
                code::PURGE_EXPIRED | code::STATS => BYTE,
                _ => return None,
            };
            Some(at..at + NUMBER).filter(|at| at.end <= command.len())
        };
        let times = self.best.commands.iter().filter_map(|c| at(c).map(|at| number(&c[at])));
        let Some(earliest) = times.min() else { return };
        self.take(|s| {
            for command in &mut s.commands {
                if let Some(at) = at(command) {
                    let moved = number(&command[at.clone()]) - earliest;
                    command[at].copy_from_slice(&moved.to_le_bytes());
                }
            }
        });
    }

    /// Makes numbers of two and eight bytes small.
    fn smaller(&mut self) {
        for i in 0..self.best.commands.len() {
            let Some(command) = self.best.commands.get(i) else { return };
            let Some(widths) = decode::operands(command[0]) else { continue };
            let mut at = BYTE;
            for width in widths {
                if matches!(*width, SHORT | NUMBER) && self.best.commands.get(i).is_some_and(|c| at + width <= c.len()) {
                    self.smaller_number(i, at, *width);
                }
                at += width;
            }
        }
    }

    fn smaller_number(&mut self, i: usize, at: usize, width: usize) {
        let read = |s: &Stream| number(&s.commands[i][at..at + width]);
        let light = ADDRS_PER_ENTRY;
        let lapsed = VERIFIED_TTL_MS + 1;
        for small in [0, 1, 2, 5, light - 1, light, light + 1, WEIGHT_LIMIT, 100, VERIFIED_TTL_MS, lapsed, lapsed + 1] {
            let write = |s: &mut Stream| s.commands[i][at..at + width].copy_from_slice(&small.to_le_bytes()[..width]);
            if i >= self.best.commands.len() || small >= read(&self.best) || self.take(write) {
                return;
            }
        }
    }
}

/// Shrinks a stream that differs at a command, counted from 0: fewer commands, smaller limits, smaller numbers; for half a
/// minute at most.
pub fn shrink(stream: &Stream, at: usize) -> Stream {
    let mut best = stream.clone();
    best.commands.truncate(at + 1);
    let differs: fn(&Stream) -> bool =
        if ends_unlike(&best) { ends_unlike } else { |stream| compare(stream, &mut Tally::default()).is_err() };
    let mut search = Search { best, differs, until: Instant::now() + Duration::from_secs(30) };
    search.fewer();
    search.take(|s| s.rows = COORDRUN_ROWS);
    search.take(|s| s.rows = s.max + probation_bound(s.max));
    search.take(|s| s.ttl = 300_000);
    search.earlier();
    search.smaller();
    search.fewer();
    search.best
}
