//! All short sequences over small alphabets: what random streams may never put side by side.
use super::compare::{Difference, Pair};
use super::encode;
use super::streams::Stream;
use super::tally::Tally;
use super::words::{A, B, C, D, along, funded, insert, stated, touch, verified};
use crate::driver::dice::Dice;
use crate::numbers::{ADDRESS, ADDRS_PER_ENTRY, PLACES, VERIFIED_TTL_MS, WEIGHT_LIMIT, code};

/// A letter: commands at the clock, which it may set.
type Letter = fn(&mut u64) -> Vec<Vec<u8>>;

pub struct Alphabet {
    pub name: &'static str,
    pub about: &'static str,
    /// rows, max, ttl
    limits: &'static [(u64, u64, u64)],
    letters: &'static [Letter],
    /// paths are long here: sequences are shorter by so many letters
    shorter: usize,
}

/// The least weight, and the longest path that has it.
const LIGHT: u64 = ADDRS_PER_ENTRY;
const LIGHT_PATH: usize = LIGHT as usize;

fn tick(clock: &mut u64) -> u64 {
    *clock += 1;
    *clock
}

pub const ALPHABETS: [Alphabet; 4] = [
    Alphabet {
        name: "places",
        about: "hints, verified inserts, touches and a demotion, each later than the one before",
        limits: &[(2, 1, 300_000), (3, 2, 300_000), (4, 2, 300_000)],
        letters: &[
            |t| verified(&A, 1, tick(t)),
            |t| verified(&B, 1, tick(t)),
            |t| insert(&C, tick(t)),
            |t| funded(&D, 1, LIGHT, tick(t)),
            |t| funded(&D, 1, LIGHT - 1, tick(t)),
            |t| touch(&A, tick(t)),
            |t| touch(&D, tick(t)),
            |_| vec![encode::addressed(code::DEMOTE, &A)],
        ],
        shorter: 0,
    },
    Alphabet {
        name: "tied",
        about: "the same at one time, with touches before and after it",
        limits: &[(2, 1, 300_000), (3, 2, 300_000)],
        letters: &[
            |_| verified(&A, 1, 7),
            |_| verified(&B, 1, 7),
            |_| insert(&C, 7),
            |_| insert(&D, 7),
            |_| touch(&A, 8),
            |_| touch(&C, 3),
            |_| funded(&[0x0e; ADDRESS], 1, 0, 7),
            |_| vec![encode::addressed(code::REMOVE, &B)],
        ],
        shorter: 0,
    },
    Alphabet {
        name: "times",
        about: "ttl 2: expiries, lives of 0, touches back in time, a verification that lapses",
        limits: &[(2, 1, 2), (3, 2, 2), (3, 2, 400_000)],
        letters: &[
            |t| insert(&A, tick(t)),
            |t| along(&B, 1, encode::insert_with_ttl(&B, tick(t), 0)),
            |t| verified(&A, 1, tick(t)),
            |t| touch(&A, t.saturating_sub(1)),
            |t| touch(&B, tick(t)),
            |t| vec![encode::at(code::PURGE_EXPIRED, tick(t))],
            |t| {
                *t += VERIFIED_TTL_MS + 1;
                vec![encode::at(code::STATS, *t), encode::bare(code::NEXT_EXPIRY)]
            },
            |t| funded(&C, 1, LIGHT, tick(t)),
        ],
        shorter: 0,
    },
    Alphabet {
        name: "weights",
        about: "paths of 1, 17, 20 and 32 against amounts that cover them or do not",
        limits: &[(2, 1, 300_000), (3, 2, 300_000)],
        letters: &[
            |t| funded(&A, 1, LIGHT, tick(t)),
            |t| funded(&A, LIGHT_PATH + 1, 1, tick(t)),
            |t| funded(&A, LIGHT_PATH + 1, LIGHT + 1, tick(t)),
            |t| funded(&B, PLACES, WEIGHT_LIMIT, tick(t)),
            |t| verified(&A, LIGHT_PATH + 1, tick(t)),
            |t| stated(&A, LIGHT_PATH + 4, 4, tick(t)),
            |t| funded(&C, LIGHT_PATH + 4, 0, tick(t)),
            |t| funded(&C, 1, LIGHT + 4, tick(t)),
        ],
        shorter: 1,
    },
];

/// Where a walk over the sequences stands.
struct Walk<'a> {
    letters: &'a [Letter],
    stream: Stream,
    lines: Vec<u8>,
    dice: Dice,
    tally: &'a mut Tally,
    sequences: u64,
}

impl Walk<'_> {
    /// All sequences of up to so many letters more, each command compared once where it is a beginning of many; the longest
    /// ones are run whole too.
    fn on(&mut self, pair: &Pair, clock: u64, letters: usize) -> Result<(), Difference> {
        self.sequences += 1;
        let at = self.stream.commands.len();
        if letters == 0 {
            return pair.whole(&self.stream, &self.lines, Some(&mut self.dice)).map_err(|unlike| Difference { at, unlike });
        }
        let written = self.lines.len();
        for letter in self.letters {
            let (mut pair, mut clock) = (pair.clone(), clock);
            for command in letter(&mut clock) {
                self.stream.commands.push(command);
                let command = self.stream.commands.last().expect("it was pushed");
                let at = self.stream.commands.len() - 1;
                let reply = pair.step(command).map_err(|unlike| Difference { at, unlike })?;
                reply.write(&mut self.lines);
                self.tally.count(&reply);
            }
            self.on(&pair, clock, letters - 1)?;
            self.stream.commands.truncate(at);
            self.lines.truncate(written);
        }
        Ok(())
    }
}

/// All sequences of up to so many letters of an alphabet, at each of its limits: how many there were, or the first that
/// differs.
pub fn all(alphabet: &Alphabet, letters: usize, tally: &mut Tally) -> Result<u64, Box<(Stream, Difference)>> {
    let mut sequences = 0;
    for (rows, max, ttl) in alphabet.limits {
        let name = format!("sequences of alphabet {}", alphabet.name);
        let stream = Stream { name, rows: *rows, max: *max, ttl: *ttl, seq: 0, commands: Vec::new() };
        let pair = match Pair::start(&stream) {
            Ok(pair) => pair,
            Err(unlike) => return Err(Box::new((stream, Difference { at: 0, unlike }))),
        };
        let mut walk = Walk { letters: alphabet.letters, stream, lines: Vec::new(), dice: Dice(*rows), tally, sequences: 0 };
        if let Err(difference) = walk.on(&pair, 0, letters.saturating_sub(alphabet.shorter)) {
            return Err(Box::new((walk.stream, difference)));
        }
        sequences += walk.sequences;
    }
    Ok(sequences)
}
