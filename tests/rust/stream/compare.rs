//! The proved side beside the original: after every command, and whole.
use super::decode;
use super::encode;
use super::lines::{Reply, shown};
use super::original::{Original, caught};
use super::packed;
use super::proved::{Counts, Proved, Side, Stop, output};
use super::streams::Stream;
use super::tally::Tally;
use crate::driver::dice::Dice;
use crate::numbers::{self, code, refusal};

/// A run may ask for more room than its line has before it makes a command, which 01 leaves free; not for more than this.
pub const LINE: usize = 160;
const _: () = assert!(numbers::LINE <= LINE);

/// What is not as it should be, in words.
pub type Unlike = Vec<String>;

/// Both sides after the same commands.
#[derive(Clone)]
pub struct Pair {
    pub original: Original,
    /// what the original holds, packed
    memory: Vec<u8>,
    counts: Counts,
    proved: Proved,
}

impl Pair {
    /// Both at the stream's start.
    pub fn start(stream: &Stream) -> Result<Pair, Unlike> {
        let original = Original::new(stream.rows, stream.max, stream.ttl, stream.seq);
        let memory = packed::after_fresh(&original, Proved::before(stream.rows));
        let proved = Proved::start(stream).map_err(|why| vec![why])?;
        let pair = Pair { original, memory, counts: Counts::STARTED, proved };
        let said = pair.unlike(&pair.proved);
        if said.is_empty() { Ok(pair) } else { Err(said) }
    }

    /// One command on both sides, as a run of its own.
    pub fn step(&mut self, command: &[u8]) -> Result<Reply, Unlike> {
        let (original, memory) = (&mut self.original, &mut self.memory);
        let made = caught(|| {
            let (reply, _) = original.command(command);
            // what takes the original shared, or is not made on it, leaves the memory as it is
            if reply.refusal == 0 && !matches!(reply.code, code::ELEMENT | code::GET | code::STATS | code::NEXT_EXPIRY) {
                packed::write(original, memory);
            }
            reply
        });
        let reply = made.map_err(|why| vec![format!("the original stopped, or is not as 01 and this driver have it: {why}")])?;
        let line = reply.line();
        self.counts.count(reply.refusal);
        let mut text = output(LINE);
        let report = self.proved.run(command, true, &mut text).map_err(|why| vec![why])?;
        let mut said = self.unlike(&self.proved);
        let text = &text[..report.written];
        if text != line {
            said.insert(0, format!("line: expected {:?}, found {:?}", shown(&line), shown(text)));
        }
        let stop = if reply.refusal == refusal::NO_COMMAND { Stop::Six } else { Stop::End };
        if report.stop != stop {
            said.push(format!("stop: expected {stop:?}, found {:?}", report.stop));
        }
        // how much of a command that is refused by 6 counts as used is not said by 01, and nothing reads on behind it
        if reply.refusal != refusal::NO_COMMAND && report.used != command.len() {
            said.push(format!("bytes used: expected {}, found {}", command.len(), report.used));
        }
        if said.is_empty() { Ok(reply) } else { Err(said) }
    }

    /// Memory, pending path, counts and what was handed back last, where they differ.
    fn unlike(&self, proved: &Proved) -> Unlike {
        let mut said = Vec::new();
        let pending = packed::pending(self.original.pending());
        if proved.pending() != pending {
            said.extend(packed::pending_unlike(&pending, &proved.pending()));
        }
        if proved.state() != self.memory {
            said.extend(packed::unlike(&self.memory, proved.state(), self.original.rows));
        }
        if proved.counts() != self.counts {
            said.push(format!("tally: expected {:?}, found {:?}", self.counts, proved.counts()));
        }
        said.extend(self.original.handed().unlike(proved.handed()));
        said
    }

    /// The stream whole on other memory, each run in one piece or in chunks of input and output: its lines together are
    /// `lines`, and it ends as this pair stands.
    pub fn whole(&self, stream: &Stream, lines: &[u8], mut dice: Option<&mut Dice>) -> Result<(), Unlike> {
        let mut proved = Proved::start(stream).map_err(|why| vec![why])?;
        let mut text = Vec::new();
        let mut run_all = || -> Result<(), String> {
            for run in stream.runs() {
                let mut bytes = run.bytes;
                if run.six && !run.cut {
                    // a run stops after a 6: this would be seen
                    bytes.extend(encode::fresh(0, 0));
                    bytes.extend(encode::bare(code::NEXT_EXPIRY));
                }
                match &mut dice {
                    None => piece(&mut proved, &bytes, &mut text, lines.len() + LINE)?,
                    Some(dice) => chunks(&mut proved, &bytes, &mut text, dice)?,
                }
            }
            Ok(())
        };
        let mut said: Unlike = run_all().err().into_iter().collect();
        if text != lines {
            let at = text.iter().zip(lines).take_while(|(a, b)| a == b).filter(|(a, _)| **a == b'\n').count();
            let nth = |all: &[u8]| all.split(|b| *b == b'\n').nth(at).map(shown).unwrap_or_default();
            said.push(format!("line {}: expected {:?}, found {:?}", at + 1, nth(lines), nth(&text)));
        }
        said.extend(self.unlike(&proved));
        if said.is_empty() {
            return Ok(());
        }
        said.insert(0, format!("run whole, {}:", if dice.is_none() { "in one piece" } else { "in chunks" }));
        Err(said)
    }
}

/// One run, all its input lent at once, and output enough for the lines that are expected.
fn piece(proved: &mut Proved, bytes: &[u8], text: &mut Vec<u8>, room: usize) -> Result<(), String> {
    let mut out = output(room);
    let report = proved.run(bytes, true, &mut out)?;
    text.extend_from_slice(&out[..report.written]);
    match report.stop {
        Stop::Six => Ok(()),
        Stop::End if report.used == bytes.len() => Ok(()),
        stop => Err(format!("said {stop:?}, with {} of {} bytes used", report.used, bytes.len())),
    }
}

/// One run, its input lent in growing pieces and its output taken in small ones.
fn chunks(proved: &mut Proved, bytes: &[u8], text: &mut Vec<u8>, dice: &mut Dice) -> Result<(), String> {
    // byte by byte only where that is not long
    let steps: &[usize] = if bytes.len() < 4000 { &[1, 30, 90, 400] } else { &[400, 5000, 20000] };
    let step = dice.pick(steps);
    let rooms: &[usize] = if bytes.len() < 4000 { &[LINE, 240, 1000] } else { &[1000, 8000] };
    let (mut from, mut to) = (0, 0);
    let mut starved = false;
    loop {
        let last = to == bytes.len() && dice.chance(70);
        // an output that is too short for a line gets none; the next one is longer
        let room = if !starved && dice.chance(5) { dice.below(LINE) } else { dice.pick(rooms) + dice.below(20) };
        let mut out = output(room);
        let report = proved.run(&bytes[from..to], last, &mut out)?;
        text.extend_from_slice(&out[..report.written]);
        from += report.used;
        starved = false;
        match report.stop {
            Stop::Six => return Ok(()),
            Stop::End if from < to => return Err(format!("said End with {} bytes of input left", to - from)),
            Stop::End if last => return Ok(()),
            Stop::Cut if last => return Err("said Cut where no more input comes".to_string()),
            Stop::Cut if !decode::cut(&bytes[from..to]) => return Err("said Cut where no command is cut".to_string()),
            Stop::End | Stop::Cut => to = bytes.len().min(to + 1 + dice.below(step)),
            Stop::Full if room - report.written >= LINE => {
                return Err(format!("said Full with {} bytes of output free", room - report.written));
            }
            Stop::Full => starved = true,
        }
    }
}

/// Whether lines or the end differ where each run is made in one piece: what a search can afford to ask of a long stream.
pub fn ends_unlike(stream: &Stream) -> bool {
    let Ok(mut pair) = Pair::start(stream) else { return true };
    let mut lines = Vec::new();
    let made = caught(|| {
        for command in &stream.commands {
            let (reply, _) = pair.original.command(command);
            reply.write(&mut lines);
            pair.counts.count(reply.refusal);
        }
        packed::write(&pair.original, &mut pair.memory);
    });
    made.is_err() || pair.whole(stream, &lines, None).is_err()
}

/// A stream's difference: the commands that were alike before it, and what is unlike.
pub struct Difference {
    pub at: usize,
    pub unlike: Unlike,
}

/// The stream after every command, then whole, in one piece and in chunks.
pub fn compare(stream: &Stream, tally: &mut Tally) -> Result<(), Difference> {
    let mut pair = Pair::start(stream).map_err(|unlike| Difference { at: 0, unlike })?;
    let mut lines = Vec::new();
    for (at, command) in stream.commands.iter().enumerate() {
        let reply = pair.step(command).map_err(|unlike| Difference { at, unlike })?;
        reply.write(&mut lines);
        tally.count(&reply);
    }
    let mut dice = Dice(stream.commands.len() as u64);
    let whole = pair.whole(stream, &lines, None).and_then(|()| pair.whole(stream, &lines, Some(&mut dice)));
    whole.map_err(|unlike| Difference { at: stream.commands.len(), unlike })
}
