//! The proved side of a comparison: what it must have, and which of the two it is.
use super::handed::Handed;
use super::packed::PENDING;
use super::streams::Stream;

/// The side that this driver is compiled for.
#[cfg(not(through_crate))]
pub type Proved = super::library::Library;
#[cfg(through_crate)]
pub type Proved = super::by_crate::ByCrate;

/// Runs commands on a memory of its own.
pub trait Side: Clone {
    /// what a difference calls it
    const NAME: &'static str;
    /// the script's option for it, and a space
    const OPTION: &'static str;
    /// whether a stream can start at a seq, which no command sets
    const SETS_SEQ: bool;
    /// whether it hands back paths and entries, which lines do not show
    const HANDS_BACK: bool;

    /// What stands in memory of so many rows before the first fresh.
    fn before(rows: u64) -> Vec<u8>;

    /// At the stream's start: fresh at its limits, with an empty pending path.
    fn start(stream: &Stream) -> Result<Self, String>;

    fn state(&self) -> &[u8];
    fn pending(&self) -> [u8; PENDING];
    fn counts(&self) -> Counts;

    /// What the last command handed back beside its line.
    fn handed(&self) -> &Handed;

    /// Runs the commands of `input`; `last` where no more will come. The output is `output.len()` bytes less a guard: make
    /// it by `output`.
    fn run(&mut self, input: &[u8], last: bool, output: &mut [u8]) -> Result<Report, String>;
}

/// Why a run stopped.
#[derive(Clone, Copy, Debug, PartialEq, Eq)]
pub enum Stop {
    /// all input used
    End,
    /// the input ends within a command, and more may come
    Cut,
    /// the output has no room for the next line
    Full,
    /// a command was refused by 6
    Six,
}

#[derive(Clone, Copy, Debug, PartialEq, Eq, Default)]
pub struct Counts {
    pub done: u64,
    pub refused: u64,
}

impl Counts {
    /// As the first fresh leaves them.
    pub const STARTED: Counts = Counts { done: 1, refused: 0 };

    pub fn count(&mut self, refusal: u8) {
        if refusal == 0 {
            self.done += 1;
        } else {
            self.refused += 1;
        }
    }
}

#[derive(Debug)]
pub struct Report {
    pub used: usize,
    pub written: usize,
    pub stop: Stop,
}

/// Bytes behind each lent part, which must stay as they are.
pub const GUARD: usize = 64;
pub const GUARDED: u8 = 0xc3;

/// An output of so many bytes, with a guard behind it.
pub fn output(room: usize) -> Vec<u8> {
    vec![GUARDED; room + GUARD]
}
