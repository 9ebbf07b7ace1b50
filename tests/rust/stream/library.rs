//! The proved command stream: the static library of the crate `streamlib`, behind one call.
use super::compare::LINE;
use super::handed::Handed;
use super::lines::{Reply, shown};
use super::packed::{self, PENDING};
use super::proved::{Counts, GUARD, GUARDED, Report, Side, Stop, output};
use super::streams::Stream;
use crate::numbers::{NUMBER, REPORT, SEQ, VALUES, code};

#[cfg(linked)]
use crate::functions::stream_run;

/// What only the original is asked for (`--record`) is compiled without the library.
#[cfg(not(linked))]
#[allow(clippy::too_many_arguments)]
unsafe fn stream_run(
    _: *mut u8,
    _: usize,
    _: *mut u8,
    _: usize,
    _: *const u8,
    _: usize,
    _: u8,
    _: *mut u8,
    _: usize,
    _: *mut u64,
    _: usize,
) {
    unreachable!("the proved library is not linked")
}

#[derive(Clone)]
pub struct Library {
    size: usize,
    state: Vec<u8>,
    pending: [u8; PENDING + GUARD],
    counts: Counts,
}

impl Side for Library {
    const NAME: &'static str = "the proved library";
    const OPTION: &'static str = "";
    const SETS_SEQ: bool = true;
    const HANDS_BACK: bool = false;

    fn before(rows: u64) -> Vec<u8> {
        packed::dirt(packed::size(rows))
    }

    /// By the command 00, on memory that is no state; then seq is set behind its back.
    fn start(stream: &Stream) -> Result<Self, String> {
        let mut state = Self::before(stream.rows);
        let size = state.len();
        state.resize(size + GUARD, GUARDED);
        let mut pending = [GUARDED; PENDING + GUARD];
        pending[..PENDING].fill(0);
        let mut library = Library { size, state, pending, counts: Counts::default() };
        let mut text = output(LINE);
        let report = library.run(&stream.fresh(), true, &mut text)?;
        let line = &text[..report.written];
        if line != Reply::new(code::FRESH, Ok([0; VALUES])).line() {
            return Err(format!("the line of the first fresh: found {:?}", shown(line)));
        }
        if stream.seq > 0 {
            library.state[SEQ..][..NUMBER].copy_from_slice(&stream.seq.to_le_bytes());
        }
        Ok(library)
    }

    fn state(&self) -> &[u8] {
        &self.state[..self.size]
    }

    fn pending(&self) -> [u8; PENDING] {
        *self.pending.first_chunk().expect("it is longer")
    }

    fn counts(&self) -> Counts {
        self.counts
    }

    fn handed(&self) -> &Handed {
        &Handed::Nothing
    }

    fn run(&mut self, input: &[u8], last: bool, output: &mut [u8]) -> Result<Report, String> {
        let room = output.len() - GUARD;
        let mut report = [u64::MAX, u64::MAX, u64::MAX, self.counts.done, self.counts.refused, u64::from(GUARDED)];
        // SAFETY: each pointer comes with the length of what it points to, and nothing else points there
        unsafe {
            stream_run(
                self.state.as_mut_ptr(),
                self.size,
                self.pending.as_mut_ptr(),
                PENDING,
                input.as_ptr(),
                input.len(),
                last.into(),
                output.as_mut_ptr(),
                room,
                report.as_mut_ptr(),
                REPORT,
            );
        }
        let guards = [&self.state[self.size..], &self.pending[PENDING..], &output[room..]];
        if guards.iter().any(|guard| guard.iter().any(|b| *b != GUARDED)) || report[REPORT] != u64::from(GUARDED) {
            return Err("bytes behind the lent parts were written".to_string());
        }
        self.counts = Counts { done: report[3], refused: report[4] };
        let stop = match report[2] {
            0 => Stop::End,
            1 => Stop::Cut,
            2 => Stop::Full,
            3 => Stop::Six,
            n => return Err(format!("the run stopped with {n}, which is no reason")),
        };
        if report[0] > input.len() as u64 || report[1] > room as u64 {
            return Err(format!("of {} bytes {} used, to {room} bytes {} written", input.len(), report[0], report[1]));
        }
        Ok(Report { used: report[0] as usize, written: report[1] as usize, stop })
    }
}
