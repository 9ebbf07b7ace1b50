//! Every state that one changed byte, or one field set to a telling number, makes of a sound one; and memory of every length
//! from 0 to 3 rows. Whether a state is sound is asked of a reading of document 01 that shares nothing with the proofs; the
//! proved libraries, of the command stream and of the exported calls, must refuse every call on an unsound state by 1 and leave
//! the memory, and refuse none by 1 on a sound one. Fresh must make every one of them sound that has the rows.

mod exported;
mod functions;
mod numbers;

use functions::stream_run;
use numbers::*;

/// The bytes of a pending path.
const PENDING: usize = PATH;

/// Runs commands, and gives the lines.
fn run(state: &mut [u8], pending: &mut [u8; PENDING], input: &[u8]) -> Vec<u8> {
    let mut output = [0u8; 8 * LINE];
    let mut report = [0u64; REPORT];
    // SAFETY: each pointer comes with the length of what it points to, and nothing else points there
    unsafe {
        stream_run(
            state.as_mut_ptr(),
            state.len(),
            pending.as_mut_ptr(),
            PENDING,
            input.as_ptr(),
            input.len(),
            1,
            output.as_mut_ptr(),
            output.len(),
            report.as_mut_ptr(),
            REPORT,
        );
    }
    output[..report[1] as usize].to_vec()
}

// ---- document 01: when a state is sound

fn sound(memory: &[u8]) -> bool {
    if memory.len() < HEAD {
        return false;
    }
    let rows = ((memory.len() - HEAD) / ROW) as u64;
    let [max, seq, stored, count] = [MAX_ENTRIES, SEQ, STORED_WEIGHT, ROW_COUNT].map(|at| number(&memory[at..][..NUMBER]));
    let q = (max / PROBATION_DIVISOR).max(1);
    if rows > MAX_ROWS || u128::from(rows) < u128::from(max) + u128::from(q) || count > rows {
        return false;
    }
    let (mut main, mut probation, mut weights, mut before) = (0, 0, 0, None);
    for row in memory[HEAD..].chunks_exact(ROW).take(count as usize) {
        let [len, mark, source, place, weight] = [PATH_LENGTH, MTU_MARK, SOURCE, PLACE, WEIGHT].map(|at| row[at]);
        let [until, first, stamp] = [VERIFIED_UNTIL, STAMP_FIRST, STAMP_SEQ].map(|at| number(&row[at..][..NUMBER]));
        let (length, weight) = (u64::from(len), u64::from(weight));
        let key = &row[KEY..][..ADDRESS];
        if before.is_some_and(|b| b >= key) {
            return false;
        }
        before = Some(key);
        let legal = place <= PROBATION && source <= HINT && mark <= SOME_MTU && (1..=PLACES).contains(&usize::from(len));
        let weighed = length.max(ADDRS_PER_ENTRY) <= weight && weight <= WEIGHT_LIMIT;
        let verified = source == VERIFIED;
        if !legal || !weighed || stamp > seq || !verified && until != 0 || place == PROBATION && verified {
            return false;
        }
        if place == PARKED && !(verified && first == until) {
            return false;
        }
        if place == PROBATION {
            probation += 1;
        } else {
            main += 1;
            weights += weight;
        }
    }
    main <= rows - q && probation <= q && stored == weights
}

// ---- the states

const TTL: u64 = 300_000;

fn key(n: u8) -> Addr {
    [n; ADDRESS]
}

fn command(code: u8, operands: &[&[u8]]) -> Vec<u8> {
    let mut bytes = vec![code];
    operands.iter().for_each(|o| bytes.extend_from_slice(o));
    bytes
}

fn element(n: u8) -> Vec<u8> {
    command(code::ELEMENT, &[&key(n), &7u64.to_le_bytes(), &9u64.to_le_bytes()])
}

/// Four rows at max 2: a parked one, a hint and a verified one with an MTU by use, one on probation.
fn full_state() -> Vec<u8> {
    let mut state = vec![0xa5; HEAD + 4 * ROW + 11];
    let mut pending = [0; PENDING];
    let at = |t: u64| t.to_le_bytes();
    let mut input = command(code::FRESH, &[&2u16.to_le_bytes(), &at(TTL)]);
    for (code, n, t, more) in [
        (code::INSERT_VERIFIED, 1, 0, vec![]),
        (code::INSERT_VERIFIED, 2, 0, vec![]),
        (code::INSERT_FUNDED, 3, 1, [&[UPTO][..], &at(ADDRS_PER_ENTRY)].concat()),
        (code::INSERT_VERIFIED_WITH_PATH_MTU, 4, 1, vec![0xdc, 5]),
    ] {
        input.extend(element(n));
        input.extend(command(code, &[&key(n), &at(t), &more]));
    }
    input.extend(command(code::DEMOTE, &[&key(2)]));
    let lines = run(&mut state, &mut pending, &input);
    let refused = lines.split(|b| *b == b'\n').any(|l| l.len() > 3 && l[3] != b'0');
    let places: Vec<u8> = (0..4).map(|i| state[HEAD + i * ROW + PLACE]).collect();
    assert!(!refused && places == [PARKED, BY_USE, PROBATION, BY_USE], "the state was not made: {}", String::from_utf8_lossy(&lines));
    state
}

/// Every call but fresh, with operands that reach the rows of `full_state`.
fn calls() -> Vec<Vec<u8>> {
    let t = 2u64.to_le_bytes();
    let (k, new) = (key(4), key(5));
    let upto = [&[UPTO][..], &40u64.to_le_bytes()].concat();
    vec![
        command(code::INSERT, &[&new, &t]),
        command(code::INSERT_WITH_TTL, &[&new, &t, &t]),
        command(code::INSERT_FUNDED, &[&k, &t, &upto]),
        command(code::INSERT_STATED, &[&k, &t, &upto]),
        command(code::INSERT_VERIFIED, &[&k, &t]),
        command(code::INSERT_VERIFIED_WITH_PATH_MTU, &[&new, &t, &[1, 2]]),
        command(code::GET, &[&k, &t]),
        command(code::GET_AND_TOUCH, &[&k, &t]),
        command(code::REMOVE, &[&k]),
        command(code::DEMOTE, &[&k]),
        command(code::CLEAR_PATH_MTU, &[&k]),
        command(code::PURGE_EXPIRED, &[&t]),
        command(code::CLEAR, &[]),
        command(code::INVALIDATE_VIA_NODE, &[&k]),
        command(code::INVALIDATE_OTHER_ROOTS, &[&k]),
        command(code::STATS, &[&t]),
        command(code::NEXT_EXPIRY, &[]),
    ]
}

/// The line of a command that is refused.
fn refused_by(code: u8, number: u8) -> Vec<u8> {
    format!("{code:02x} {number} 0 0 0 0 0\n").into_bytes()
}

struct Tried {
    calls: Vec<Vec<u8>>,
    pending: [u8; PENDING],
    unsound: u64,
    sound: u64,
    refused: u64,
    renewed: u64,
}

impl Tried {
    fn new() -> Tried {
        let mut pending = [0; PENDING];
        run(&mut [], &mut pending, &element(5));
        assert_eq!(pending[0], 1);
        Tried { calls: calls(), pending, unsound: 0, sound: 0, refused: 0, renewed: 0 }
    }

    /// All calls on this state, each on a copy of it.
    fn state(&mut self, state: &[u8], copy: &mut Vec<u8>, what: &dyn Fn() -> String) -> Result<(), String> {
        let expected = sound(state);
        *(if expected { &mut self.sound } else { &mut self.unsound }) += 1;
        for call in &self.calls {
            copy.clear();
            copy.extend_from_slice(state);
            let line = run(copy, &mut self.pending.clone(), call);
            let by_1 = line == refused_by(call[0], refusal::NOT_SOUND);
            if by_1 == expected || by_1 && copy != state {
                let said = if expected { "sound" } else { "not sound" };
                return Err(format!("{}: {said}, and {} answers {}", what(), format!("{:02x}", call[0]), String::from_utf8_lossy(&line)));
            }
            self.refused += u64::from(by_1);
        }
        self.exported(state, copy, expected, what)
    }

    /// The same through the exported calls; what a refused one writes beside the state is five zeros.
    fn exported(&mut self, state: &[u8], copy: &mut Vec<u8>, expected: bool, what: &dyn Fn() -> String) -> Result<(), String> {
        if exported::is_sound(state) != expected {
            return Err(format!("{}: is_sound says {}", what(), !expected));
        }
        for (which, name) in exported::CALLS.iter().enumerate() {
            copy.clear();
            copy.extend_from_slice(state);
            let said = exported::call(which, copy);
            let by_1 = said.refusal == refusal::NOT_SOUND;
            if by_1 == expected || by_1 && (said.values != [0; VALUES] || said.row_written || copy != state) {
                let kept = if copy == state { "as it was" } else { "changed" };
                return Err(format!("{}: {name} returns {} {:?}, the memory {kept}", what(), said.refusal, said.values));
            }
            self.refused += u64::from(by_1);
        }
        if !expected {
            copy.clear();
            copy.extend_from_slice(state);
            let fits = state.len() >= HEAD + 3 * ROW;
            let number = exported::fresh(copy, 2, TTL);
            if number != if fits { 0 } else { refusal::ROW_COUNT } || sound(copy) != fits || !fits && copy != state {
                return Err(format!("{}: fresh returns {number}", what()));
            }
            self.renewed += u64::from(fits);
        }
        Ok(())
    }
}

fn all() -> Result<(), String> {
    let base = full_state();
    assert!(sound(&base));
    let mut tried = Tried::new();
    let mut copy = Vec::new();
    let mut state = base.clone();
    tried.state(&state, &mut copy, &|| "the state itself".to_string())?;
    for at in 0..base.len() {
        for v in 0..=255 {
            state[at] = v;
            if v != base[at] {
                tried.state(&state, &mut copy, &|| format!("byte {at} set to {v}"))?;
            }
        }
        state[at] = base[at];
    }
    println!("bad-states: a byte changed: {} states not sound, {} still sound", tried.unsound, tried.sound);
    // the key and the places are no numbers; their bytes were changed above
    let in_a_row = ROW_FIELDS.into_iter().filter(|(_, at, _)| ![KEY, PATH_PLACES].contains(at));
    let in_rows = (0..4).flat_map(|i| in_a_row.clone().map(move |(_, at, n)| (HEAD + i * ROW + at, n)));
    for (at, n) in HEAD_FIELDS.into_iter().map(|(_, at, n)| (at, n)).chain(in_rows) {
        let was = number(&base[at..at + n]);
        let most = if n == NUMBER { u64::MAX } else { (1 << (8 * n)) - 1 };
        let places = PLACES as u64;
        let limits = [ADDRS_PER_ENTRY, places, places + 1, MAX_ROWS - 1, MAX_ROWS, MAX_ROWS + 1];
        let far = [1 << 32, 1 << 63, was.wrapping_sub(1), was.wrapping_add(1), u64::MAX - 1, u64::MAX];
        for v in [0, 1, 2].into_iter().chain(limits).chain(far) {
            let v = v & most;
            state[at..at + n].copy_from_slice(&v.to_le_bytes()[..n]);
            tried.state(&state, &mut copy, &|| format!("{n} bytes at {at} set to {v}"))?;
        }
        state[at..at + n].copy_from_slice(&base[at..at + n]);
    }
    // two rows exchanged, and a row twice
    for (a, b) in [(0, 1), (1, 2), (2, 3), (0, 3)] {
        let (x, y) = (HEAD + a * ROW, HEAD + b * ROW);
        state[x..x + ROW].copy_from_slice(&base[y..y + ROW]);
        tried.state(&state, &mut copy, &|| format!("row {b} also in place of row {a}"))?;
        state[y..y + ROW].copy_from_slice(&base[x..x + ROW]);
        tried.state(&state, &mut copy, &|| format!("rows {a} and {b} exchanged"))?;
        state.copy_from_slice(&base);
    }
    for len in 0..=HEAD + 3 * ROW {
        for fill in [0, 0xff] {
            let short = vec![fill; len];
            tried.state(&short, &mut copy, &|| format!("{len} bytes of {fill}"))?;
            let rows = len.saturating_sub(HEAD) / ROW;
            let mut fresh = short.clone();
            let line = run(&mut fresh, &mut [0; PENDING], &command(code::FRESH, &[&(rows as u16).to_le_bytes(), &[0; NUMBER]]));
            if line != refused_by(code::FRESH, refusal::ROW_COUNT) || fresh != short {
                return Err(format!("{len} bytes of {fill}: fresh at max {rows} answers {}", String::from_utf8_lossy(&line)));
            }
            let number = exported::fresh(&mut fresh, rows as u64, 0);
            if number != refusal::ROW_COUNT || fresh != short {
                return Err(format!("{len} bytes of {fill}: the exported fresh at max {rows} returns {number}"));
            }
        }
    }
    println!(
        "bad-states: {} states not sound, {} sound; {} calls refused by 1, the memory as it was; {} made sound by fresh",
        tried.unsound, tried.sound, tried.refused, tried.renewed
    );
    Ok(())
}

fn main() -> std::process::ExitCode {
    match all() {
        Ok(()) => std::process::ExitCode::SUCCESS,
        Err(why) => {
            println!("bad-states: {why}");
            std::process::ExitCode::FAILURE
        }
    }
}
