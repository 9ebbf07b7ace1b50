//! Recorded vectors: a fixed list of streams with the original's lines and what it then holds, for programs that replay
//! them without the original. crates/vectors does: its file `stdin` is what is written here, and it reads 65,536 bytes of it.
use super::decode;
use super::encode;
use super::make;
use super::original::Original;
use super::packed::{self, hex};
use super::profiles::TASTES;
use super::streams::Stream;
use super::words::{A, B, C, Commands, D, along, funded, insert, stated, touch, verified};
use crate::driver::calls::Inside;
use crate::numbers::{
    ADDRESS, ADDRS_PER_ENTRY, Addr, BYTE, COORDRUN_ROWS, CREATED_AT, ELEMENT, PLACES, ROW, UPTO, WEIGHT_LIMIT, code,
};

/// The format, at the head of the file. The script's help says the same.
fn format_told() -> String {
    let behind = ROW - CREATED_AT;
    format!(
        "\
# Command streams of document 01 with the answers of the original Rust. Written by tests/stream-against-rust --record FILE: the
# streams, and the seeds of those that are drawn, are fixed in tests/rust/stream/record.rs.
# A line that begins with # is for readers. Each stream is:
#   stream R MAX TTL                the memory has R rows; it starts fresh at MAX and TTL, with an empty pending path
#   in HEX                          the bytes of the run, all on one line
#   out CODE REFUSAL N N N N N      one for each command, the line of 01 behind 'out '; the run stops after a 6
#   head MAX TTL SEQ STORED COUNT   the head after the run
#   row HEX                         COUNT of these, in key order: key {ADDRESS} bytes, path length {BYTE}, so many places of {ELEMENT}, then
#                                   the {behind} bytes that docs/PACKING.md has behind the {PLACES} places (created_at .. weight);
#                                   the places left out are zero, and so are the rows behind the last
#   end
"
    )
}

/// A case: what it shows, rows, max, ttl, and the bytes.
struct Case {
    about: String,
    rows: u64,
    max: u64,
    ttl: u64,
    bytes: Vec<u8>,
}

fn case(about: &str, (rows, max, ttl): (u64, u64, u64), commands: Vec<Commands>) -> Case {
    Case { about: about.to_string(), rows, max, ttl, bytes: commands.concat().concat() }
}

fn one(command: Vec<u8>) -> Commands {
    vec![command]
}

fn get(key: &Addr, time: u64) -> Commands {
    one(encode::keyed_at(code::GET, key, time))
}

fn demote(key: &Addr) -> Commands {
    one(encode::addressed(code::DEMOTE, key))
}

fn next() -> Commands {
    one(encode::bare(code::NEXT_EXPIRY))
}

fn stats(time: u64) -> Commands {
    one(encode::at(code::STATS, time))
}

/// Document 01's Table P and its example, its refusals but 1 and 3 (which no stream reaches from fresh), and its errors
/// close at hand.
fn chosen() -> Vec<Case> {
    const TWO: (u64, u64, u64) = (COORDRUN_ROWS, 2, 300_000);
    let run = (COORDRUN_ROWS, 8, 300_000);
    let mtu = |key, time, mtu| along(key, 1, encode::insert_verified_with_path_mtu(key, time, mtu));
    let with_ttl = |key, time, ttl| along(key, 1, encode::insert_with_ttl(key, time, ttl));
    let kinds = |code, kind| along(&A, 1, encode::paid(code, &A, 0, kind, ADDRS_PER_ENTRY));
    let bytes = |bytes: &[u8]| one(bytes.to_vec());
    let example = || {
        let aa = crate::driver::calls::Elem { addr: A, sequence: 0, timestamp: 0 };
        vec![one(encode::element(&aa)), one(encode::paid(code::INSERT_FUNDED, &A, 5, UPTO, 15)), get(&A, 5)]
    };
    vec![
        case("the example of 01", run, example()),
        case(
            "P1: lengths 1 and 16 weigh 16 (17: see P7)",
            (2, 1, 300_000),
            vec![funded(&A, 1, 99, 0), funded(&B, 16, 99, 0), one(encode::bare(code::CLEAR))],
        ),
        case("P2: Q at max 0 is 1", (1, 0, 300_000), vec![one(encode::fresh(0, 7)), one(encode::fresh(1, 7)), stats(0)]),
        case("P2: Q at max 63 is 1", (64, 8, 300_000), vec![one(encode::fresh(63, 7)), one(encode::fresh(64, 8)), stats(0)]),
        case("P2: Q at max 64 is 2", (66, 8, 300_000), vec![one(encode::fresh(64, 7)), one(encode::fresh(65, 8)), stats(0)]),
        case(
            "P3: ttl 10, set at 5: read at 15, gone at 16",
            (24, 2, 10),
            vec![insert(&A, 5), get(&A, 15), get(&A, 16), touch(&A, 16), touch(&A, 5)],
        ),
        case(
            "P4: verified at 0 until 300000 (ttl 400000, so that the row does not expire)",
            (24, 2, 400_000),
            vec![verified(&A, 1, 0), insert(&A, 300_000), insert(&A, 300_001)],
        ),
        case("P5: max 0", (24, 0, 300_000), vec![insert(&A, 0), funded(&B, 1, 16, 0), funded(&C, 1, 15, 0)]),
        case("P6: A verified at 0, B at 300000", (24, 1, 300_000), vec![verified(&A, 1, 0), funded(&B, 1, 16, 300_000)]),
        case("P6: A verified at 0, B at 300001", (24, 1, 300_000), vec![verified(&A, 1, 0), funded(&B, 1, 16, 300_001)]),
        case(
            "P7: length 17 into an empty main of max 1; a shallow hint keeps the weight",
            (2, 1, 300_000),
            vec![funded(&A, 17, 17, 0), funded(&A, 1, 0, 1)],
        ),
        case("P8: probation weight 20, U16", TWO, vec![funded(&A, 20, 0, 0), funded(&A, 1, 16, 1)]),
        case("P8: probation weight 20, U20", TWO, vec![funded(&A, 20, 0, 0), funded(&A, 1, 20, 1)]),
        case(
            "P9: main 16, length 18, U1 and U2",
            TWO,
            vec![insert(&A, 0), funded(&A, 18, 1, 1), funded(&A, 18, 2, 2), one(encode::addressed(code::REMOVE, &A))],
        ),
        case(
            "P10: B leaves, examined 2",
            TWO,
            vec![funded(&A, 1, 16, 1), funded(&B, 1, 16, 2), touch(&A, 3), funded(&C, 1, 16, 4), next()],
        ),
        case("refusal 2: no path, by every insert", run, {
            let at = |code| one(encode::keyed_at(code, &A, 0));
            let paid = |code| one(encode::paid(code, &A, 0, UPTO, ADDRS_PER_ENTRY));
            let ttl = one(encode::insert_with_ttl(&A, 0, 1));
            vec![
                at(code::INSERT),
                ttl,
                paid(code::INSERT_FUNDED),
                paid(code::INSERT_STATED),
                at(code::INSERT_VERIFIED),
                one(encode::insert_verified_with_path_mtu(&A, 0, 9)),
                insert(&A, 1),
            ]
        }),
        case(
            "refusal 2: a 33rd element is dropped",
            run,
            vec![funded(&A, PLACES + 1, WEIGHT_LIMIT, 0), get(&A, 0), one(encode::addressed(code::REMOVE, &A))],
        ),
        case(
            "refusal 4, and the pending path empty after it",
            (2, 1, 300_000),
            vec![
                verified(&A, 1, 0),
                verified(&B, 1, 0),
                one(encode::keyed_at(code::INSERT_VERIFIED, &B, 1)),
                verified(&B, 1, 300_001),
            ],
        ),
        case(
            "refusal 4 for a key in probation",
            (2, 1, 300_000),
            vec![verified(&A, 1, 0), funded(&B, 1, 0, 0), verified(&B, 1, 1), verified(&A, 1, 2)],
        ),
        case(
            "main over max, while M rows last",
            (4, 2, 300_000),
            vec![verified(&A, 1, 0), verified(&B, 1, 0), verified(&C, 1, 0), verified(&D, 1, 0)],
        ),
        case(
            "refusal 5 leaves the state",
            run,
            vec![insert(&A, 0), one(encode::fresh(24, 1)), get(&A, 0), one(encode::fresh(23, 1)), get(&A, 0)],
        ),
        case("refusal 6: ff", run, vec![bytes(&[0xff]), insert(&A, 0)]),
        case("refusal 6: a command cut", run, vec![insert(&A, 0), bytes(&encode::keyed_at(code::GET, &A, 0)[..24])]),
        case(
            "refusal 6: funding kind 2",
            run,
            vec![kinds(code::INSERT_FUNDED, 1), kinds(code::INSERT_STATED, 0), kinds(code::INSERT_FUNDED, 2), insert(&B, 0)],
        ),
        case("an expired row is written as a new one", (24, 2, 10), vec![mtu(&A, 0, 1280), funded(&A, 1, 0, 11), get(&A, 11)]),
        case(
            "victims stay where room fails",
            (4, 3, 300_000),
            vec![
                insert(&A, 0),
                verified(&B, 1, 0),
                verified(&C, 1, 0),
                along(&D, 17, encode::keyed_at(code::INSERT, &D, 1)),
                get(&A, 1),
            ],
        ),
        case("clear keeps seq", run, vec![insert(&A, 0), insert(&B, 0), one(encode::bare(code::CLEAR)), insert(&C, 0)]),
        case(
            "a statement of its own grows without room",
            TWO,
            vec![verified(&A, 1, 0), verified(&B, 1, 0), stated(&A, 17, 1, 1)],
        ),
        case(
            "parked, demoted, returned",
            (24, 2, 300_000),
            vec![verified(&A, 1, 0), verified(&B, 1, 1), insert(&C, 2), demote(&A), demote(&C), insert(&C, 300_002)],
        ),
        case(
            "MTU kept and cleared",
            run,
            vec![
                mtu(&A, 0, 1280),
                demote(&A),
                insert(&A, 1),
                mtu(&B, 0, 0),
                one(encode::addressed(code::CLEAR_PATH_MTU, &B)),
                verified(&A, 1, 1),
            ],
        ),
        case(
            "a life of 0, the next expiry, a purge",
            run,
            vec![next(), with_ttl(&A, 5, 0), insert(&B, 1), next(), one(encode::at(code::PURGE_EXPIRED, 6)), next()],
        ),
        case(
            "a mean whose total passes 2^64",
            run,
            vec![insert(&A, 0), insert(&B, 0), stats(1 << 63), stats(u64::MAX), stats(0)],
        ),
        case("sums stop at 2^64 - 1", run, vec![verified(&A, 1, u64::MAX - 1), insert(&A, u64::MAX), next(), get(&A, u64::MAX)]),
        case("sweeps by address and by root", run, {
            let sweep = |code, addr: Addr| one(encode::addressed(code, &addr));
            vec![
                insert(&A, 0),
                funded(&B, 2, 99, 0),
                funded(&C, 3, 99, 0),
                sweep(code::INVALIDATE_VIA_NODE, A),
                sweep(code::INVALIDATE_OTHER_ROOTS, [0x10; ADDRESS]),
                sweep(code::INVALIDATE_OTHER_ROOTS, B),
                stats(5),
            ]
        }),
    ]
}

/// Profile, seed, commands; paths are cut short to keep the file small.
const DRAWN: [(&str, u64, usize); 9] = [
    ("few-keys", 3, 20),
    ("coordrun", 1, 20),
    ("verified", 2, 16),
    ("verified", 5, 16),
    ("funding", 4, 18),
    ("foreign-bytes", 9, 14),
    ("sweeps", 3, 16),
    ("late-times", 1, 20),
    ("short-lives", 6, 14),
];

fn drawn() -> Vec<Case> {
    let mut cases = Vec::new();
    for (name, seed, length) in DRAWN {
        let mut taste = TASTES.iter().find(|t| t.name == name).expect("it is named above").clone();
        taste.lengths = &[1, 1, 1, 2];
        taste.disorder = 0;
        let (rows, max) = taste.limits[seed as usize % taste.limits.len()];
        let stream = make::at(&taste, seed, 0, (rows, max), length);
        // the run that is recorded stops after a 6
        let bytes = stream.runs().into_iter().next().map(|run| run.bytes).unwrap_or_default();
        cases.push(Case { about: stream.name, rows, max, ttl: stream.ttl, bytes });
    }
    cases
}

fn written(case: &Case) -> Result<String, String> {
    let commands = decode::split(&case.bytes);
    Stream { name: case.about.clone(), rows: case.rows, max: case.max, ttl: case.ttl, seq: 0, commands }.startable()?;
    let mut original = Original::new(case.rows, case.max, case.ttl, 0);
    let mut lines = Vec::new();
    original.run(&case.bytes, &mut lines);
    let mut text = format!("# {}\nstream {} {} {}\nin {}\n", case.about, case.rows, case.max, case.ttl, hex(&case.bytes));
    for line in String::from_utf8_lossy(&lines).lines() {
        text += &format!("out {line}\n");
    }
    let [max, ttl, seq, stored, count] = packed::head(&original);
    text += &format!("head {max} {ttl} {seq} {stored} {count}\n");
    for row in original.cache().rows() {
        let (front, back) = packed::row_parts(&row);
        text += &format!("row {}{}\n", hex(&front), hex(&back));
    }
    Ok(text + "end\n")
}

pub fn write(file: &str) -> Result<(), String> {
    let cases: Vec<Case> = chosen().into_iter().chain(drawn()).collect();
    let mut text = format_told();
    for case in &cases {
        text += &written(case)?;
    }
    let longest = text.lines().map(str::len).max().unwrap_or(0);
    std::fs::write(file, &text).map_err(|e| format!("{file}: {e}"))?;
    println!("{} streams, {} bytes, the longest line {longest}, in {file}", cases.len(), text.len());
    Ok(())
}
