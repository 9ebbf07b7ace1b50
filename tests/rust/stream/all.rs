//! The comparison at scale: every profile's streams, all short sequences, and the first difference in short.
use super::End;
use super::compare::{Difference, compare};
use super::make;
use super::profiles::{TASTES, Taste};
use super::progress::Progress;
use super::sequences::{self, ALPHABETS};
use super::show;
use super::shrink;
use super::streams::Stream;
use super::tally::Tally;
use crate::numbers::MAX_ROWS;

/// What is asked for.
pub struct All<'a> {
    pub commands: u64,
    pub seed: u64,
    pub letters: usize,
    pub profile: Option<&'a str>,
    pub rows: Option<u64>,
    /// a file for the stream that is tried now
    pub current: &'a str,
    pub tally: bool,
}

/// Bytes in hex that are longer than this go to a file.
const LONG: usize = 8000;

impl All<'_> {
    pub fn run(&self) -> Result<(), End> {
        let wanted = |name: &str| self.profile.is_none_or(|profile| profile == name);
        let tastes: Vec<&Taste> = TASTES.iter().filter(|t| wanted(t.name)).collect();
        // sequences have rows of their own
        let alphabets: Vec<_> = ALPHABETS.iter().filter(|a| wanted(a.name) && self.rows.is_none()).collect();
        if tastes.is_empty() && alphabets.is_empty() {
            return Err(End::NotTried("there is no such profile (--help lists them), or it does not take --rows".to_string()));
        }
        if self.rows.is_some_and(|rows| !(1..=MAX_ROWS).contains(&rows)) {
            return Err(End::NotTried(format!("a state has 1 to {MAX_ROWS} rows")));
        }
        let mut all = Tally::default();
        let mut streams = 0;
        let mut table = String::new();
        let shares: u64 = tastes.iter().map(|t| t.share).sum();
        let mut progress = Progress::new(self.commands);
        for taste in tastes {
            let mut tally = Tally::default();
            let mut index = 0;
            let due = (self.commands * taste.share).div_ceil(shares);
            while tally.commands + tally.skipped_commands < due {
                let stream = make::stream(taste, self.seed, index, self.rows);
                index += 1;
                if stream.left_out() {
                    tally.skip(&stream);
                    continue;
                }
                self.now_at(&stream);
                let compared = compare(&stream, &mut tally);
                compared.map_err(|difference| self.differs(&stream, difference, all.commands + tally.commands))?;
                progress.at(all.commands + tally.commands, taste.name);
            }
            table += &line(taste.name, index, "streams", &tally);
            streams += index - tally.skipped_streams;
            all.add(&tally);
        }
        let random = all.commands;
        for alphabet in alphabets {
            let mut tally = Tally::default();
            progress.say(&format!("sequences of up to {} letters of alphabet {}", self.letters, alphabet.name));
            let made = sequences::all(alphabet, self.letters, &mut tally);
            let sequences = made.map_err(|found| self.differs(&found.0, found.1, all.commands + tally.commands))?;
            table += &line(alphabet.name, sequences, "sequences", &tally);
            all.add(&tally);
        }
        progress.end();
        if all.commands == 0 && all.skipped_streams > 0 {
            return Err(End::NotTried("all streams of this profile are left out; --help says why".to_string()));
        }
        print!("{table}");
        if self.tally {
            print!("{}", all.print());
        }
        let (sequences, seed) = (all.commands - random, self.seed);
        println!(
            "{} commands compared, of them {random} in {streams} streams of seed {seed} and {sequences} in sequences;",
            all.commands
        );
        let skipped = match all.skipped_streams {
            0 => String::new(),
            n => format!("; {n} streams of {} commands skipped", all.skipped_commands),
        };
        println!("{} were refused; streams and longest sequences were run whole too; 0 differences{skipped}", all.refused);
        Ok(())
    }

    /// Leaves the stream where it is found if the library dies on it.
    fn now_at(&self, stream: &Stream) {
        // without it the comparison is none the worse
        let _ = std::fs::write(self.current, format!("{}\n{}\n", stream.name, stream.options(&stream.hex())));
    }

    /// The options that run a stream again, its bytes in a file where they are long.
    fn again(&self, stream: &Stream) -> String {
        let (hex, file) = (stream.hex(), format!("{}-difference", self.current));
        if hex.len() > LONG && std::fs::write(&file, &hex).is_ok() {
            return stream.options(&format!("@{file}"));
        }
        stream.options(&hex)
    }

    /// Prints a difference, in a stream as short as is found.
    fn differs(&self, stream: &Stream, difference: Difference, compared: u64) -> End {
        let length = stream.commands.len();
        let place = if difference.at < length {
            format!("at command {} of {length}", difference.at + 1)
        } else {
            "run whole".to_string()
        };
        println!("\n{}: a difference, {place}; looking for a shorter stream", stream.name);
        let short = shrink::shrink(stream, difference.at);
        // the same once more, or what was found first
        match compare(&short, &mut Tally::default()) {
            Err(difference) => print!("\n{}", show::difference(&short, &difference)),
            Ok(()) => print!("\n{}", show::difference(stream, &difference)),
        }
        println!("\nto run it again: tests/stream-against-rust {}", self.again(&short));
        let commands = short.commands.len();
        println!(
            "{compared} commands compared before; {length} commands in the stream, {commands} in the one shown; 1 difference (seed {})",
            self.seed
        );
        End::Differs
    }
}

fn line(name: &str, made: u64, what: &str, tally: &Tally) -> String {
    if tally.skipped_streams > 0 {
        return format!("{name:<16}{made:>8} {what:<10}{:>10} commands, skipped\n", tally.skipped_commands);
    }
    format!(
        "{name:<16}{made:>8} {what:<10}{:>10} commands, {:>5} of them refused; 0 differences\n",
        tally.commands, tally.refused
    )
}
