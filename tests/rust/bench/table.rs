//! The figures as text.
use super::Round;
use super::sides::rows;
use std::fmt::Write;

pub struct Table {
    rounds: usize,
    rows: Vec<[String; 7]>,
}

const HEAD: [&str; 7] = ["rows", "max", "calls", "original", "unchecked", "ratio (least to most)", "public"];

const NOTES: &str = "Nanoseconds a call: the median of the rounds. `rows` are those of the memory. `unchecked` is the form for a memory that is sound,
through the crate of rust/, which uses it; `public` the form that asks first whether the memory is sound, through the C functions. Ratio:
`unchecked` over the original's time in the same round, the median, with the least and the most of the rounds. Below 1 `unchecked`
is faster. Every side makes the same calls in one process, built for release; before each round its cache is made and filled anew, and what
it answers is compared. The processor's caches were not cleared: each round runs warm after its filling. A call that takes a path is
given one of its own, cloned within the time. Paths have 6 elements.
";

fn middle(all: impl Iterator<Item = f64>) -> (f64, f64, f64) {
    let mut all: Vec<f64> = all.collect();
    all.sort_by(f64::total_cmp);
    (all[all.len() / 2], all[0], all[all.len() - 1])
}

impl Table {
    pub fn new(rounds: usize) -> Self {
        Self { rounds, rows: Vec::new() }
    }

    pub fn head(&self) {
        println!("{}", line(&HEAD.map(str::to_string)));
    }

    pub fn row(&mut self, max: usize, name: &str, rounds: &[Round]) {
        let (ratio, least, most) = middle(rounds.iter().map(|r| r.ours / r.original));
        let time = |of: fn(&Round) -> f64| format!("{:.0}", middle(rounds.iter().map(of)).0);
        let cells = [
            rows(max).to_string(),
            max.to_string(),
            name.to_string(),
            time(|r| r.original),
            time(|r| r.ours),
            format!("{ratio:.2} ({least:.2} to {most:.2})"),
            time(|r| r.public),
        ];
        println!("{}", line(&cells));
        self.rows.push(cells);
    }

    pub fn notes(&self) {
        print!("{} rounds.\n\n{NOTES}", self.rounds);
    }

    pub fn write(&self, file: &str) -> std::io::Result<()> {
        let mut text = String::from("# Against the original\n\nMade by `tests/benchmark --write`.\n\n");
        let bars = |cells: &[String; 7]| format!("| {} |\n", cells.join(" | "));
        text += &bars(&HEAD.map(str::to_string));
        text += "|--:|--:|---|--:|--:|--:|--:|\n";
        for row in &self.rows {
            text += &bars(row);
        }
        let _ = write!(text, "\n{} rounds.\n\n{NOTES}", self.rounds);
        std::fs::write(file, text)
    }
}

fn line(cells: &[String; 7]) -> String {
    let [rows, max, calls, original, unchecked, ratio, public] = cells;
    format!("{rows:>4}{max:>5}  {calls:<30}{original:>10}{unchecked:>11}  {ratio:<22}{public:>9}")
}
