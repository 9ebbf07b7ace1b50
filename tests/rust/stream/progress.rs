//! How far a comparison is: every few seconds on a terminal, else at each tenth.
use std::io::{IsTerminal, Write};
use std::time::{Duration, Instant};

pub struct Progress {
    all: u64,
    terminal: bool,
    started: Instant,
    said: Instant,
    tenth: u64,
}

const EVERY: Duration = Duration::from_secs(2);

impl Progress {
    pub fn new(all: u64) -> Self {
        let now = Instant::now();
        Progress { all: all.max(1), terminal: std::io::stdout().is_terminal(), started: now, said: now, tenth: 0 }
    }

    /// So many commands are compared.
    pub fn at(&mut self, done: u64, what: &str) {
        let tenth = done * 10 / self.all;
        let due = if self.terminal { self.said.elapsed() > EVERY } else { tenth > self.tenth };
        if due {
            self.tenth = tenth;
            self.say(&format!("{done} of {} commands ({what})", self.all));
        }
    }

    pub fn say(&mut self, text: &str) {
        self.said = Instant::now();
        let seconds = self.started.elapsed().as_secs();
        if self.terminal {
            print!("\r\x1b[K{seconds} s: {text}");
            // a line that is not shown is no fault
            let _ = std::io::stdout().flush();
        } else {
            println!("{seconds} s: {text}");
        }
    }

    pub fn end(&mut self) {
        if self.terminal {
            print!("\r\x1b[K");
        }
    }
}
