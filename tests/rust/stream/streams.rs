//! A stream: the limits it starts fresh at, and its commands.
use super::decode;
use super::differences;
use super::encode;
use super::packed::hex;
use super::proved::{Proved, Side};

#[derive(Clone)]
pub struct Stream {
    /// where it comes from
    pub name: String,
    pub rows: u64,
    pub max: u64,
    pub ttl: u64,
    /// set behind fresh's back, to reach number 3
    pub seq: u64,
    /// The bytes of each; the ones that are damaged are refused by 6. A run stops after one of these, and the next
    /// command begins another run on the same memory.
    pub commands: Vec<Vec<u8>>,
}

/// One run: its commands up to and with the first that is refused by 6, as bytes.
pub struct Run {
    pub bytes: Vec<u8>,
    /// its last command is cut, so nothing can stand behind it
    pub cut: bool,
    pub six: bool,
}

impl Stream {
    pub fn runs(&self) -> Vec<Run> {
        let mut runs = Vec::new();
        let mut bytes = Vec::new();
        for command in &self.commands {
            bytes.extend_from_slice(command);
            if decode::command(command).is_none() {
                runs.push(Run { bytes: std::mem::take(&mut bytes), cut: decode::cut(command), six: true });
            }
        }
        if !bytes.is_empty() {
            runs.push(Run { bytes, cut: false, six: false });
        }
        runs
    }

    /// The command that starts it on any memory.
    pub fn fresh(&self) -> Vec<u8> {
        encode::fresh(self.max, self.ttl)
    }

    /// Says where it cannot start fresh.
    pub fn startable(&self) -> Result<(), String> {
        if self.max > u64::from(u16::MAX) || differences::fresh_refused(self.rows, self.max).is_some() {
            return Err(format!("fresh is refused by 5 at {} rows and max {}", self.rows, self.max));
        }
        Ok(())
    }

    /// Whether the proved side cannot be brought to its start.
    pub fn left_out(&self) -> bool {
        self.seq > 0 && !Proved::SETS_SEQ
    }

    /// Runs as hex, with a comma between them.
    pub fn hex(&self) -> String {
        self.runs().iter().map(|run| hex(&run.bytes)).collect::<Vec<_>>().join(",")
    }

    /// Commands from runs as hex.
    pub fn commands_of(text: &str) -> Result<Vec<Vec<u8>>, String> {
        let text: String = text.chars().filter(|c| !c.is_whitespace()).collect();
        let mut commands = Vec::new();
        for run in text.split(',') {
            let digits: Option<Vec<u8>> = run.chars().map(|c| c.to_digit(16).map(|d| d as u8)).collect();
            let digits = digits.filter(|d| d.len() % 2 == 0).ok_or("the bytes are not in hex, two digits each")?;
            let bytes: Vec<u8> = digits.chunks(2).map(|d| d[0] * 16 + d[1]).collect();
            commands.extend(decode::split(&bytes));
        }
        Ok(commands)
    }

    /// The options that run it again, with its bytes as they are named.
    pub fn options(&self, bytes: &str) -> String {
        let seq = if self.seq == 0 { String::new() } else { format!(" --seq {}", self.seq) };
        format!("{}--rows {} --max {} --ttl {}{seq} --bytes {bytes}", Proved::OPTION, self.rows, self.max, self.ttl)
    }
}
