//! The line that answers a command.
use crate::numbers::{DIGITS, VALUES, Values};

/// 01's number of a refusal, or 0, and its five numbers for a command.
#[derive(Clone, Copy, Debug, PartialEq, Eq)]
pub struct Reply {
    pub code: u8,
    pub refusal: u8,
    pub numbers: Values,
}

impl Reply {
    pub fn new(code: u8, answer: Result<Values, u8>) -> Self {
        match answer {
            Ok(numbers) => Reply { code, refusal: 0, numbers },
            Err(refusal) => Reply { code, refusal, numbers: [0; VALUES] },
        }
    }

    /// Writes the line. By hand and not by `format`, since the benchmark counts its time as the original's.
    pub fn write(&self, out: &mut Vec<u8>) {
        const HEX: &[u8; 16] = b"0123456789abcdef";
        out.extend_from_slice(&[HEX[usize::from(self.code >> 4)], HEX[usize::from(self.code & 15)], b' ', b'0' + self.refusal]);
        for number in self.numbers {
            out.push(b' ');
            decimal(number, out);
        }
        out.push(b'\n');
    }

    pub fn line(&self) -> Vec<u8> {
        let mut out = Vec::new();
        self.write(&mut out);
        out
    }
}

fn decimal(mut number: u64, out: &mut Vec<u8>) {
    let mut digits = [0; DIGITS];
    let mut at = digits.len();
    loop {
        at -= 1;
        digits[at] = b'0' + (number % 10) as u8;
        number /= 10;
        if number == 0 {
            break;
        }
    }
    out.extend_from_slice(&digits[at..]);
}

/// A line without its end, as text.
pub fn shown(line: &[u8]) -> String {
    String::from_utf8_lossy(line).trim_end_matches('\n').to_string()
}
