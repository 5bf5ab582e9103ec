//! Frames, taken one after the other.

use crate::words::{quoted, Fault};

pub struct Lines<'a> {
    /// Each with its newline, if it has one.
    rest: Vec<&'a [u8]>,
    /// The line that was taken last, and its number, counted from 1.
    line: &'a [u8],
    number: usize,
}

impl<'a> Lines<'a> {
    pub fn new(bytes: &'a [u8]) -> Lines<'a> {
        let mut rest: Vec<&[u8]> = bytes.split_inclusive(|&byte| byte == b'\n').collect();
        rest.reverse();
        Lines {
            rest,
            line: &[],
            number: 0,
        }
    }

    pub fn are_over(&self) -> bool {
        self.rest.is_empty()
    }

    pub fn fault(&self, words: impl Into<String>) -> Fault {
        Fault::in_line(self.number, words)
    }

    /// The line that was taken last is not what is expected.
    pub fn expected(&self, what: &str) -> Fault {
        let line = String::from_utf8_lossy(self.line);
        let line = quoted(line.trim_end_matches('\n'));
        self.fault(format!("expected {what}, not {line}"))
    }

    /// The bytes of the next frame.
    pub fn next(&mut self) -> Result<Vec<u8>, Fault> {
        let next = self.rest.pop();
        self.number += 1;
        self.line = next.ok_or_else(|| self.fault("the lines end before this one"))?;
        let digits = self.line.strip_suffix(b"\n");
        let digits = digits.ok_or_else(|| self.fault("the line has no newline at its end"))?;
        bytes(digits).ok_or_else(|| self.expected("pairs of lower-case hexadecimal digits"))
    }

    /// The numbers of the next frame, four bytes each.
    pub fn numbers(&mut self, kind: u8, count: usize) -> Result<Vec<i32>, Fault> {
        let bytes = self.next()?;
        match bytes.split_first() {
            Some((first, rest)) if *first == kind && rest.len() == 4 * count => {
                let fours = rest.chunks_exact(4);
                Ok(fours
                    .map(|b| i32::from_be_bytes([b[0], b[1], b[2], b[3]]))
                    .collect())
            }
            _ => Err(self.expected(&format!("{kind:02x} and {} bytes", 4 * count))),
        }
    }

    /// Nothing follows.
    pub fn end(&mut self) -> Result<(), Fault> {
        if self.are_over() {
            return Ok(());
        }
        self.number += 1;
        Err(self.fault("no line is expected here"))
    }
}

/// The bytes of pairs of digits.
fn bytes(digits: &[u8]) -> Option<Vec<u8>> {
    let pairs = digits.chunks(2);
    pairs
        .map(|pair| match pair {
            [high, low] => Some(16 * digit(*high)? + digit(*low)?),
            _ => None,
        })
        .collect()
}

fn digit(byte: u8) -> Option<u8> {
    match byte {
        b'0'..=b'9' => Some(byte - b'0'),
        b'a'..=b'f' => Some(byte - b'a' + 10),
        _ => None,
    }
}
