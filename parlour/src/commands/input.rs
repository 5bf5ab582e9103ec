//! Files and standard input.

use crate::file::{self, Sheet};
use crate::words::Fault;
use std::ffi::OsStr;
use std::fs::File;
use std::io::{self, Read};

/// The longest file, in bytes: far more than a good one needs.
const LONGEST: usize = 1 << 20;

/// What standard input is called in messages.
pub const STANDARD_INPUT: &str = "standard input";

/// What a file says, or standard input for `-`.
pub fn sheet(file: &OsStr, input: &mut dyn Read) -> Result<Sheet, Fault> {
    let bytes = bytes_of(file, input)?;
    file::read(&bytes)
}

/// What a file is called in messages.
pub fn name(file: &OsStr) -> String {
    match file.to_string_lossy() {
        text if text == "-" => STANDARD_INPUT.to_string(),
        text => text.into_owned(),
    }
}

fn bytes_of(file: &OsStr, input: &mut dyn Read) -> Result<Vec<u8>, Fault> {
    if file == "-" {
        return bytes(input);
    }
    let mut opened = File::open(file).map_err(unread)?;
    bytes(&mut opened)
}

pub fn bytes(from: &mut dyn Read) -> Result<Vec<u8>, Fault> {
    let mut bytes = Vec::new();
    let mut limited = from.take(LONGEST as u64 + 1);
    limited.read_to_end(&mut bytes).map_err(unread)?;
    if bytes.len() > LONGEST {
        return Err(Fault::unreadable(format!("longer than {LONGEST} bytes")));
    }
    Ok(bytes)
}

fn unread(error: io::Error) -> Fault {
    Fault::unreadable(format!("cannot be read: {error}"))
}
