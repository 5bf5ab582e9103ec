//! The program `parlour`.

#![deny(unsafe_code)]

use parlour::commands::run;
use parlour::library::CLibrary;
use parlour::words::Status;
use std::ffi::OsString;
use std::io::{self, Write};
use std::process::ExitCode;

fn main() -> ExitCode {
    let arguments: Vec<OsString> = std::env::args_os().skip(1).collect();
    let outcome = run(&arguments, &mut io::stdin().lock(), &CLibrary);
    let status = match print(&outcome.out) {
        Ok(()) => outcome.status,
        Err(error) => {
            complain(&format!("parlour: cannot write: {error}\n"));
            Status::Wrong
        }
    };
    complain(&outcome.err);
    ExitCode::from(status as u8)
}

fn print(text: &str) -> io::Result<()> {
    let mut output = io::stdout().lock();
    output.write_all(text.as_bytes())?;
    output.flush()
}

/// If this cannot be written either, the exit status is all that is left to tell.
fn complain(text: &str) {
    let _ = io::stderr().write_all(text.as_bytes());
}
