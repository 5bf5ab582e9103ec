//! What the tests share: random files as a person might write them, the program run on
//! them, and its output read again.
#![allow(dead_code)]

pub mod output;
pub mod writing;

use parlour::commands::{run, Outcome};
use parlour::library::{CLibrary, Library};
use std::ffi::OsString;
use std::path::{Path, PathBuf};

/// The program on standard input.
pub fn parlour(arguments: &[&str], input: &[u8]) -> Outcome {
    parlour_with(&CLibrary, arguments, input)
}

/// The same with another library.
pub fn parlour_with(library: &dyn Library, arguments: &[&str], mut input: &[u8]) -> Outcome {
    let arguments: Vec<OsString> = arguments.iter().map(OsString::from).collect();
    run(&arguments, &mut input, library)
}

/// A file for the program, in the tests' own folder.
pub struct Stored(PathBuf);

impl Stored {
    /// `name` is the test's, since tests run at the same time.
    pub fn new(name: &str, bytes: &[u8]) -> Stored {
        let path = Path::new(env!("CARGO_TARGET_TMPDIR")).join(name);
        std::fs::write(&path, bytes).expect("the folder can be written");
        Stored(path)
    }

    pub fn path(&self) -> &str {
        self.0.to_str().expect("a path of ASCII")
    }
}

impl Drop for Stored {
    fn drop(&mut self) {
        let _ = std::fs::remove_file(&self.0);
    }
}
