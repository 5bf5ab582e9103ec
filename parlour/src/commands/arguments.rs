//! The arguments behind a command: files, and no options.

use crate::words::{quoted, Fault};
use std::ffi::{OsStr, OsString};

pub fn usage(words: &str) -> Fault {
    Fault::unreadable(format!("{words}; parlour --help tells more"))
}

/// The file, if there is one, and nothing behind `most` of them.
pub fn at_most(most: usize, arguments: &[OsString]) -> Result<Option<&OsStr>, Fault> {
    arguments.iter().try_for_each(|file| checked(file))?;
    match arguments.get(most) {
        None => Ok(arguments.first().map(OsString::as_os_str)),
        Some(more) => {
            let more = quoted(&more.to_string_lossy());
            Err(usage(&format!("there is nothing to do with {more}")))
        }
    }
}

pub fn one(arguments: &[OsString]) -> Result<&OsStr, Fault> {
    at_most(1, arguments)?.ok_or_else(|| usage("expected a file"))
}

/// A file's name, not an option.
fn checked(file: &OsStr) -> Result<(), Fault> {
    let text = file.to_string_lossy();
    if text.starts_with('-') && text != "-" {
        let option = quoted(&text);
        return Err(usage(&format!("there is no option {option}")));
    }
    Ok(())
}
