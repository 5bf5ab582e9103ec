//! What went wrong, in words.

mod refusals;

pub use refusals::{none_of_this_file, of_file, of_group, of_lines};

/// The exit status of the program.
#[derive(Clone, Copy, Debug, PartialEq, Eq)]
pub enum Status {
    Done = 0,
    /// The library refused the problem, the formula or a reading.
    Refused = 1,
    /// The command, the file or the lines are not what is expected.
    Unreadable = 2,
    /// The answer is not the one to the file, or could not be written.
    Wrong = 3,
}

/// A sentence, and the line that it speaks of where there is one, counted from 1.
#[derive(Clone, Debug, PartialEq, Eq)]
pub struct Message {
    pub line: Option<usize>,
    pub words: String,
}

/// Why there is nothing to print. Each message is a line of its own.
#[derive(Clone, Debug, PartialEq, Eq)]
pub struct Fault {
    pub status: Status,
    pub messages: Vec<Message>,
}

impl Fault {
    fn new(status: Status, line: Option<usize>, words: String) -> Fault {
        let messages = vec![Message { line, words }];
        Fault { status, messages }
    }

    /// A text that is not what is expected, in a line of it.
    pub fn in_line(line: usize, words: impl Into<String>) -> Fault {
        Fault::new(Status::Unreadable, Some(line), words.into())
    }

    /// A text that is not what is expected, as a whole.
    pub fn unreadable(words: impl Into<String>) -> Fault {
        Fault::new(Status::Unreadable, None, words.into())
    }

    /// An answer that is not the one to the file.
    pub fn wrong(line: Option<usize>, words: impl Into<String>) -> Fault {
        Fault::new(Status::Wrong, line, words.into())
    }

    /// The lines to print, each with the name of the text that it speaks of.
    pub fn text(&self, source: &str) -> String {
        let line = |message: &Message| match message.line {
            Some(line) => format!("{source}:{line}: {}\n", message.words),
            None => format!("{source}: {}\n", message.words),
        };
        self.messages.iter().map(line).collect()
    }
}

/// The longest word that a message repeats in full.
const LONGEST: usize = 40;

/// A word of the text as a message repeats it: what a terminal would take for a command
/// is escaped, and a long word is cut.
pub fn quoted(word: &str) -> String {
    let mut text: String = word.chars().take(LONGEST).collect();
    if text.len() < word.len() {
        text.push_str("..");
    }
    // one by one: what would join the character before it is shown as well
    let escaped: String = text.chars().flat_map(char::escape_debug).collect();
    format!("'{escaped}'")
}

/// What was expected, and what stands there.
pub fn expected(what: &str, found: Option<&str>) -> String {
    match found {
        Some(word) => format!("expected {what}, not {}", quoted(word)),
        None => format!("expected {what}, not the end of the line"),
    }
}

/// A count with its noun.
pub fn counted(count: usize, one: &str, many: &str) -> String {
    format!("{count} {}", if count == 1 { one } else { many })
}

/// The shortest decimal that is read back as the same double.
pub fn decimal(value: f64) -> String {
    let text = format!("{value:?}");
    match text.strip_suffix(".0") {
        Some(whole) => whole.to_string(),
        None => text,
    }
}

#[cfg(test)]
mod tests {
    use super::*;

    #[test]
    fn decimals_are_short_and_exact() {
        for (value, text) in [
            (-1.0, "-1"),
            (42e3, "42000"),
            (0.0125, "0.0125"),
            (1e300, "1e300"),
            (5e-324, "5e-324"),
            (f64::NAN, "NaN"),
            (f64::NEG_INFINITY, "-inf"),
        ] {
            assert_eq!(decimal(value), text);
        }
    }

    #[test]
    fn words_are_escaped_and_cut() {
        assert_eq!(quoted("bore"), "'bore'");
        assert_eq!(quoted("a\u{1b}[31m"), "'a\\u{1b}[31m'");
        assert_eq!(quoted("it's"), "'it\\'s'");
        assert_eq!(quoted(&"é".repeat(40)), format!("'{}'", "é".repeat(40)));
        assert_eq!(quoted(&"é".repeat(41)), format!("'{}..'", "é".repeat(40)));
    }
}
