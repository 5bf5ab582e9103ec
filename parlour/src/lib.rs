//! Reads a text file of dimensions, quantities, terms and readings, and prints what
//! an engineer at the rig wants to see: the groups by name, the formula in them, and
//! their values. What is proved is decided by the C library; this program puts names
//! on its numbers.
//!
//! | Module | What a new capability adds there |
//! |---|---|
//! | `file` | a line of the text file |
//! | `library` | a call of the C library |
//! | `answer` | what is asked of the library, and held to what was given |
//! | `words` | a refusal in words |
//! | `report` | something to print |
//! | `frames`, `explain` | the lines of the program `glaukemis`, written and read |
//! | `commands` | a command |

#![deny(unsafe_code)]

pub mod answer;
pub mod commands;
pub mod explain;
pub mod file;
pub mod frames;
pub mod library;
pub mod names;
pub mod report;
pub mod words;
