//! An independent second program for the rules of docs/RULES.md, those of order 2
//! among them.
//!
//! It was written from the owner's own text of these rules, without a look at the
//! definitions or the code of the program that it is compared with, and shares none
//! of it. `model` says what the rules say, `verify` checks an answer without the
//! steps, and the rest makes inputs and compares.

pub mod boundary;
pub mod comparing;
pub mod generate;
pub mod library;
pub mod model;
pub mod problems;
pub mod random;
pub mod rounding;
pub mod verify;
