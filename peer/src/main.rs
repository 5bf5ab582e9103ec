//! A drop-in for the program of section 9 of the rules: all of standard input in,
//! the lines of the answer out.

use std::io::{Read, Write};

fn main() -> std::io::Result<()> {
    let mut input = Vec::new();
    std::io::stdin().lock().read_to_end(&mut input)?;
    let answer = peer::model::lines::answer(&input);
    let mut output = std::io::stdout().lock();
    output.write_all(answer.as_bytes())?;
    output.flush()
}
