//! The lines that the program `glaukemis` reads.

use crate::file::Sheet;
use crate::words::Fault;

/// The frames of a file: its sizes, a row for each dimension, and the terms. A number that
/// the program refuses is written all the same, so long as a frame has room for it.
pub fn write(sheet: &Sheet) -> Result<String, Fault> {
    let sizes = [sheet.dimensions.len(), sheet.quantities.len()];
    let mut text = frame(0x01, sizes.map(|size| size as u8).to_vec());
    for row in 0..sheet.dimensions.len() {
        text += &frame(0x02, dimension(sheet, row)?);
    }
    for (term, &line) in sheet.terms.iter().zip(&sheet.term_lines) {
        let mut bytes = term.coefficient.to_be_bytes().to_vec();
        for &exponent in &term.exponents {
            bytes.extend(two_bytes(exponent, line)?);
        }
        text += &frame(0x03, bytes);
    }
    Ok(text)
}

/// The modulus, and the dimension's exponent in each quantity.
fn dimension(sheet: &Sheet, row: usize) -> Result<Vec<u8>, Fault> {
    let dimension = &sheet.dimensions[row];
    let mut bytes = two_bytes(dimension.modulus, dimension.line)?.to_vec();
    for quantity in &sheet.quantities {
        bytes.extend(two_bytes(quantity.exponents[row], quantity.line)?);
    }
    Ok(bytes)
}

fn two_bytes(number: i32, line: usize) -> Result<[u8; 2], Fault> {
    match i16::try_from(number) {
        Ok(number) => Ok(number.to_be_bytes()),
        Err(_) => {
            let words = format!("{number} does not fit the two bytes that a frame has for it");
            Err(Fault::in_line(line, words))
        }
    }
}

/// A line: the kind of the frame and its bytes in hexadecimal.
fn frame(kind: u8, bytes: Vec<u8>) -> String {
    let digits: String = bytes.iter().map(|byte| format!("{byte:02x}")).collect();
    format!("{kind:02x}{digits}\n")
}
