//! The matrices as tables, with a name for every row and column.

use crate::library::{Built, Matrix};
use crate::names::{of_multiplier, Names};

/// H, V and W. C times V is H; its columns have the names of V's.
pub fn matrices(names: &Names, built: &Built) -> String {
    let of_multiplier = of_multiplier(built.rank, built.groups());
    let all = names.all_columns();
    [
        table("H", &names.dimensions, &of_multiplier, &built.h),
        table("V", &all, &of_multiplier, &built.v),
        table("W", &of_multiplier, &all, &built.w),
    ]
    .join("\n")
}

/// A heading, a line with the names of the columns, and the rows. Numbers end where the
/// names of their columns end.
fn table(heading: &str, rows: &[String], columns: &[String], matrix: &Matrix) -> String {
    let first = rows.iter().map(|name| length(name)).max().unwrap_or(0);
    let cells: Vec<Vec<String>> = matrix
        .rows()
        .map(|row| row.iter().map(i32::to_string).collect())
        .collect();
    let widths: Vec<usize> = columns
        .iter()
        .enumerate()
        .map(|(j, name)| {
            let entries = cells.iter().map(|row| length(&row[j]));
            entries.max().unwrap_or(0).max(length(name))
        })
        .collect();
    let mut text = format!("{heading}\n{}", line("", first, columns, &widths));
    for (name, row) in rows.iter().zip(&cells) {
        text += &line(name, first, row, &widths);
    }
    text
}

fn length(text: &str) -> usize {
    text.chars().count()
}

/// A name to the left, and cells to the right of their columns.
fn line(name: &str, first: usize, cells: &[String], widths: &[usize]) -> String {
    let cells = cells.iter().zip(widths);
    let cells: String = cells
        .map(|(cell, width)| format!("  {cell:>width$}"))
        .collect();
    format!("  {name:<first$}{cells}\n")
}
