//! What the rows and columns of the matrices are called.

use crate::file::Sheet;
use crate::library::Built;

/// The names of a problem.
#[derive(Clone, Debug, PartialEq, Eq)]
pub struct Names {
    /// The rows of H.
    pub dimensions: Vec<String>,
    /// The first rows of V and columns of W: one for each modulus.
    pub moduli: Vec<String>,
    /// The rows of V and columns of W behind these.
    pub quantities: Vec<String>,
}

/// The name of a group, which is counted from 0.
pub fn group(group: usize) -> String {
    format!("g{}", group + 1)
}

/// Names that count from 1.
fn numbered(letter: &str, count: usize) -> Vec<String> {
    (1..=count).map(|i| format!("{letter}{i}")).collect()
}

impl Names {
    /// The names of a file. No name has a colon, so those of the moduli are their own.
    pub fn of_sheet(sheet: &Sheet) -> Names {
        let with_modulus = sheet.dimensions.iter().filter(|d| d.modulus != 0);
        Names {
            dimensions: sheet.dimensions.iter().map(|d| d.name.clone()).collect(),
            moduli: with_modulus.map(|d| format!("mod:{}", d.name)).collect(),
            quantities: sheet.quantities.iter().map(|q| q.name.clone()).collect(),
        }
    }

    /// Names for matrices without a file.
    pub fn of_built(built: &Built) -> Names {
        Names {
            dimensions: numbered("d", built.h.rows().count()),
            moduli: numbered("mod:", built.moduli),
            quantities: numbered("x", built.h.columns - built.moduli),
        }
    }

    /// The rows of V and the columns of W.
    pub fn all_columns(&self) -> Vec<String> {
        self.moduli
            .iter()
            .chain(&self.quantities)
            .cloned()
            .collect()
    }
}

/// The columns of H and V and the rows of W: those of the rank, and the groups.
pub fn of_multiplier(rank: usize, groups: usize) -> Vec<String> {
    let mut names = numbered("c", rank);
    names.extend((0..groups).map(group));
    names
}
