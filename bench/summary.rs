//! How many times as much the library takes as the two engines made for speed: by family, over all, and at worst.
#![allow(dead_code)] // each program uses its own part

use crate::means::Ratios;

pub const COLUMNS: [&str; 4] = ["relevancy / optimised", "magic / optimised", "relevancy / faster", "magic / faster"];

/// A ticket, and its ratio for each of the columns.
pub struct Row {
    pub family: &'static str,
    pub name: String,
    pub ratios: [f64; 4],
}

/// A column of these.
pub fn column<'a>(rows: impl IntoIterator<Item = &'a Row>, i: usize) -> Ratios<&'a str> {
    Ratios::new(rows.into_iter().map(|row| (row.name.as_str(), row.ratios[i])))
}

/// What was measured is named: times, or instructions.
pub fn print(what: &str, rows: &[Row]) {
    println!("ratios of {what}: geometric mean and most\n{:28}{}", "", COLUMNS.map(|column| format!(" {column:>22}")).concat());
    let mut families: Vec<&str> = rows.iter().map(|row| row.family).collect();
    families.dedup();
    for (i, family) in families.iter().enumerate().filter(|(i, family)| !families[..*i].contains(family)) {
        line(families[i], rows.iter().filter(|row| row.family == *family).collect());
    }
    line("all", rows.iter().collect());
    println!();
}

fn line(name: &str, rows: Vec<&Row>) {
    let cell = |i: usize| {
        let ratios = column(rows.iter().copied(), i);
        format!(" {:11.2} {:10.2}", ratios.geometric_mean(), ratios.most().1)
    };
    println!("{name:22} {:5}{}", rows.len(), [0, 1, 2, 3].map(cell).concat());
}
