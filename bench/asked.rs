//! What issue 20 asks of the library's speed, and whether it is met: a run that measures a ratio above what is asked ends with exit status 1.
#![allow(dead_code)] // each program uses its own part

use crate::summary::{column, Row, COLUMNS};

/// By column: the geometric mean at most, and each at most.
const MOST: [(f64, f64); 2] = [(5.0, 20.0), (2.0, 6.0)];

/// But on paths of hundreds of entries relevancy has more: it marks at each of them what every truth of the path asks.
const LONG_PATHS: ([&str; 2], f64) = (["deep paths", "drawn deep paths"], 150.0);

/// K1 takes at most this much of what it took before.
pub const K1: f64 = 0.58;

/// Prints what is asked of these, and whether it is met. Whether all of it is.
pub fn print(rows: &[Row]) -> bool {
    println!("asked, against the optimised engine, which stays as it was");
    let mut met = true;
    for (i, (mean, each)) in MOST.into_iter().enumerate() {
        let has_more = |row: &&Row| i == 0 && LONG_PATHS.0.contains(&row.family);
        met &= tell(COLUMNS[i], "geometric mean", column(rows, i).geometric_mean(), mean);
        let (worst, most) = column(rows.iter().filter(|row| !has_more(row)), i).most();
        met &= tell(COLUMNS[i], &format!("most: {worst}"), most, each);
        if i == 0 {
            let (worst, most) = column(rows.iter().filter(has_more), i).most();
            met &= tell(COLUMNS[i], &format!("most on long paths: {worst}"), most, LONG_PATHS.1);
        }
    }
    met
}

/// A line: of what, which, how much it is and how much is asked. Whether it is met.
pub fn tell(what: &str, which: &str, is: f64, most: f64) -> bool {
    println!("  {what:22} {which:40} {is:9.2}, at most {most:6.2}: {}", if is <= most { "met" } else { "not met" });
    is <= most
}
