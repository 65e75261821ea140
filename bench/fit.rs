//! How long fitting takes: the puzzles by all engines, tickets drawn by seed by all but the slowest, as tables, and as a
//! drawing where one is asked for. Usage: fit [--svg FILE] [--seed N]: exit status 1 if what is asked of the ratios is not met.
mod drawing;
mod measured;
mod table;
include!("modules.rs");

use engines::Engine;
use options::Options;
use std::process::ExitCode;
use summary::Row;

fn main() -> ExitCode {
    let options = Options::read(&["--svg", "--seed"]);
    let puzzles = measured::all(&puzzles::all(), &Engine::ALL);
    table::print(&puzzles, &Engine::ALL);
    table::means(&puzzles);
    table::growth(&puzzles);
    println!("drawn by seed {}", options.seed());
    let drawn = measured::all(&families::drawn(options.seed()), &Engine::QUICK);
    table::print(&drawn, &Engine::QUICK);
    let rows: Vec<Row> = puzzles.iter().chain(&drawn).map(|measured| measured.row()).collect();
    summary::print("times", &rows);
    let met = asked::print(&rows);
    if let Some(file) = options.get("--svg") {
        std::fs::write(file, drawing::of(&rows)).expect("the drawing's file");
    }
    ExitCode::from(!met as u8)
}
