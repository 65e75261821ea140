//! How long K1 takes by each of the library's engines; or, with the name of this program as it was linked with an earlier archive, how much of
//! the earlier time that is: exit status 1 if it is more than is asked. They take turns. Usage: k1 [--before PROGRAM].
mod measured;
include!("modules.rs");

use engines::Engine;
use options::Options;
use std::process::{Command, ExitCode};

const TURNS: usize = 5;

fn main() -> ExitCode {
    let Some(program) = Options::read(&["--before"]).get("--before").map(str::to_string) else {
        println!("{}", measure().map(|took| took.to_string()).join(" "));
        return ExitCode::SUCCESS;
    };
    ExitCode::from(!compare(&program) as u8)
}

fn measure() -> [f64; 2] {
    let k1: Vec<puzzles::Puzzle> = puzzles::all().into_iter().filter(|puzzle| puzzle.name == puzzles::K1).collect();
    let measured = &measured::all(&k1, &Engine::LIBRARY)[0];
    Engine::LIBRARY.map(|engine| measured.took(engine))
}

/// Prints how much of the earlier program's times they are. Whether that is as little as is asked.
fn compare(program: &str) -> bool {
    let (mut now, mut before) = ([f64::INFINITY; 2], [f64::INFINITY; 2]);
    for _ in 0..TURNS {
        least(&mut now, measure());
        least(&mut before, said_by(program));
    }
    let tell = |(i, engine): (usize, &Engine)| {
        let which = format!("{}: {:.0} ns over the {:.0} of before", engine.name(), now[i], before[i]);
        asked::tell(puzzles::K1, &which, now[i] / before[i], asked::K1)
    };
    Engine::LIBRARY.iter().enumerate().map(tell).fold(true, |met, each| met & each)
}

fn least(to: &mut [f64; 2], from: [f64; 2]) {
    to.iter_mut().zip(from).for_each(|(to, from)| *to = to.min(from));
}

/// The two times that the program prints.
fn said_by(program: &str) -> [f64; 2] {
    let ran = Command::new(program).output().unwrap_or_else(|error| panic!("{program}: {error}"));
    assert!(ran.status.success(), "{program} failed: {}", String::from_utf8_lossy(&ran.stderr));
    let said = String::from_utf8_lossy(&ran.stdout).to_string();
    let times: Vec<f64> = said.split_whitespace().map(|word| word.parse().expect("a time")).collect();
    times.try_into().unwrap_or_else(|_| panic!("{program} said: {said}"))
}
