//! How many instructions fitting each puzzle takes and each ticket drawn by seed, reading, writing and judging the largest
//! ticket, and a long walk in a hundred slices. Each call is made once, by this program run anew under callgrind, and what is
//! done before and after it is not counted. Usage: instructions [--seed N] [--save FILE] [--against FILE], where the last is one
//! saved earlier: exit status 1 if a count is more than 1.05 times the one in it; if slices have more than 1.3 times the
//! instructions of one go; or if what is asked of the ratios is not met.
mod callgrind;
mod calls;
mod counts;
mod judger;
mod operations;
mod reader;
mod slices;
include!("modules.rs");

use asked::tell;
use calls::{Input, Table};
use counts::{ratio, Counts};
use engines::Engine;
use means::Ratios;
use options::Options;
use std::process::ExitCode;
use summary::Row;

/// The widths of columns.
const NAME: usize = 45;
const COUNT: usize = 13;
const RATIO: usize = 10;

/// What K1 took before issue 20, by each of the library's engines.
const K1_BEFORE: [f64; 2] = [32_318.0, 36_549.0];

fn main() -> ExitCode {
    let options = Options::read(&["--seed", "--save", "--against", "--program", "--input"]);
    let seed = options.seed();
    if let (Some(program), Some(input)) = (options.get("--program"), options.get("--input")) {
        calls::make(seed, program, input);
        return ExitCode::SUCCESS;
    }
    let earlier = options.get("--against").map(Counts::read);
    let mut counts = Counts::default();
    let tables = calls::tables(seed);
    let within: Vec<bool> = tables.iter().map(|table| count(seed, table, earlier.as_ref(), &mut counts)).collect();
    let met = sum_up(&tables[..2], &counts);
    if let Some(file) = options.get("--save") {
        counts.write(file);
    }
    let holds = earlier.is_none_or(|earlier| counts.hold_against(&earlier));
    ExitCode::from(!(met && holds && within.into_iter().all(|within| within)) as u8)
}

/// Makes the calls of a table, and prints a row for each input, then the geometric means. Whether no ratio is more than is
/// asked.
fn count(seed: u64, table: &Table, earlier: Option<&Counts>, counts: &mut Counts) -> bool {
    make_calls(seed, table, counts);
    heading(table, earlier.is_some());
    let rows: Vec<Vec<Option<f64>>> = table.inputs.iter().map(|input| ratios(table, &input.name, counts, earlier)).collect();
    for (Input { name, .. }, row) in table.inputs.iter().zip(&rows) {
        print!("{name:NAME$}");
        table.programs.iter().for_each(|program| print!(" {:>COUNT$}", counts.get(program, name).map_or(String::new(), |count| count.to_string())));
        print_ratios(row);
    }
    let mean = |i: usize| Ratios::new(rows.iter().filter_map(|row| Some(((), row[i]?)))).geometric_mean();
    let means: Vec<Option<f64>> = (0..rows[0].len()).map(|i| rows.iter().any(|row| row[i].is_some()).then(|| mean(i))).collect();
    print!("{:1$}", "geometric means", NAME + (1 + COUNT) * table.programs.len());
    print_ratios(&means);
    let within = table.most.is_none_or(|most| is_within(most, table, &rows));
    println!();
    within
}

fn make_calls(seed: u64, table: &Table, counts: &mut Counts) {
    let seed = seed.to_string();
    let calls = || table.inputs.iter().flat_map(|input| table.programs.iter().map(move |program| (*program, input.name.as_str())));
    let calls: Vec<(&str, &str)> = calls().filter(|(program, input)| calls::is_there(program, input)).collect();
    let runs: Vec<Vec<&str>> = calls.iter().map(|(program, input)| vec!["--seed", &seed, "--program", program, "--input", input]).collect();
    for ((program, input), count) in calls.iter().zip(callgrind::count_each(&runs)) {
        counts.add(program, input, count);
    }
}

/// Prints which ratios over the measure are more than is asked, or that none is.
fn is_within(most: f64, table: &Table, rows: &[Vec<Option<f64>>]) -> bool {
    let (measure, measured) = (table.measures[0], table.measured().count());
    let ratios = table.inputs.iter().zip(rows).flat_map(|(input, row)| row[..measured].iter().flatten().map(move |ratio| (&input.name, *ratio)));
    let above: Vec<(&String, f64)> = ratios.filter(|(_, ratio)| *ratio > most).collect();
    above.iter().for_each(|(input, ratio)| println!("{ratio:.3} times {measure}, more than {most}: {input}"));
    if above.is_empty() {
        println!("each at most {most} times {measure}");
    }
    above.is_empty()
}

fn heading(table: &Table, has_earlier: bool) {
    let mut groups = vec![("instructions".to_string(), COUNT, table.programs.clone())];
    groups.extend(table.measures.iter().map(|measure| (format!("over {measure}"), RATIO, table.measured().collect())));
    if has_earlier {
        groups.push(("over earlier".to_string(), RATIO, table.programs.clone()));
    }
    print!("{:NAME$}", table.title);
    groups.iter().for_each(|(title, width, programs)| print!(" {title:^0$}", (1 + width) * programs.len() - 1));
    print!("\n{:NAME$}", "");
    groups.iter().for_each(|(_, width, programs)| programs.iter().for_each(|program| print!(" {program:>width$}")));
    println!();
}

/// For each measure the count of each program over it, then each program's over its earlier one.
fn ratios(table: &Table, input: &str, counts: &Counts, earlier: Option<&Counts>) -> Vec<Option<f64>> {
    let count = |program: &str| counts.get(program, input);
    let over_measures = table.measures.iter().flat_map(|measure| table.measured().map(|program| ratio(count(program), count(measure))));
    let over_earlier = |earlier: &Counts| table.programs.iter().map(|program| ratio(count(program), earlier.get(program, input))).collect();
    over_measures.chain(earlier.map_or(Vec::new(), over_earlier)).collect()
}

fn print_ratios(ratios: &[Option<f64>]) {
    ratios.iter().for_each(|ratio| print!(" {:>RATIO$}", ratio.map_or(String::new(), |ratio| format!("{ratio:.3}"))));
    println!();
}

/// Prints fitting's ratios by family, and whether what is asked of them is met. Whether all of it is.
fn sum_up(tables: &[Table], counts: &Counts) -> bool {
    let row = |table: &Table, input: &Input| {
        let ratios: Vec<f64> = ratios(table, &input.name, counts, None).into_iter().flatten().collect();
        Row { family: input.family, name: input.name.clone(), ratios: ratios.try_into().expect("each is counted") }
    };
    let rows: Vec<Row> = tables.iter().flat_map(|table| table.inputs.iter().map(|input| row(table, input))).collect();
    summary::print("instructions", &rows);
    let mut met = asked::print(&rows);
    for (engine, before) in Engine::LIBRARY.into_iter().zip(K1_BEFORE) {
        let now = counts.get(engine.name(), puzzles::K1).expect("K1 is counted") as f64;
        met &= tell(puzzles::K1, &format!("{} over the {before} of before", engine.name()), now / before, asked::K1);
    }
    println!();
    met
}
