//! The example sheets: what the table in examples/README.md says of each is asked of the library.

use crate::language::{compile, Compiled};
use crate::library;
use crate::reference::{self, Ticket, ANSWER, RULES, WORK};
use crate::report::{same, Report};

/// Where the sheets and the table lie, from the root of the repository, and where document 000's examples have their texts.
const EXAMPLES: &str = "examples";
const CASES: &str = "crates/cases/data";

/// A line of the table: a sheet, its numbers of rules, atoms and instances, verdict and entries, and both without its limit.
#[derive(Debug, PartialEq, Eq)]
struct Row {
    name: String,
    sizes: [u64; 3],
    outcome: String,
    without_limit: String,
}

/// Each sheet there is has a line of the table, which holds of it. How many sheets there are.
pub fn all_hold() -> Result<u64, Report> {
    let table = std::fs::read_to_string(format!("{EXAMPLES}/README.md")).map_err(|error| format!("the examples' table: {error}"))?;
    let rows: Vec<Row> = table.lines().filter_map(row).collect();
    let mut names: Vec<String> = sheets();
    names.sort();
    let mut listed: Vec<String> = rows.iter().map(|row| row.name.clone()).collect();
    listed.sort();
    same("sheets in the table", names, listed)?;
    for expected in &rows {
        same("line of the table", expected, &found(&expected.name)?)?;
    }
    Ok(rows.len() as u64)
}

fn sheets() -> Vec<String> {
    let files = std::fs::read_dir(EXAMPLES).expect("the examples").map(|entry| entry.expect("a file").path());
    let sheets = files.filter(|path| path.extension().is_some_and(|kind| kind == "rules"));
    sheets.map(|path| path.file_stem().expect("a name").to_string_lossy().into_owned()).collect()
}

/// `| [NAME.rules](NAME.rules) | RULES | ATOMS | INSTANCES | VERDICT, ENTRIES | VERDICT, ENTRIES |`, the last perhaps `the same`.
fn row(line: &str) -> Option<Row> {
    let bare = line.strip_prefix("| [")?.strip_suffix(" |")?.replace(',', "");
    let cells: Vec<&str> = bare.split(" | ").collect();
    let [name, rules, atoms, instances, outcome, without_limit] = cells[..] else { return None };
    let sizes = [rules.parse().ok()?, atoms.parse().ok()?, instances.parse().ok()?];
    let name = name.split_once(".rules]")?.0.to_string();
    Some(Row { name, sizes, outcome: outcome.to_string(), without_limit: without_limit.to_string() })
}

fn found(name: &str) -> Result<Row, Report> {
    let source = std::fs::read_to_string(format!("{EXAMPLES}/{name}.rules")).map_err(|error| format!("{name}: {error}"))?;
    let Compiled { text, .. } = compile(&source).map_err(|error| format!("{name}: {error:?}"))?;
    if let Ok(case) = std::fs::read(format!("{CASES}/{name}.text")) {
        same(&format!("text of {name}"), String::from_utf8_lossy(&case), String::from_utf8_lossy(&text))?;
    }
    let ticket = reference::read(&text).map_err(|refusal| format!("{name}: {refusal:?}"))?;
    let instances = ticket.clauses.iter().map(|clause| ticket.instances(clause)).sum();
    let sizes = [ticket.clauses.len() as u64, ticket.atoms(), instances];
    let limited = outcome(&ticket)?;
    let whole = outcome(&Ticket { limit: [0xFF; 4], ..ticket })?;
    let without_limit = if whole == limited { "the same".to_string() } else { whole };
    Ok(Row { name: name.to_string(), sizes, outcome: limited, without_limit })
}

/// Verdict and entries, which both engines must give alike; what fits is judged.
fn outcome(ticket: &Ticket) -> Result<String, Report> {
    let table = reference::encode(ticket);
    let (mut answer, mut work) = (vec![0; ANSWER], vec![0; WORK]);
    let by_relevancy = library::fit_relevancy(&table, &mut answer, &mut work);
    let mut again = vec![0; ANSWER];
    let by_magic = library::fit_magic(&table, &mut vec![0; RULES], &mut again, &mut work);
    same("the engines' answers", (by_relevancy, &answer), (by_magic, &again))?;
    let (verdict, entries) = (by_magic >> 8 & 0xFF, by_magic >> 32);
    let verdict = ["none", "fits", "spent"].get(verdict as usize).ok_or(format!("answer {by_magic:#X}"))?;
    if *verdict == "fits" {
        same("judging", library::FITTING, library::judge(&table, &answer))?;
    }
    Ok(format!("{verdict} {entries}"))
}
