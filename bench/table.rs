//! What was measured, as tables of text.

use crate::engines::Engine;
use crate::measured::{ratios, Measured, MANY};

/// The ratios that a table has: of the library's engines over each measure, and of the slowest over them where it was measured.
fn columns(engines: &[Engine]) -> Vec<(Engine, Engine)> {
    let over = Engine::MEASURES.into_iter().flat_map(|measure| Engine::LIBRARY.map(|engine| (engine, measure)));
    let slowest = engines.iter().filter(|engine| matches!(engine, Engine::Straightforward));
    over.chain(slowest.flat_map(|slowest| Engine::LIBRARY.map(|engine| (*slowest, engine)))).collect()
}

pub fn print(all: &[Measured], engines: &[Engine]) {
    print!("{:74}{:^width$}", "", "ns for each entry and the root", width = 16 * engines.len());
    let columns = columns(engines);
    columns.iter().for_each(|(one, _)| print!(" {:>15}", one.name()));
    print!("\n{:45} instances  verdict  entries ", "");
    engines.iter().for_each(|engine| print!(" {:>15}", engine.name()));
    columns.iter().for_each(|(_, other)| print!(" {:>15}", format!("/ {}", other.name())));
    println!();
    all.iter().for_each(|measured| row(measured, engines, &columns));
    println!();
}

fn row(measured: &Measured, engines: &[Engine], columns: &[(Engine, Engine)]) {
    let verdict = ["none", "fits", "spent"][measured.outcome.verdict as usize];
    print!("{:45} {:9} {verdict:>8} {:8} ", measured.name, measured.instances, measured.outcome.count);
    engines.iter().for_each(|engine| print!(" {:15.0}", measured.per_place(*engine)));
    columns.iter().for_each(|(one, other)| print!(" {:15.2}", measured.ratio(*one, *other)));
    println!();
}

/// Of the slowest engine over the library's, on large tickets.
pub fn means(all: &[Measured]) {
    let large = || all.iter().filter(|measured| measured.is_large());
    println!("geometric means; {} of {} tickets are large: more than {MANY} instances and more than {MANY} entries", large().count(), all.len());
    for engine in Engine::LIBRARY {
        let over = ratios(large(), Engine::Straightforward, engine);
        let (worst, least) = over.least();
        println!("  straightforward / {:9}, large ones   {:8.2}   least {least:8.2}, {}", engine.name(), over.geometric_mean(), worst.name);
    }
    println!();
}

/// From each member of a family to the next: how many times the instances, the entries and the time for an entry.
pub fn growth(all: &[Measured]) {
    println!("growth within a family, from one to the next: times the instances, the entries and the ns an entry");
    print!("{:93} {:>9} {:>8} ", "", "instances", "entries");
    Engine::ALL.iter().for_each(|engine| print!(" {:>15}", engine.name()));
    println!();
    for pair in all.windows(2).filter(|pair| pair[0].family == pair[1].family) {
        let (one, next) = (&pair[0], &pair[1]);
        print!("{:45} to {:44}", one.name, next.name);
        print!(" {:9.2} {:8.2} ", next.instances as f64 / one.instances as f64, next.places() / one.places());
        Engine::ALL.iter().for_each(|engine| print!(" {:15.2}", next.per_place(*engine) / one.per_place(*engine)));
        println!();
    }
    println!();
}
