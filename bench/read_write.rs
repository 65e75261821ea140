//! How long reading and checking take: the largest ticket, read by the library and by a reader in Rust; its
//! table, checked by the library; and shorter tickets, to see that the time goes with the text's length.
#[path = "../tests/library.rs"]
mod library;
mod operations;
#[path = "../tests/random.rs"]
mod random;
mod reader;
#[path = "../tests/reference.rs"]
mod reference;
#[path = "../tests/tickets.rs"]
mod tickets;
mod timing;

use timing::{best, ROUNDS};

const CALLS: u32 = 100;

fn main() {
    let mut largest = tickets::full(&mut random::Random::new(1));
    println!("best of {ROUNDS} rounds of {CALLS} calls\n");
    println!("   bytes   library, ns   ns a byte   Rust, ns   library / Rust   checking, ns   checking / reading");
    let mut measured = Vec::new();
    for clauses in [64, 32, 16, 8] {
        largest.clauses.truncate(clauses);
        let text = reference::print(&largest);
        let times = measure(&text, &reference::encode(&largest));
        let [library, rust, checking] = times;
        println!(
            "{:8} {library:13.0} {:11.2} {rust:10.0} {:16.2} {checking:14.0} {:20.2}",
            text.len(),
            library / text.len() as f64,
            library / rust,
            checking / library
        );
        measured.push((text.len() as f64, times));
    }
    let (whole, half) = (measured[0], measured[1]);
    println!();
    println!("the largest ticket to the one of half its clauses:");
    let [library, rust, checking] = [0, 1, 2].map(|i| whole.1[i] / half.1[i]);
    println!("  bytes {:.2}, library's reading {library:.2}, Rust's {rust:.2}, checking {checking:.2}", whole.0 / half.0);
}

/// Nanoseconds for reading by the library, reading in Rust, and checking the table, which is writing it.
fn measure(text: &[u8], table: &[u8]) -> [f64; 3] {
    best([
        &mut || operations::reading(CALLS, text, table, library::read),
        &mut || operations::reading(CALLS, text, table, reader::read),
        &mut || operations::writing(CALLS, text, table),
    ])
}
