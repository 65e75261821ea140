//! The engines made for speed make the walk of document 01: on random tickets, small and large, and under limits around
//! the count, their verdict, count, longest path and fitting are those of the tests' independent walk. Usage: agree [NUMBER OF SMALL TICKETS].
mod faster;
mod grounded;
#[allow(dead_code)] // the tests use the whole of it
#[path = "../tests/large.rs"]
mod large;
#[path = "../tests/logic.rs"]
mod logic;
#[path = "../tests/mix.rs"]
mod mix;
#[path = "../tests/random.rs"]
mod random;
#[path = "../tests/reference.rs"]
mod reference;
#[path = "../tests/report.rs"]
mod report;
#[allow(dead_code)] // as above
#[path = "../tests/sizes.rs"]
mod sizes;
#[path = "../tests/threads.rs"]
mod threads;
#[path = "../tests/tickets.rs"]
mod tickets;
#[path = "../tests/walk.rs"]
mod walk;

use mix::Mix;
use reference::Ticket;
use report::{same, Report};
use threads::{Run, Tally};
use walk::{Outcome, Relevancy, Whole};

const ENGINES: [(&str, fn(&Ticket) -> Outcome); 2] = [("optimised", grounded::fit), ("faster", faster::fit)];

const TICKETS: u64 = 10_000;

/// For each thread, of each family of large ones.
const LARGE_TICKETS: usize = 2;

/// Walks are cut here: of small tickets, and of those of any size.
const LONG: u32 = 200;
const SHORT: u32 = 3;

fn main() {
    threads::run("agree", TICKETS, 301, run);
}

fn run(run: &mut Run<Met>, many: u64) -> Result<(), Report> {
    for _ in 0..many {
        let small = if run.random.once_in(5) { tickets::crowded(&mut run.random) } else { tickets::to_walk(&mut run.random) };
        agrees(&small, LONG, &mut run.tally.small)?;
        let any = tickets::ticket(&mut run.random);
        if reference::read(&reference::print(&any)).is_ok() {
            agrees(&any, SHORT, &mut run.tally.any)?;
        }
    }
    for family in large::FAMILIES.iter().flat_map(|family| [family; LARGE_TICKETS]) {
        agrees(&(family.draw)(&mut run.random), family.cut, &mut run.tally.any)?;
    }
    Ok(())
}

/// Without a limit but where the walk is cut, and with limits up to the count.
fn agrees(ticket: &Ticket, cut: u32, met: &mut Mix) -> Result<(), Report> {
    let whole = Whole::new(&Relevancy::new(ticket), cut, &mut |_, _| {});
    met.ticket(&whole.outcome);
    let count = whole.outcome.count;
    for limit in [cut, count, count.saturating_sub(1), 0] {
        let ticket = Ticket { limit: limit.to_be_bytes(), ..ticket.clone() };
        let expected = whole.under(limit);
        met.limited(expected.verdict);
        for (name, fit) in ENGINES {
            let found = fit(&ticket);
            same(name, expected.clone(), found).map_err(|report| format!("{report}\n{}", String::from_utf8_lossy(&reference::print(&ticket))))?;
        }
    }
    Ok(())
}

/// Small tickets, and those of any size.
#[derive(Default)]
struct Met {
    small: Mix,
    any: Mix,
}

impl Tally for Met {
    fn add(&mut self, other: &Met) {
        self.small.add(&other.small);
        self.any.add(&other.any);
    }

    fn print(&self) {
        self.small.print();
    }

    fn missing(&self) -> Vec<String> {
        [self.small.rare_verdicts(), self.small.rare_counts(1000)].concat()
    }

    fn agreed(&self) -> String {
        format!("{} small tickets and {} of any size", self.small.tickets, self.any.tickets)
    }
}
