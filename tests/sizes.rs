//! How large tickets and their walks are, and what was drawn of a family of large ones.
#![allow(dead_code)] // each program uses its own part

use crate::logic::{self, Ground};
use crate::mix::Mix;
use crate::reference::{self, Ticket};
use crate::walk::{Outcome, Relevancy, Whole};

/// Chains are looked at in this many of a walk's first places.
const FIRST_PLACES: usize = 3;

#[derive(Clone, Copy)]
pub struct Sizes {
    pub atoms: usize,
    pub clauses: usize,
    pub longest_path: usize,
    /// of the longest chain at the walk's first places
    pub steps: usize,
}

impl Sizes {
    /// A walk with this limit, and how large it was.
    pub fn of(ticket: &Ticket, limit: u32) -> (Whole, Sizes) {
        assert!(reference::read(&reference::print(ticket)).is_ok(), "a large ticket is refused");
        let mut first = Vec::new();
        let whole = Whole::new(&Relevancy::new(ticket), limit, &mut |entered, _| {
            if first.len() < FIRST_PLACES {
                first.push(entered.to_vec());
            }
        });
        let ground = logic::ground(ticket);
        let steps = first.iter().map(|entered| steps(&ground, entered)).max().unwrap_or(0);
        let longest_path = whole.outcome.deepest as usize;
        (whole, Sizes { atoms: ground.atoms, clauses: ticket.clauses.len(), longest_path, steps })
    }

    fn numbers(&self) -> [usize; 4] {
        [self.atoms, self.clauses, self.longest_path, self.steps]
    }
}

/// How many steps the longest chain takes under a list of entered atoms: rounds in which each chaining instance may use
/// what the rounds before have given.
pub fn steps(ground: &Ground, entered: &[usize]) -> usize {
    let mut truth = vec![false; ground.atoms + 1];
    entered.iter().for_each(|atom| truth[*atom] = true);
    let chaining: Vec<_> = ground.instances.iter().filter(|instance| instance.alternatives.len() <= 1).collect();
    for round in 0.. {
        let given = chaining.iter().filter(|instance| instance.conditions.iter().all(|atom| truth[*atom]));
        let given = given.map(|instance| *instance.alternatives.first().unwrap_or(&ground.atoms));
        let new: Vec<usize> = given.filter(|fact| !truth[*fact]).collect();
        if new.is_empty() {
            return round;
        }
        new.iter().for_each(|fact| truth[*fact] = true);
    }
    unreachable!("rounds end with the facts")
}

/// The tickets drawn of a family.
#[derive(Default)]
pub struct Drawn {
    pub mix: Mix,
    sizes: Vec<Sizes>,
}

impl Drawn {
    pub fn ticket(&mut self, whole: &Outcome, sizes: Sizes) {
        self.mix.ticket(whole);
        self.sizes.push(sizes);
    }

    pub fn add(&mut self, other: &Drawn) {
        self.mix.add(&other.mix);
        self.sizes.extend(&other.sizes);
    }

    pub fn print_heading() {
        println!("large tickets               A    clauses  longest path    chain steps    none, fits, cut; with a count of 0, 1-9, 10-99, 100 on");
    }

    pub fn print(&self, name: &str) {
        let range = |i: usize| {
            let all = self.sizes.iter().map(|sizes| sizes.numbers()[i]);
            format!("{} to {}", all.clone().min().unwrap_or(0), all.max().unwrap_or(0))
        };
        println!("{name:14} {:>14} {:>10} {:>13} {:>14}    {}", range(0), range(1), range(2), range(3), self.mix.short());
    }

    /// That there are so many, each with what the family aims at, and each verdict, also under a limit.
    pub fn missing(&self, tickets: u64, aim: fn(&Sizes) -> bool) -> Vec<String> {
        let mut missing = self.mix.rare_verdicts();
        missing.extend((self.mix.tickets != tickets).then(|| format!("{tickets} tickets")));
        missing.extend(self.sizes.iter().any(|sizes| !aim(sizes)).then(|| "the size".to_string()));
        missing
    }
}
