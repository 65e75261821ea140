//! Which clauses matter: those of which all alternatives can come to be wanted. What nobody wants is in each fitting, true or
//! not, and is never split.

use crate::reference::{Atom, Clause, Ticket};

pub fn clauses(ticket: &Ticket) -> impl Iterator<Item = &Clause> {
    let wantable = predicates(ticket);
    ticket.clauses.iter().filter(move |clause| among(&clause.alternatives, wantable))
}

/// The predicates of the conditions of such clauses, a bit for each.
fn predicates(ticket: &Ticket) -> u32 {
    let mut wantable = 0;
    loop {
        let before = wantable;
        for clause in ticket.clauses.iter().filter(|clause| among(&clause.alternatives, before)) {
            clause.conditions.iter().for_each(|atom| wantable |= 1 << atom.predicate);
        }
        if wantable == before {
            return wantable;
        }
    }
}

fn among(atoms: &[Atom], predicates: u32) -> bool {
    atoms.iter().all(|atom| predicates >> atom.predicate & 1 == 1)
}
