//! Holding how a place is found against the library, whose operations tell verdict, count and fitting, but not the path. What is true at the
//! place is the library's word already (truth.rs).
//!
//! Judging what is true names the first splitting instance that has all conditions true and no alternative true. If there is none, the place is
//! open. Otherwise it is split by that instance, provided that the alternatives are wanted.
//!
//! What is wanted is told by frozen tickets, in which nothing splits: each splitting clause has a last condition that never holds, and wanted is
//! what it was. A frozen ticket's fitting is all that is true or not wanted, so what it lacks is wanted.
//! - With clauses that have conditions, and some true atoms as facts, no more is true and wanted than at the place. So few facts are enough to
//!   see that the alternatives are wanted.
//! - With all clauses, and the entered atoms as facts, the same is true and wanted as at the place. The first instance that its fitting violates
//!   is the split: no alternative is in the fitting, so all are wanted and none is true; then the conditions, which are in it, are wanted and so
//!   true, one after another. This is asked where the first way does not do.
//!
//! Marking in stages is over with all that is wanted, so an open place is confirmed in the same way. Where there is a split, the marks of each stage are
//! told by a ticket of the chaining clauses, with the entered atoms as facts, and a denial that never comes about for each splitting instance that has asked
//! before: what its fitting lacks is marked. Which instances ask at a step, and which one is the first that can be split, the tool reads off these marks.

use crate::ending::Failure;
use crate::library::{self, Engine, Fit, Judged, Verdict};
use crate::source::Accepted;
use crate::ticket::{Atom, Clause, Ticket};
use crate::wanted::{Found, Marking, Wanted};

/// A place that is not closed, as the tool finds it.
pub struct Seen<'a> {
    pub entered: &'a [Atom],
    pub truth: &'a [u8],
    pub wanted: &'a Wanted,
    pub found: &'a Found,
}

/// Whether the library confirms how the place is found. Where the ticket that would tell is refused it does not; where it says otherwise, that
/// is a failure.
pub fn confirms(accepted: &Accepted, marking: &Marking, seen: &Seen) -> Result<bool, Failure> {
    let first = library::judge(&accepted.table, seen.truth)?;
    match (seen.found, &first) {
        (Found::Split(..), Judged::Violated(..)) if !seen.wanted.stages.is_empty() => by_stages(accepted, marking, seen),
        (Found::Open(_), Judged::Fitting) => Ok(true),
        (Found::Split(..), Judged::Fitting) => Err(otherwise(accepted, seen, "no instance can split")),
        (Found::Split(clause, values), _) if is_named(&first, *clause, values) && are_wanted(accepted, marking, seen)? => Ok(true),
        _ => exactly(accepted, seen),
    }
}

/// Whether judging names this instance.
fn is_named(judged: &Judged, clause: usize, values: &[u8]) -> bool {
    matches!(judged, Judged::Violated(other, others) if *other == clause && others.starts_with(values))
}

/// Whether the library sees that all alternatives of a split are wanted, from few facts.
fn are_wanted(accepted: &Accepted, marking: &Marking, seen: &Seen) -> Result<bool, Failure> {
    let Found::Split(clause, values) = seen.found else { return Ok(false) };
    let [_, alternatives] = accepted.instance_atoms(*clause, values);
    let alternatives: Vec<usize> = alternatives.iter().map(|atom| accepted.ticket.number(atom)).collect();
    let atoms = accepted.ticket.ground_atoms();
    let mut ticket = accepted.ticket.clone();
    ticket.clauses.retain(|clause| !clause.conditions.is_empty() && can_freeze(clause));
    ticket.clauses.extend(marking.grounds(seen.wanted, alternatives.clone()).into_iter().map(|atom| fact(&atoms[atom])));
    Ok(fitting(&frozen(&ticket))?.is_some_and(|fitting| alternatives.iter().all(|atom| fitting[*atom] == 0)))
}

/// Whether the library confirms the marks of each stage.
fn by_stages(accepted: &Accepted, marking: &Marking, seen: &Seen) -> Result<bool, Failure> {
    let atoms = accepted.ticket.ground_atoms();
    let mut ticket = accepted.ticket.clone();
    ticket.clauses.retain(|clause| clause.alternatives.len() < 2);
    ticket.clauses.extend(seen.entered.iter().map(fact));
    for (i, stage) in seen.wanted.stages.iter().enumerate() {
        let denials = stage.asked.iter().map(|asking| {
            let asked = marking.asked(*asking, seen.truth);
            let is_true = asked.iter().all(|atom| seen.truth[*atom] == 1);
            let conditions = asked.iter().map(|atom| atoms[*atom].clone()).chain(is_true.then(|| never(&ticket)));
            Clause { conditions: conditions.collect(), alternatives: Vec::new() }
        });
        let clauses = ticket.clauses.iter().cloned().chain(denials).collect();
        let Some(fitting) = fitting(&frozen(&Ticket { clauses, ..ticket.clone() }))? else { return Ok(false) };
        if !fitting.starts_with(&stage.rest) {
            return Err(otherwise(accepted, seen, &format!("stage {} marks other atoms", i + 1)));
        }
    }
    Ok(true)
}

/// Whether the library confirms the place by all that is true or not wanted there.
fn exactly(accepted: &Accepted, seen: &Seen) -> Result<bool, Failure> {
    let mut ticket = accepted.ticket.clone();
    ticket.clauses.extend(seen.entered.iter().map(fact));
    let Some(fitting) = fitting(&frozen(&ticket))? else { return Ok(false) };
    let judged = library::judge(&accepted.table, &fitting[..accepted.ticket.atoms()])?;
    match seen.found {
        Found::Open(own) if judged == Judged::Fitting && fitting.starts_with(own) => Ok(true),
        Found::Split(clause, values) if is_named(&judged, *clause, values) => Ok(true),
        _ => Err(otherwise(accepted, seen, &format!("judging gives {judged:?}"))),
    }
}

/// Whether there is room for a last condition, or no need of one.
fn can_freeze(clause: &Clause) -> bool {
    clause.alternatives.len() < 2 || clause.conditions.len() < 4
}

fn fact(atom: &Atom) -> Clause {
    Clause { conditions: Vec::new(), alternatives: vec![atom.clone()] }
}

/// A further predicate without arguments.
fn never(ticket: &Ticket) -> Atom {
    Atom { predicate: ticket.arities.len() as u8, arguments: Vec::new() }
}

/// The ticket with a condition that never holds at the end of each splitting clause.
fn frozen(ticket: &Ticket) -> Ticket {
    let (mut frozen, never) = (ticket.clone(), never(ticket));
    frozen.arities.push(0);
    let splitting = frozen.clauses.iter_mut().filter(|clause| clause.alternatives.len() > 1);
    splitting.for_each(|clause| clause.conditions.push(never.clone()));
    frozen
}

/// The fitting of a frozen ticket that is not closed, if the library accepts the ticket.
fn fitting(frozen: &Ticket) -> Result<Option<Vec<u8>>, Failure> {
    let Ok(table) = library::read(&frozen.text()) else { return Ok(None) };
    match library::fit(Engine::Relevancy, &table, frozen.atoms())? {
        Fit { verdict: Verdict::Fits, count: 0, deepest: Some(0), answer } => Ok(Some(answer)),
        fit => Err(Failure::disagreement(format!("of a ticket in which nothing splits the library says {}", fit.told()))),
    }
}

fn otherwise(accepted: &Accepted, seen: &Seen, says: &str) -> Failure {
    let under = accepted.atoms(seen.entered).join(", ");
    Failure::disagreement(format!("the trail and the library disagree under the entered atoms [{under}]: {says}"))
}
