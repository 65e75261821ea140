//! A fitting as it is shown: all of it, or what is true in it. A fitting also has every atom that nobody wants; those are in it because nothing speaks
//! against them. What is true at the open place, which the walk has come to, is what follows from the atoms entered, by the library's judging.

use crate::ending::Failure;
use crate::library::{self, Judged, Moved};
use crate::source::Accepted;
use crate::ticket::{Atom, Ticket};
use crate::truth::Truth;
use std::collections::BTreeSet;

pub struct Fitting<'a> {
    accepted: &'a Accepted,
    /// a byte for each atom
    answer: Vec<u8>,
    truth: Vec<u8>,
}

/// Columns of a list of atoms.
const WIDTH: usize = 78;

impl Fitting<'_> {
    /// Of a walk on this ticket that has come to fits. The atoms shown are those of `accepted`, which may be a ticket with fewer predicates and clauses; of
    /// that it must be a fitting.
    pub fn of<'a>(accepted: &'a Accepted, walked: &Ticket, at: &Moved) -> Result<Fitting<'a>, Failure> {
        Fitting::entered(accepted, walked, at.entered(), at.fit.answer.clone())
    }

    /// The same by the atoms that were entered, and an answer.
    pub fn entered<'a>(accepted: &'a Accepted, walked: &Ticket, entered: impl Iterator<Item = usize>, mut answer: Vec<u8>) -> Result<Fitting<'a>, Failure> {
        let mut marks = vec![0; walked.atoms()];
        entered.for_each(|atom| marks[atom] = 1);
        let truth = Truth::of(walked)?.from(marks)?;
        let mut truth = truth.map_err(|_| Failure::disagreement("the place where the walk ended is closed"))?;
        if truth.iter().zip(&answer).any(|(truth, answer)| truth > answer) {
            return Err(Failure::disagreement("the fitting lacks an atom that is true"));
        }
        let atoms = accepted.ticket.atoms();
        answer.truncate(atoms);
        truth.truncate(atoms);
        Ok(Fitting { truth, ..Fitting::judged(accepted, answer)? })
    }

    /// An answer that must be a fitting. What is true in it is not known, and so nothing.
    pub fn judged(accepted: &Accepted, answer: Vec<u8>) -> Result<Fitting<'_>, Failure> {
        match library::judge(&accepted.table, &answer)? {
            Judged::Fitting => Ok(Fitting { accepted, truth: vec![0; answer.len()], answer }),
            judged => Err(Failure::disagreement(format!("judging says that the fitting is none: {judged:?}"))),
        }
    }

    /// Whether an atom is true, and whether it is in the fitting.
    pub fn mark(&self, atom: &Atom) -> (u8, u8) {
        let number = self.accepted.ticket.number(atom);
        (self.truth[number], self.answer[number])
    }

    pub fn accepted(&self) -> &Accepted {
        self.accepted
    }

    fn marked(&self, marks: &[u8]) -> Vec<Atom> {
        let atoms = self.accepted.ticket.ground_atoms().into_iter().zip(marks);
        atoms.filter(|(_, mark)| **mark == 1).map(|(atom, _)| atom).collect()
    }

    /// All its atoms, in the order of their numbers.
    pub fn atoms(&self) -> Vec<Atom> {
        self.marked(&self.answer)
    }

    /// Those that are true.
    pub fn true_atoms(&self) -> Vec<Atom> {
        self.marked(&self.truth)
    }

    /// All of it, an atom in each line.
    pub fn whole(&self) -> String {
        let atoms = self.atoms();
        let heading = format!("fitting: {} of {} atoms\n", atoms.len(), self.accepted.ticket.atoms());
        std::iter::once(heading).chain(self.accepted.atoms(&atoms).iter().map(|atom| format!("  {atom}\n"))).collect()
    }

    /// What is true in it, of all predicates or of those shown.
    pub fn what_is_true(&self, shown: Option<&[u8]>) -> String {
        let (all, atoms) = (self.atoms().len(), self.true_atoms());
        let of = |predicate: u8| -> Vec<&Atom> { atoms.iter().filter(|atom| atom.predicate == predicate).collect() };
        let predicates = (0..self.accepted.ticket.arities.len() as u8).filter(|predicate| shown.is_none_or(|shown| shown.contains(predicate)));
        let mut words = format!("fitting: {} true\n", atoms.len());
        for predicate in predicates {
            let own = of(predicate);
            let is_grid = self.accepted.ticket.arities[predicate as usize] == 2 && own.len() > 1;
            words += &if is_grid { self.grid(predicate, &own) } else { self.list(&own) };
        }
        let unwanted = all - atoms.len();
        let noun = if unwanted == 1 { "atom" } else { "atoms" };
        words + &format!("and {unwanted} {noun} that nobody wants, part of the fitting: --all lists them\n")
    }

    /// Atoms in lines of bounded width.
    fn list(&self, atoms: &[&Atom]) -> String {
        let mut lines: Vec<String> = Vec::new();
        for atom in atoms.iter().map(|atom| self.accepted.atom(atom)) {
            match lines.last_mut().filter(|line| line.chars().count() + atom.chars().count() + 2 <= WIDTH) {
                Some(line) => *line += &format!(", {atom}"),
                None => lines.push(format!("  {atom}")),
            }
        }
        lines.into_iter().map(|line| line + "\n").collect()
    }

    /// A row for each first argument and a column for each second one, as far as they occur.
    fn grid(&self, predicate: u8, atoms: &[&Atom]) -> String {
        let [rows, columns] = [0, 1].map(|i| atoms.iter().map(|atom| atom.arguments[i]).collect::<BTreeSet<u8>>());
        let (name, constant) = (self.accepted.predicate(predicate), |constant: u8| self.accepted.constant(constant));
        let first = rows.iter().map(|row| constant(*row).chars().count()).chain([name.chars().count()]).max().unwrap_or(0);
        let heading: String = columns.iter().map(|column| format!("  {}", constant(*column))).collect();
        let mut lines = format!("  {name:first$}{heading}\n");
        for row in &rows {
            let cell = |column: &u8| {
                let is_in = atoms.iter().any(|atom| atom.arguments[..] == [*row, *column]);
                format!("  {:<1$}", if is_in { "x" } else { "." }, constant(*column).chars().count())
            };
            let cells: String = columns.iter().map(cell).collect();
            lines += &format!("  {:first$}{}\n", constant(*row), cells.trim_end());
        }
        lines
    }
}
