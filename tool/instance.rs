//! An instance that the command line names, and where its rule gives out in an answer.

use crate::arguments;
use crate::ending::Failure;
use crate::library::{self, Held, Judged};
use crate::source::Accepted;
use crate::spell::{counted, hex};
use crate::ticket::Atom;

/// An instance by its clause and a value for each of its variables.
struct Named {
    clause: u32,
    values: Vec<u8>,
}

/// What is said of an instance.
pub struct Told {
    pub verdict: &'static str,
    pub clause: usize,
    pub values: Vec<u8>,
    /// how many conditions are in the answer, before the first that is not
    pub hold: usize,
    /// what follows the verdict
    pub words: String,
}

/// What `--at` says: where the rule gives out in the answer, that it is satisfied, or that it is violated.
pub fn at(words: &str, accepted: &Accepted, marks: &[u8]) -> Result<Told, Failure> {
    let named = Named::by(words, accepted)?;
    let hold = match library::holding(&accepted.table, marks, named.clause, &named.values)? {
        Held::Conditions(hold) => hold,
        Held::Lacking => return Err(Failure::refused(lacking(accepted, named.clause))),
        Held::BadAnswer => return Err(bad_answer()),
    };
    if !named.is_known(accepted) {
        return Err(Failure::disagreement("lutsamik_holding accepts an instance that the ticket lacks"));
    }
    let (clause, values) = (named.clause as usize, &named.values[..]);
    let [conditions, alternatives] = accepted.instance_atoms(clause, values);
    let is_in = |atom: &Atom| marks[accepted.ticket.number(atom)] == 1;
    if conditions.iter().take_while(|atom| is_in(atom)).count() != hold {
        let instance = accepted.instance(clause, values);
        return Err(Failure::disagreement(format!("lutsamik_holding says that {hold} conditions hold of {instance}")));
    }
    let offered: Vec<Atom> = alternatives.into_iter().filter(is_in).collect();
    match conditions.get(hold) {
        Some(first) => Ok(gives_out(accepted, &named, &conditions, hold, first)),
        None if offered.is_empty() => violated(accepted, marks, clause, values),
        None => Ok(satisfied(accepted, &named, &conditions, &offered)),
    }
}

/// An instance that the answer violates: by the library all its conditions hold, and the answer is no fitting.
pub fn violated(accepted: &Accepted, marks: &[u8], clause: usize, values: &[u8]) -> Result<Told, Failure> {
    let [conditions, alternatives] = accepted.instance_atoms(clause, values);
    let own = &values[..accepted.ticket.clauses[clause].variables()];
    let held = library::holding(&accepted.table, marks, clause as u32, own)?;
    let judged = library::judge(&accepted.table, marks)?;
    if held != Held::Conditions(conditions.len()) || judged == Judged::Fitting {
        let name = accepted.instance_name(clause, values);
        return Err(Failure::disagreement(format!("{name} is violated, and lutsamik_holding says {held:?}, lutsamik_judge {judged:?}")));
    }
    let hold = conditions.len();
    let [conditions, alternatives] = [conditions, alternatives].map(|atoms| list(accepted, &atoms, "it has none"));
    let told = format!("conditions, all in the answer: {conditions}\nalternatives, none in the answer: {alternatives}\n");
    let words = heading(accepted, clause, values, "") + &told;
    Ok(Told { verdict: "violated", clause, values: own.to_vec(), hold, words })
}

fn satisfied(accepted: &Accepted, named: &Named, conditions: &[Atom], offered: &[Atom]) -> Told {
    let hold = conditions.len();
    let [conditions, offered] = [conditions, offered].map(|atoms| list(accepted, atoms, "it has none"));
    let told = format!("conditions, all in the answer: {conditions}\nalternatives in the answer: {offered}\n");
    named.told(accepted, "satisfied", hold, "", &told)
}

fn gives_out(accepted: &Accepted, named: &Named, conditions: &[Atom], hold: usize, first: &Atom) -> Told {
    let after = format!(", after {hold} of {}", counted(conditions.len(), "condition"));
    let (before, first) = (list(accepted, &conditions[..hold], "none"), accepted.atom(first));
    let told = format!("conditions in the answer, before it gives out: {before}\nfirst condition not in the answer: {first}\n");
    named.told(accepted, "gives out", hold, &after, &told)
}

/// The instance's name, with some words after it, and its rule.
fn heading(accepted: &Accepted, clause: usize, values: &[u8], after: &str) -> String {
    format!("{}{after}\nrule: {}\n", accepted.instance_name(clause, values), accepted.rule(clause))
}

/// Atoms by name, or words for none.
fn list(accepted: &Accepted, atoms: &[Atom], none: &str) -> String {
    if atoms.is_empty() { none.to_string() } else { accepted.atoms(atoms).join(", ") }
}

pub fn bad_answer() -> Failure {
    Failure::refused("the answer is refused, by 32: a byte of it is neither 0 nor 1")
}

/// Why there is no such instance.
fn lacking(accepted: &Accepted, clause: u32) -> String {
    let (clauses, constants) = (accepted.ticket.clauses.len(), accepted.ticket.constants as usize);
    let known = if clause as usize >= clauses { counted(clauses, "clause") } else { counted(constants, "constant") };
    format!("the instance is refused, by 44: the ticket has {known}, and they count from 0")
}

impl Named {
    /// A clause's number and a constant for each variable, with commas or blanks between them.
    fn by(words: &str, accepted: &Accepted) -> Result<Named, Failure> {
        let mut words = words.split([',', ' ']).filter(|word| !word.is_empty());
        let number = words.next().unwrap_or_default();
        let no_clause = || Failure::usage(format!("--at takes a clause's number first, and then constants, as in 1,00; '{number}' is no number"));
        let clause = arguments::number(number).ok_or_else(no_clause)?;
        let values = words.map(|word| constant(word, accepted)).collect::<Result<Vec<u8>, _>>()?;
        match accepted.ticket.clauses.get(clause as usize).map(|clause| clause.variables()) {
            Some(variables) if variables != values.len() => {
                let (has, given) = (counted(variables, "variable"), counted(values.len(), "constant"));
                Err(Failure::usage(format!("clause {clause} has {has}, and --at gives {given}: {}", accepted.rule(clause as usize))))
            }
            _ => Ok(Named { clause, values }),
        }
    }

    /// What is said of it, with some words after its name.
    fn told(&self, accepted: &Accepted, verdict: &'static str, hold: usize, after: &str, told: &str) -> Told {
        let clause = self.clause as usize;
        let words = heading(accepted, clause, &self.values, after) + told;
        Told { verdict, clause, values: self.values.clone(), hold, words }
    }

    /// Whether the ticket has this clause and these constants.
    fn is_known(&self, accepted: &Accepted) -> bool {
        (self.clause as usize) < accepted.ticket.clauses.len() && self.values.iter().all(|value| *value < accepted.ticket.constants)
    }
}

/// A constant by its name, or by its two digits in the ticket's text. A name comes first.
fn constant(word: &str, accepted: &Accepted) -> Result<u8, Failure> {
    let by_name = accepted.names.as_ref().and_then(|names| names.constant(word));
    let by_digits = || (0..=u8::MAX).find(|byte| hex(&[*byte]) == word);
    let unknown = || Failure::usage(format!("'{word}' is no constant: --at takes constants by name, or by two digits as in the ticket"));
    by_name.or_else(by_digits).ok_or_else(unknown)
}
