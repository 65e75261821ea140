//! How atoms, rules and instances of a ticket are written: as in the sheet that they came from, or by names where those are known, else as in the
//! ticket's text.

use crate::json::Json;
use crate::language::{Origin, VARIABLES};
use crate::source::Accepted;
use crate::spell::hex;
use crate::ticket::{Atom, FIRST_VARIABLE};

impl Accepted {
    pub fn atom(&self, atom: &Atom) -> String {
        match &self.names {
            Some(names) => names.atom(atom.predicate, &atom.arguments),
            None => hex(&atom.bytes()),
        }
    }

    pub fn predicate(&self, predicate: u8) -> String {
        self.names.as_ref().map_or_else(|| hex(&[predicate]), |names| names.atom(predicate, &[]))
    }

    pub fn constant(&self, constant: u8) -> String {
        self.names.as_ref().map_or_else(|| hex(&[constant]), |names| names.argument(constant, &VARIABLES))
    }

    pub fn atoms(&self, atoms: &[Atom]) -> Vec<String> {
        atoms.iter().map(|atom| self.atom(atom)).collect()
    }

    /// A clause with its variables, by its number.
    pub fn rule(&self, clause: usize) -> String {
        let variables = self.variables(clause);
        let atoms = |atoms: &[Atom]| -> Vec<String> {
            let atom = |atom: &Atom| self.names.as_ref().map_or_else(|| hex(&atom.bytes()), |names| names.atom_with(atom.predicate, &atom.arguments, &variables));
            atoms.iter().map(atom).collect()
        };
        let clause = &self.ticket.clauses[clause];
        implication(&atoms(&clause.conditions), &atoms(&clause.alternatives))
    }

    /// What a clause's variables are called.
    fn variables(&self, clause: usize) -> Vec<&str> {
        match self.origins.get(clause) {
            Some(origin) => origin.variables.iter().map(String::as_str).collect(),
            None => VARIABLES.to_vec(),
        }
    }

    /// An instance of a clause.
    pub fn instance(&self, clause: usize, values: &[u8]) -> String {
        let [conditions, alternatives] = self.instance_atoms(clause, values).map(|atoms| self.atoms(&atoms));
        implication(&conditions, &alternatives)
    }

    /// The conditions and the alternatives of an instance.
    pub fn instance_atoms(&self, clause: usize, values: &[u8]) -> [Vec<Atom>; 2] {
        let clause = &self.ticket.clauses[clause];
        [&clause.conditions, &clause.alternatives].map(|atoms| atoms.iter().map(|atom| atom.under(values)).collect())
    }

    /// A clause by its line in the sheet, and its number.
    pub fn clause_name(&self, clause: usize) -> String {
        let number = self.clause_number(clause);
        match self.origins.get(clause) {
            Some(Origin { file: Some(file), line, .. }) => format!("{file}:{line} (clause {number})"),
            Some(Origin { line, .. }) => format!("line {line} (clause {number})"),
            None => format!("clause {number}"),
        }
    }

    fn clause_number(&self, clause: usize) -> usize {
        self.numbers.get(clause).copied().unwrap_or(clause)
    }

    /// An instance by its clause and its variables' values.
    pub fn instance_name(&self, clause: usize, values: &[u8]) -> String {
        let own = &values[..self.ticket.clauses[clause].variables()];
        let variables = self.variables(clause);
        let value = |(i, value): (usize, &u8)| match &self.names {
            Some(names) => format!("{} = {}", variables.get(i).unwrap_or(&"_"), names.argument(*value, &VARIABLES)),
            None => format!("{} = {}", hex(&[FIRST_VARIABLE + i as u8]), hex(&[*value])),
        };
        let (name, values) = (self.clause_name(clause), own.iter().enumerate().map(value).collect::<Vec<_>>());
        if values.is_empty() { name } else { format!("{name} with {}", values.join(", ")) }
    }

    /// A clause as JSON has it.
    pub fn clause_fields(&self, clause: usize) -> Vec<(&'static str, Json)> {
        let line = self.origins.get(clause).map_or(Json::Null, |origin| Json::number(origin.line));
        vec![("clause", Json::number(self.clause_number(clause))), ("line", line), ("rule", Json::text(self.rule(clause)))]
    }

    /// An instance as JSON has it: the values are those of its variables, as they first appear in the rule.
    pub fn instance_fields(&self, clause: usize, values: &[u8]) -> Vec<(&'static str, Json)> {
        let own = &values[..self.ticket.clauses[clause].variables()];
        let [conditions, alternatives] = self.instance_atoms(clause, values).map(|atoms| Json::texts(self.atoms(&atoms)));
        let mut fields = self.clause_fields(clause);
        fields.push(("values", Json::texts(own.iter().map(|value| self.constant(*value)).collect())));
        fields.extend([("conditions", conditions), ("alternatives", alternatives)]);
        fields
    }

    /// Why an instance without alternatives closes a place.
    pub fn reason(&self, clause: usize, values: &[u8]) -> String {
        let [conditions, _] = self.instance_atoms(clause, values).map(|atoms| self.atoms(&atoms));
        match &conditions[..] {
            [] => "it is false by itself".to_string(),
            [one] => format!("{one} never holds"),
            [some @ .., last] => format!("{} and {last} never hold together", some.join(", ")),
        }
    }
}

fn implication(conditions: &[String], alternatives: &[String]) -> String {
    let goal = if alternatives.is_empty() { "false".to_string() } else { alternatives.join(" | ") };
    if conditions.is_empty() { goal } else { format!("{} -> {goal}", conditions.join(" & ")) }
}
