//! A sheet's rules as the clause frames of a ticket: names become numbers, and variables are numbered as they appear.

use super::frames::CLAUSE;
use super::names::{Names, FIRST_VARIABLE};
use super::sheet::{Atom, Rule};
use super::words::{Kind, Word};
use super::{Error, Origin};

pub const MOST_CLAUSES: usize = 64;
const MOST_ATOMS: usize = 4;
pub const MOST_VARIABLES: usize = 4;
const MOST_MARKS: u64 = 16384;

/// The frame of each rule, with what it came from.
pub fn frames(rules: &[Rule], names: &Names) -> Result<Vec<(Vec<u8>, Origin)>, Error> {
    let mut frames = Vec::new();
    let mut sum = 0;
    for rule in rules {
        if frames.len() == MOST_CLAUSES {
            return Err(Error::at(rule.place, format!("this is one rule too many: at most {MOST_CLAUSES}")));
        }
        let (frame, called) = frame(rule, names)?;
        let (n, c, variables) = (rule.conditions.len() as u64, names.constants().len() as u64, called.len() as u32);
        let marks = n * c.pow(variables);
        sum += marks;
        if sum > MOST_MARKS {
            let this = format!("this rule counts {n} * {c}^{variables} = {marks}, conditions * constants^variables");
            return Err(Error::at(rule.place, format!("{this}; with it the sum over the rules is {sum}, at most {MOST_MARKS}")));
        }
        let variables = called.into_iter().map(str::to_string).collect();
        frames.push((frame, Origin { part: rule.place.file, file: None, line: rule.place.line, variables }));
    }
    Ok(frames)
}

/// A rule's frame and its variables, in the order of their numbers.
pub fn frame<'a>(rule: &Rule<'a>, names: &'a Names) -> Result<(Vec<u8>, Vec<&'a str>), Error> {
    few("condition", &rule.conditions)?;
    few("alternative", &rule.alternatives)?;
    let frame = vec![CLAUSE, rule.conditions.len() as u8, rule.alternatives.len() as u8];
    let mut clause = Clause { names, variables: Vec::new(), frame };
    rule.conditions.iter().try_for_each(|atom| clause.add(atom, Clause::any_variable))?;
    rule.alternatives.iter().try_for_each(|atom| clause.add(atom, Clause::known_variable))?;
    Ok((clause.frame, clause.variables))
}

/// A rule's frame, however many conditions, alternatives and variables it has, and wherever these stand. Numbers that a byte cannot hold are the
/// largest ones that it can.
pub fn frame_of_any(rule: &Rule, names: &Names) -> Result<Vec<u8>, Error> {
    let [n, m] = [&rule.conditions, &rule.alternatives].map(|atoms| u8::try_from(atoms.len()).unwrap_or(u8::MAX));
    let mut clause = Clause { names, variables: Vec::new(), frame: vec![CLAUSE, n, m] };
    rule.conditions.iter().chain(&rule.alternatives).try_for_each(|atom| clause.add(atom, Clause::next_variable))?;
    Ok(clause.frame)
}

fn few(what: &str, atoms: &[Atom]) -> Result<(), Error> {
    match atoms.get(MOST_ATOMS) {
        None => Ok(()),
        Some(atom) => Err(Error::at(atom.name.place, format!("this is one {what} too many: a rule has at most {MOST_ATOMS}"))),
    }
}

/// A clause as far as it is translated, with the variables that have appeared.
struct Clause<'a> {
    names: &'a Names,
    variables: Vec<&'a str>,
    frame: Vec<u8>,
}

/// A variable's number in its clause.
type Variable<'a> = fn(&mut Clause<'a>, &Word<'a>) -> Result<usize, Error>;

impl<'a> Clause<'a> {
    fn add(&mut self, atom: &Atom<'a>, variable: Variable<'a>) -> Result<(), Error> {
        let (name, place) = (atom.name.text, atom.name.place);
        let Some((predicate, arity)) = self.names.predicate(name) else {
            return Err(Error::at(place, format!("no predicate '{name}' is declared")));
        };
        if atom.arguments.len() != arity as usize {
            return Err(Error::at(place, format!("'{name}' has {} here, but is declared as {name}/{arity}", arguments(atom.arguments.len()))));
        }
        self.frame.push(predicate);
        for argument in &atom.arguments {
            let byte = match argument.kind {
                Kind::Variable => u8::try_from(FIRST_VARIABLE as usize + variable(self, argument)?).unwrap_or(u8::MAX),
                _ => self.constant(argument)?,
            };
            self.frame.push(byte);
        }
        Ok(())
    }

    fn constant(&self, word: &Word) -> Result<u8, Error> {
        self.names.constant(word.text).ok_or_else(|| Error::at(word.place, format!("no constant '{}' is declared", word.text)))
    }

    fn any_variable(&mut self, word: &Word<'a>) -> Result<usize, Error> {
        if let Some(number) = self.number(word) {
            return Ok(number);
        }
        if self.variables.len() == MOST_VARIABLES {
            return Err(Error::at(word.place, format!("'{}' is one variable too many: a rule has at most {MOST_VARIABLES}", word.text)));
        }
        self.next_variable(word)
    }

    /// Without a limit.
    fn next_variable(&mut self, word: &Word<'a>) -> Result<usize, Error> {
        let number = self.number(word).unwrap_or(self.variables.len());
        if number == self.variables.len() {
            self.variables.push(word.text);
        }
        Ok(number)
    }

    fn known_variable(&mut self, word: &Word<'a>) -> Result<usize, Error> {
        self.number(word).ok_or_else(|| Error::at(word.place, format!("the variable '{}' stands in no condition of this rule", word.text)))
    }

    fn number(&self, word: &Word) -> Option<usize> {
        self.variables.iter().position(|variable| *variable == word.text && word.text != "_")
    }
}

fn arguments(many: usize) -> String {
    match many {
        0 => "no arguments".to_string(),
        1 => "1 argument".to_string(),
        _ => format!("{many} arguments"),
    }
}
