//! What the constants and predicates of a ticket are called, by their numbers, and how a sheet declares them.

use super::sheet::{Constants, Predicate, Sheet};
use super::words::Place;
use super::Error;

const MOST_CONSTANTS: usize = 32;
const MOST_PREDICATES: usize = 32;
const MOST_ARGUMENTS: u32 = 3;
const MOST_ATOMS: usize = 1024;

/// The first variable of a clause; there are four.
pub const FIRST_VARIABLE: u8 = 0x80;
pub const VARIABLES: [&str; 4] = ["X", "Y", "Z", "W"];

/// The names of a ticket's constants, and of its predicates with their arities, in the ticket's order.
#[derive(Clone, Debug, PartialEq, Eq)]
pub struct Names {
    constants: Vec<String>,
    predicates: Vec<(String, u8)>,
}

impl Names {
    /// Names for a ticket that has none: a constant is its number, and predicates are p0, p1 and so on.
    pub fn plain(constants: u8, arities: &[u8]) -> Names {
        Names {
            constants: (0..constants).map(|constant| constant.to_string()).collect(),
            predicates: arities.iter().enumerate().map(|(i, arity)| (format!("p{i}"), *arity)).collect(),
        }
    }

    /// The same names where each constant has another number.
    pub fn renumbered(&self, numbers: &[u8]) -> Names {
        let mut named: Vec<_> = numbers.iter().zip(self.constants.clone()).collect();
        named.sort();
        Names { constants: named.into_iter().map(|(_, name)| name).collect(), ..self.clone() }
    }

    /// An atom as a sheet has it, with the usual variables. A number without a name stands as in a ticket without names.
    pub fn atom(&self, predicate: u8, args: &[u8]) -> String {
        self.atom_with(predicate, args, &VARIABLES)
    }

    /// An atom of a clause whose variables are called so.
    pub fn atom_with(&self, predicate: u8, args: &[u8], variables: &[impl AsRef<str>]) -> String {
        let name = self.predicates.get(predicate as usize).map_or_else(|| format!("p{predicate}"), |(name, _)| name.clone());
        if args.is_empty() {
            return name;
        }
        let args: Vec<String> = args.iter().map(|arg| self.argument(*arg, variables)).collect();
        format!("{name}({})", args.join(", "))
    }

    /// A constant or a variable.
    pub fn argument(&self, arg: u8, variables: &[impl AsRef<str>]) -> String {
        let variable = arg.checked_sub(FIRST_VARIABLE).and_then(|number| variables.get(number as usize));
        let name = variable.map(|name| name.as_ref().to_string()).or_else(|| self.constants.get(arg as usize).cloned());
        name.unwrap_or_else(|| arg.to_string())
    }

    pub(super) fn constants(&self) -> &[String] {
        &self.constants
    }

    pub(super) fn predicates(&self) -> &[(String, u8)] {
        &self.predicates
    }

    pub(super) fn arities(&self) -> impl Iterator<Item = u8> + '_ {
        self.predicates.iter().map(|(_, arity)| *arity)
    }

    pub fn constant(&self, name: &str) -> Option<u8> {
        self.constants.iter().position(|constant| constant == name).map(|number| number as u8)
    }

    /// A predicate's number and arity.
    pub(super) fn predicate(&self, name: &str) -> Option<(u8, u8)> {
        let number = self.predicates.iter().position(|(predicate, _)| predicate == name)?;
        Some((number as u8, self.predicates[number].1))
    }

    /// The names that a sheet declares, in its order.
    pub(super) fn declared(sheet: &Sheet) -> Result<Names, Error> {
        let mut constants = Declared::new("constant", MOST_CONSTANTS);
        sheet.constants.iter().try_for_each(|item| add_constants(&mut constants, item))?;
        let constants = constants.names();
        let predicates = predicates(sheet, constants.len())?;
        Ok(Names { constants, predicates })
    }
}

/// The constant, or each of a range.
fn add_constants(constants: &mut Declared, item: &Constants) -> Result<(), Error> {
    range(item)?.try_for_each(|name| constants.add(name, item.first.place))
}

/// The names of a constant or of a range: of numbers, or of names that end in numbers and are alike before them.
pub(super) fn range(item: &Constants) -> Result<impl Iterator<Item = String>, Error> {
    let wrong = |what: &str| Error::at(item.first.place, format!("the range {}..{} {what}", item.first.text, item.last.unwrap_or(item.first).text));
    let (stem, first, last) = match item.last {
        None => (item.first.text, None, 0),
        Some(last) => match (numbered(item.first.text), numbered(last.text)) {
            (Some((stem, first)), Some((other, last))) if stem == other => (stem, Some(first), last),
            _ => return Err(wrong("is none: both names end in a number, and are the same before it")),
        },
    };
    if first.is_some_and(|first| first > last) {
        return Err(wrong("goes down"));
    }
    let stem = stem.to_string();
    let single = first.is_none().then(|| stem.clone());
    Ok(single.into_iter().chain(first.into_iter().flat_map(move |first| first..=last).map(move |number| format!("{stem}{number}"))))
}

/// A name before its number, and the number, which has no needless 0.
fn numbered(name: &str) -> Option<(&str, u32)> {
    let stem = name.trim_end_matches(|c: char| c.is_ascii_digit());
    let digits = &name[stem.len()..];
    digits.parse().ok().filter(|number: &u32| number.to_string() == digits).map(|number| (stem, number))
}

/// The predicates with their arities, and not too many ground atoms of them.
fn predicates(sheet: &Sheet, constants: usize) -> Result<Vec<(String, u8)>, Error> {
    let mut declared = Declared::new("predicate", MOST_PREDICATES);
    let mut atoms = 0;
    for Predicate { name, arity, arity_place } in &sheet.predicates {
        declared.add(name.text.to_string(), name.place)?;
        if *arity > MOST_ARGUMENTS {
            return Err(Error::at(*arity_place, format!("a predicate has at most {MOST_ARGUMENTS} arguments")));
        }
        atoms += constants.pow(*arity);
        if atoms > MOST_ATOMS {
            let message = format!("with this predicate there are {atoms} ground atoms, constants^arguments for each predicate; at most {MOST_ATOMS}");
            return Err(Error::at(name.place, message));
        }
    }
    if sheet.predicates.is_empty() {
        return Err(Error::at(sheet.end, "no predicate is declared"));
    }
    let arities = sheet.predicates.iter().map(|predicate| predicate.arity as u8);
    Ok(declared.names().into_iter().zip(arities).collect())
}

/// Names of one kind, as far as they are declared, with their places.
struct Declared {
    kind: &'static str,
    most: usize,
    names: Vec<(String, Place)>,
}

impl Declared {
    fn new(kind: &'static str, most: usize) -> Declared {
        Declared { kind, most, names: Vec::new() }
    }

    fn add(&mut self, name: String, place: Place) -> Result<(), Error> {
        if let Some((_, first)) = self.names.iter().find(|(other, _)| *other == name) {
            return Err(Error::at(place, format!("the {} '{name}' is declared already, on line {}", self.kind, first.line)));
        }
        if self.names.len() == self.most {
            return Err(Error::at(place, format!("'{name}' is one {} too many: at most {}", self.kind, self.most)));
        }
        self.names.push((name, place));
        Ok(())
    }

    fn names(self) -> Vec<String> {
        self.names.into_iter().map(|(name, _)| name).collect()
    }
}
