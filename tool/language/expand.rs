//! The rules that a written rule stands for. Lists and ranges of constants, "not the same", several goals and "so many of" are gone then.

use super::clauses::MOST_VARIABLES;
use super::names::{self, Names};
use super::sheet::{Atom, Constants, Goal, Listed, Rule, Written};
use super::words::{Kind, Word};
use super::Error;

/// A set that is counted has at most so many atoms.
const MOST_COUNTED: usize = 1024;
const MOST_ATOMS: usize = 4;

/// All rules, or the first ones if there are more than so many.
pub fn rules<'a>(written: &[Written<'a>], names: &'a Names, most: usize) -> Result<Vec<Rule<'a>>, Error> {
    let mut rules = Vec::new();
    for rule in written {
        if rules.len() > most {
            break;
        }
        Expansion { names, most: most + 1, rules: &mut rules }.written(rule)?;
    }
    Ok(rules)
}

struct Expansion<'e, 'a> {
    names: &'a Names,
    /// No rule is added to so many.
    most: usize,
    rules: &'e mut Vec<Rule<'a>>,
}

impl<'a> Expansion<'_, 'a> {
    fn written(&mut self, written: &Written<'a>) -> Result<(), Error> {
        let conditions = self.choices(&written.conditions)?;
        let goals = self.goals(written)?;
        for (many, goal) in goals {
            let room = self.most.saturating_sub(self.rules.len());
            let atoms: Vec<Vec<Atom<'a>>> = conditions.iter().cloned().chain(goal).collect();
            for atoms in products(&atoms).take(room) {
                let (before, after) = atoms.split_at(conditions.len());
                let (more, alternatives) = after.split_at(many);
                let rule = Rule { place: written.place, conditions: [before, more].concat(), alternatives: alternatives.to_vec() };
                self.apart(written, rule)?;
            }
        }
        Ok(())
    }

    /// For each rule how many further conditions it has, and these and its alternatives, each with what it can be.
    fn goals(&self, written: &Written<'a>) -> Result<Vec<(usize, Vec<Vec<Atom<'a>>>)>, Error> {
        match &written.goal {
            Goal::Any(atoms) => Ok(vec![(0, self.choices(atoms)?)]),
            Goal::All(atoms) => atoms.iter().take(self.most).map(|atom| Ok((0, vec![self.listed(atom, self.most)?]))).collect(),
            Goal::Count { least, most, set } => {
                let set = self.set(set)?;
                let mut goals = Vec::new();
                if let Some(most) = most {
                    goals.extend(self.at_most(written, *most as usize, &set)?);
                }
                if let Some(least) = least {
                    goals.extend(self.at_least(written, *least as usize, &set)?);
                }
                Ok(goals)
            }
        }
    }

    /// What each of these atoms can be. Where there are more than a rule can have, each is one thing: the rule is refused in any case.
    fn choices(&self, atoms: &[Listed<'a>]) -> Result<Vec<Vec<Atom<'a>>>, Error> {
        let most = if atoms.len() > MOST_ATOMS { 1 } else { self.most };
        atoms.iter().map(|atom| self.listed(atom, most)).collect()
    }

    /// The atoms of a set that is counted.
    fn set(&self, listed: &[Listed<'a>]) -> Result<Vec<Atom<'a>>, Error> {
        let mut set = Vec::new();
        for atom in listed {
            set.extend(self.listed(atom, MOST_COUNTED + 1)?);
            if set.len() > MOST_COUNTED {
                return Err(Error::at(atom.name.place, format!("with this there are more atoms to be counted than {MOST_COUNTED}")));
            }
        }
        Ok(set)
    }

    /// No more than so many: those of each larger set do not hold together.
    fn at_most(&self, written: &Written<'a>, most: usize, set: &[Atom<'a>]) -> Result<Vec<(usize, Vec<Vec<Atom<'a>>>)>, Error> {
        let many = most.saturating_add(1);
        if many > set.len() {
            return Ok(Vec::new());
        }
        if written.conditions.len() + many > MOST_ATOMS {
            let needs = written.conditions.len() + many;
            return Err(Error::at(written.place, format!("at most {most} of {} needs rules with {needs} conditions: a rule has at most {MOST_ATOMS}", set.len())));
        }
        Ok(subsets(set, many, self.most).into_iter().map(|subset| (many, singles(subset))).collect())
    }

    /// So many at least: of each set that the others leave one holds.
    fn at_least(&self, written: &Written<'a>, least: usize, set: &[Atom<'a>]) -> Result<Vec<(usize, Vec<Vec<Atom<'a>>>)>, Error> {
        if least == 0 {
            return Ok(Vec::new());
        }
        let many = (set.len() + 1).saturating_sub(least);
        if many > MOST_ATOMS {
            let words = format!("at least {least} of {} needs rules with {many} alternatives: a rule has at most {MOST_ATOMS}", set.len());
            return Err(Error::at(written.place, words));
        }
        Ok(subsets(set, many, self.most).into_iter().map(|subset| (0, singles(subset))).collect())
    }

    /// Adds the instances of a rule in which no two are the same that must not be; of two variables that the rule does not tell apart, each pair once.
    fn apart(&mut self, written: &Written<'a>, rule: Rule<'a>) -> Result<(), Error> {
        let mut variables: Vec<&'a str> = Vec::new();
        for word in written.apart.iter().flatten().filter(|word| word.kind == Kind::Variable) {
            if variables.contains(&word.text) {
                continue;
            }
            if !rule.conditions.iter().any(|atom| atom.arguments.iter().any(|argument| argument.text == word.text && word.text != "_")) {
                return Err(Error::at(word.place, format!("the variable '{}' stands in no condition of this rule", word.text)));
            }
            if variables.len() == MOST_VARIABLES {
                return Err(Error::at(word.place, format!("'{}' is one variable too many: a rule has at most {MOST_VARIABLES}", word.text)));
            }
            variables.push(word.text);
        }
        for word in written.apart.iter().flatten().filter(|word| word.kind != Kind::Variable) {
            self.names.constant(word.text).ok_or_else(|| Error::at(word.place, format!("no constant '{}' is declared", word.text)))?;
        }
        let is_even = written.apart.len() == 1 && variables.len() == 2 && swapped(&rule, variables[0], variables[1]);
        let constants: Vec<Vec<&'a str>> = variables.iter().map(|_| self.names.constants().iter().map(String::as_str).collect()).collect();
        for values in products(&constants) {
            let value = |word: &Word<'a>| variables.iter().position(|variable| *variable == word.text).map_or(word.text, |i| values[i]);
            let number = |i: usize| self.names.constant(values[i]);
            let is_left = written.apart.iter().all(|[a, b]| value(a) != value(b)) && !(is_even && number(0) > number(1));
            if self.rules.len() == self.most {
                return Ok(());
            }
            if is_left {
                self.rules.push(under(&rule, &variables, &values));
            }
        }
        Ok(())
    }

    /// What an atom with lists and ranges can be; so many at most.
    fn listed(&self, atom: &Listed<'a>, most: usize) -> Result<Vec<Atom<'a>>, Error> {
        let items = |items: &Vec<Constants<'a>>| Ok(items.iter().map(|item| self.item(item)).collect::<Result<Vec<_>, Error>>()?.concat());
        let arguments = atom.arguments.iter().map(items).collect::<Result<Vec<_>, Error>>()?;
        Ok(products(&arguments).take(most).map(|arguments| Atom { name: atom.name, arguments }).collect())
    }

    /// A constant or a variable, or each constant of a range.
    fn item(&self, item: &Constants<'a>) -> Result<Vec<Word<'a>>, Error> {
        if item.last.is_none() {
            return Ok(vec![item.first]);
        }
        let word = |name: String| {
            let found = self.names.constants().iter().find(|constant| **constant == name);
            let text = found.ok_or_else(|| Error::at(item.first.place, format!("no constant '{name}' is declared")))?;
            Ok(Word { kind: Kind::Name, text, place: item.first.place })
        };
        names::range(item)?.map(word).collect()
    }
}

/// Each as the only thing that it can be.
fn singles(atoms: Vec<Atom>) -> Vec<Vec<Atom>> {
    atoms.into_iter().map(|atom| vec![atom]).collect()
}

/// Each way to take one of each, the first one slowest.
fn products<T: Clone>(choices: &[Vec<T>]) -> impl Iterator<Item = Vec<T>> + '_ {
    let first = (!choices.iter().any(Vec::is_empty)).then(|| vec![0; choices.len()]);
    let next = move |at: &Vec<usize>| {
        let mut next = at.clone();
        let last = (0..next.len()).rev().find(|i| next[*i] + 1 < choices[*i].len())?;
        next[last] += 1;
        next[last + 1..].fill(0);
        Some(next)
    };
    std::iter::successors(first, next).map(move |at| at.iter().zip(choices).map(|(i, choice)| choice[*i].clone()).collect())
}

/// Each way to take so many, in their order; so many ways at most.
fn subsets<T: Clone>(set: &[T], many: usize, most: usize) -> Vec<Vec<T>> {
    let mut chosen = Vec::new();
    let mut at: Vec<usize> = (0..many).collect();
    while chosen.len() < most && many <= set.len() {
        chosen.push(at.iter().map(|i| set[*i].clone()).collect());
        let Some(last) = (0..many).rev().find(|i| at[*i] < set.len() - many + i) else { break };
        at[last] += 1;
        (last + 1..many).for_each(|i| at[i] = at[i - 1] + 1);
    }
    chosen
}

/// The rule with these values put for these variables.
fn under<'a>(rule: &Rule<'a>, variables: &[&str], values: &[&'a str]) -> Rule<'a> {
    let argument = |word: &Word<'a>| match variables.iter().position(|variable| word.kind == Kind::Variable && *variable == word.text) {
        Some(i) => Word { kind: Kind::Name, text: values[i], place: word.place },
        None => *word,
    };
    let atoms = |atoms: &[Atom<'a>]| {
        let atom = |atom: &Atom<'a>| Atom { name: atom.name, arguments: atom.arguments.iter().map(argument).collect() };
        atoms.iter().map(atom).collect()
    };
    Rule { place: rule.place, conditions: atoms(&rule.conditions), alternatives: atoms(&rule.alternatives) }
}

/// Whether a rule says the same with two variables for each other.
fn swapped(rule: &Rule, a: &str, b: &str) -> bool {
    let spelt = |atoms: &[Atom], [x, y]: [&str; 2]| {
        let argument = |word: &Word| match word.text {
            text if text == a => x.to_string(),
            text if text == b => y.to_string(),
            text => text.to_string(),
        };
        let mut spelt: Vec<Vec<String>> =
            atoms.iter().map(|atom| std::iter::once(atom.name.text.to_string()).chain(atom.arguments.iter().map(argument)).collect()).collect();
        spelt.sort();
        spelt
    };
    [&rule.conditions, &rule.alternatives].iter().all(|atoms| spelt(atoms, [a, b]) == spelt(atoms, [b, a]))
}
