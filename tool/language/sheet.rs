//! The parts of a sheet as they are written: declarations and rules, with nothing looked up yet.

use super::words::{words, Kind, Place, Word};
use super::Error;

/// Words that can be no names.
const RESERVED: [&str; 4] = ["limit", "constants", "predicates", "false"];

pub struct Sheet<'a> {
    pub limit: Option<u32>,
    pub constants: Vec<Constants<'a>>,
    pub predicates: Vec<Predicate<'a>>,
    pub rules: Vec<Written<'a>>,
    pub end: Place,
}

/// A rule as it is written, which may stand for several.
pub struct Written<'a> {
    pub place: Place,
    pub conditions: Vec<Listed<'a>>,
    /// what must not be the same
    pub apart: Vec<[Word<'a>; 2]>,
    pub goal: Goal<'a>,
}

pub enum Goal<'a> {
    /// one of these holds
    Any(Vec<Listed<'a>>),
    /// all of these hold
    All(Vec<Listed<'a>>),
    /// of these at least and at most so many hold
    Count { least: Option<u32>, most: Option<u32>, set: Vec<Listed<'a>> },
}

/// An atom, of which each argument is a constant or a variable, or a list of constants and ranges.
pub struct Listed<'a> {
    pub name: Word<'a>,
    pub arguments: Vec<Vec<Constants<'a>>>,
}

/// A constant, or a range of them; as an argument also a variable.
pub struct Constants<'a> {
    pub first: Word<'a>,
    pub last: Option<Word<'a>>,
}

pub struct Predicate<'a> {
    pub name: Word<'a>,
    pub arity: u32,
    pub arity_place: Place,
}

#[derive(Clone)]
pub struct Rule<'a> {
    pub place: Place,
    pub conditions: Vec<Atom<'a>>,
    pub alternatives: Vec<Atom<'a>>,
}

#[derive(Clone)]
pub struct Atom<'a> {
    pub name: Word<'a>,
    pub arguments: Vec<Word<'a>>,
}

/// The number and the text of a file that a file includes, by both names; or what is wrong with it.
pub type Include<'i> = dyn FnMut(&str, usize) -> Result<(usize, &'static str), String> + 'i;

pub fn read<'a>(source: &'a str, include: &mut Include) -> Result<Sheet<'a>, Error> {
    let words = words(source, 0)?;
    let end = words[words.len() - 1].place;
    let mut sheet = Sheet { limit: None, constants: Vec::new(), predicates: Vec::new(), rules: Vec::new(), end };
    Reader { words, at: 0 }.statements(&mut sheet, include)?;
    Ok(sheet)
}

/// One rule by itself, of which the full stop may be left out.
pub fn read_rule(source: &str) -> Result<Written<'_>, Error> {
    let mut words = words(source, 0)?;
    let end = words.len() - 1;
    if end == 0 || words[end - 1].text != "." {
        words.insert(end, Word { kind: Kind::Sign, text: ".", place: words[end].place });
    }
    let mut reader = Reader { words, at: 0 };
    let rule = reader.rule()?;
    if reader.next().kind == Kind::End { Ok(rule) } else { Err(reader.expected("one rule")) }
}

/// The words of a sheet, and how many of them are read. The last one, its end, is never passed.
struct Reader<'a> {
    words: Vec<Word<'a>>,
    at: usize,
}

impl<'a> Reader<'a> {
    fn next(&self) -> Word<'a> {
        self.words[self.at]
    }

    /// The word after the next one.
    fn after(&self) -> Word<'a> {
        self.words[(self.at + 1).min(self.words.len() - 1)]
    }

    fn pass(&mut self) -> Word<'a> {
        let word = self.next();
        self.at += (word.kind != Kind::End) as usize;
        word
    }

    fn sees(&self, text: &str) -> bool {
        self.next().text == text
    }

    /// Whether this word comes next; if so, it is passed.
    fn passes(&mut self, text: &str) -> bool {
        let seen = self.sees(text);
        if seen {
            self.pass();
        }
        seen
    }

    /// That something else should stand here: at the next word, or, where that is on a later line of a statement, right
    /// after the last word.
    fn expected(&self, what: &str) -> Error {
        let next = self.next();
        let last = self.words[..self.at].last().filter(|word| word.text != ".");
        let earlier = last.map(Word::end).filter(|end| end.line < next.place.line);
        let found = match next.kind {
            Kind::End => "the sheet ends".to_string(),
            _ if earlier.is_some() => format!("'{}' follows on line {}", next.text, next.place.line),
            _ => format!("'{}' follows", next.text),
        };
        Error::at(earlier.unwrap_or(next.place), format!("expected {what}, but {found}"))
    }

    fn sign(&mut self, sign: &str, expected: &str) -> Result<(), Error> {
        if self.passes(sign) { Ok(()) } else { Err(self.expected(expected)) }
    }

    fn number(&mut self, what: &str) -> Result<(u32, Place), Error> {
        let Kind::Number(number) = self.next().kind else { return Err(self.expected(what)) };
        Ok((number, self.pass().place))
    }

    /// One or more, with this sign between them.
    fn list<T>(&mut self, sign: &str, read: impl Fn(&mut Self) -> Result<T, Error>) -> Result<Vec<T>, Error> {
        let mut list = vec![read(self)?];
        while self.passes(sign) {
            list.push(read(self)?);
        }
        Ok(list)
    }

    fn statements(&mut self, sheet: &mut Sheet<'a>, include: &mut Include) -> Result<(), Error> {
        while self.next().kind != Kind::End {
            if self.sees("include") && self.after().kind == Kind::Quoted {
                self.include(sheet, include)?;
            } else {
                self.statement(sheet)?;
            }
        }
        Ok(())
    }

    /// The statements of another file, in place of this one.
    fn include(&mut self, sheet: &mut Sheet<'a>, include: &mut Include) -> Result<(), Error> {
        self.pass();
        let name = self.pass();
        self.sign(".", "'.'")?;
        let (file, text) = include(name.text, name.place.file).map_err(|wrong| Error::at(name.place, wrong))?;
        Reader { words: words(text, file)?, at: 0 }.statements(sheet, include)
    }

    fn statement(&mut self, sheet: &mut Sheet<'a>) -> Result<(), Error> {
        match self.next().text {
            "limit" => self.limit(sheet),
            "constants" => {
                self.pass();
                sheet.constants.extend(self.list(",", Self::constants)?);
                self.sign(".", "',' or '.'")
            }
            "predicates" => {
                self.pass();
                sheet.predicates.extend(self.list(",", Self::predicate)?);
                self.sign(".", "',' or '.'")
            }
            _ if self.next().kind == Kind::Sign && !self.sees("->") => Err(self.expected("a rule or a declaration")),
            _ => {
                sheet.rules.push(self.rule()?);
                Ok(())
            }
        }
    }

    fn limit(&mut self, sheet: &mut Sheet<'a>) -> Result<(), Error> {
        let word = self.pass();
        if sheet.limit.is_some() {
            return Err(Error::at(word.place, "the limit is given already"));
        }
        let (limit, _) = self.number("a number")?;
        sheet.limit = Some(limit);
        self.sign(".", "'.'")
    }

    fn constants(&mut self) -> Result<Constants<'a>, Error> {
        let first = self.constant()?;
        self.range(first)
    }

    /// A constant or a variable, or a range from this constant on: of numbers, or of names that end in numbers.
    fn range(&mut self, first: Word<'a>) -> Result<Constants<'a>, Error> {
        let is_number = matches!(first.kind, Kind::Number(_));
        if !(is_number || first.kind == Kind::Name) || !self.passes("..") {
            return Ok(Constants { first, last: None });
        }
        let last = self.next();
        if is_number { self.number("a number").map(|_| ())? } else { self.own_name("a constant").map(|_| ())? }
        Ok(Constants { first, last: Some(last) })
    }

    fn constant(&mut self) -> Result<Word<'a>, Error> {
        match self.next().kind {
            Kind::Number(_) | Kind::Code => Ok(self.pass()),
            _ => self.own_name("a constant"),
        }
    }

    fn predicate(&mut self) -> Result<Predicate<'a>, Error> {
        let name = self.own_name("a predicate")?;
        self.sign("/", "'/' and the number of arguments")?;
        let (arity, arity_place) = self.number("the number of arguments")?;
        Ok(Predicate { name, arity, arity_place })
    }

    /// A name that a sheet may give.
    fn own_name(&mut self, what: &str) -> Result<Word<'a>, Error> {
        let Word { kind, text, place } = self.next();
        match kind {
            Kind::Name if RESERVED.contains(&text) => Err(Error::at(place, format!("'{text}' is a word of the language, not {what}"))),
            Kind::Name => Ok(self.pass()),
            Kind::Variable if text != "_" => Err(Error::at(place, format!("'{text}' has a variable's capital letter; {what} begins with a small one"))),
            _ => Err(self.expected(what)),
        }
    }

    /// What stands before an arrow is conditions; without an arrow there are none, and all is alternatives.
    fn rule(&mut self) -> Result<Written<'a>, Error> {
        let mut rule = Written { place: self.next().place, conditions: Vec::new(), apart: Vec::new(), goal: Goal::Any(Vec::new()) };
        let has_none = self.sees("->") || self.sees("false") || self.sees_count();
        if !has_none {
            self.condition(&mut rule)?;
            while self.passes("&") {
                self.condition(&mut rule)?;
            }
        }
        if self.passes("->") || has_none {
            rule.goal = self.goal()?;
            return Ok(rule);
        }
        if rule.conditions.len() > 1 || !rule.apart.is_empty() {
            return Err(self.expected("'&' or '->'"));
        }
        let mut alternatives = std::mem::take(&mut rule.conditions);
        if self.passes("|") {
            alternatives.extend(self.list("|", Self::atom)?);
            self.sign(".", "'|' or '.'")?;
        } else {
            self.sign(".", "'&', '->', '|' or '.'")?;
        }
        rule.goal = Goal::Any(alternatives);
        Ok(rule)
    }

    /// An atom, or two that must not be the same.
    fn condition(&mut self, rule: &mut Written<'a>) -> Result<(), Error> {
        if self.after().text != "!=" {
            rule.conditions.push(self.atom()?);
            return Ok(());
        }
        let first = self.argument()?;
        self.pass();
        let second = self.argument()?;
        rule.apart.push([first, second]);
        Ok(())
    }

    /// Alternatives up to the full stop; there may be none, for which 'false' can stand.
    fn goal(&mut self) -> Result<Goal<'a>, Error> {
        if self.passes("false") {
            self.sign(".", "'.'")?;
            return Ok(Goal::Any(Vec::new()));
        }
        if self.passes(".") {
            return Ok(Goal::Any(Vec::new()));
        }
        if self.sees_count() { self.count() } else { self.alternatives() }
    }

    /// Atoms with one sign between them: one of them holds, or all.
    fn alternatives(&mut self) -> Result<Goal<'a>, Error> {
        let mut atoms = vec![self.atom()?];
        let sign = if self.sees("&") { "&" } else { "|" };
        while self.passes(sign) {
            atoms.push(self.atom()?);
        }
        self.sign(".", if sign == "&" { "'&' or '.'" } else { "'|' or '.'" })?;
        Ok(if sign == "&" { Goal::All(atoms) } else { Goal::Any(atoms) })
    }

    fn sees_count(&self) -> bool {
        (self.sees("at") && ["most", "least"].contains(&self.after().text)) || (self.sees("exactly") && matches!(self.after().kind, Kind::Number(_)))
    }

    /// How many of a set hold.
    fn count(&mut self) -> Result<Goal<'a>, Error> {
        let word = if self.pass().text == "at" { self.pass().text } else { "exactly" };
        let (number, _) = self.number("a number")?;
        self.sign("of", "'of'")?;
        let set = self.list(",", Self::atom)?;
        self.sign(".", "',' or '.'")?;
        Ok(Goal::Count { least: (word != "most").then_some(number), most: (word != "least").then_some(number), set })
    }

    fn atom(&mut self) -> Result<Listed<'a>, Error> {
        if self.sees("false") {
            return Err(Error::at(self.next().place, "'false' stands alone, with no other alternative and as no condition"));
        }
        let name = self.own_name("a predicate")?;
        if !self.passes("(") {
            return Ok(Listed { name, arguments: Vec::new() });
        }
        let arguments = self.list(",", |reader| reader.list(";", Self::item))?;
        self.sign(")", "',' or ')'")?;
        Ok(Listed { name, arguments })
    }

    fn item(&mut self) -> Result<Constants<'a>, Error> {
        let first = self.argument()?;
        self.range(first)
    }

    fn argument(&mut self) -> Result<Word<'a>, Error> {
        match self.next().kind {
            Kind::Name | Kind::Number(_) | Kind::Code | Kind::Variable => Ok(self.pass()),
            Kind::Sign | Kind::Quoted | Kind::End => Err(self.expected("a constant or a variable")),
        }
    }
}
