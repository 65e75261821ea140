//! A ticket's text as a sheet of rules, which compiles to that very text.

use super::{compile, frames, Names};

/// Columns of a list of declared names.
const WIDTH: usize = 100;

const NO_TICKET: &str = "this is not the text of an accepted ticket";

/// An accepted ticket text as a sheet, by these names, which must be the ticket's own, or else by plain ones.
pub fn show(text: &[u8], names: Option<&Names>) -> Result<String, String> {
    let frames = frames::frames(text).ok_or(NO_TICKET)?;
    let ticket = Ticket::of(&frames).ok_or(NO_TICKET)?;
    let plain = Names::plain(ticket.constants, &ticket.arities);
    let names = names.unwrap_or(&plain);
    if names.constants().len() != ticket.constants as usize || !names.arities().eq(ticket.arities.iter().copied()) {
        return Err("these names belong to another ticket".to_string());
    }
    let sheet = ticket.sheet(names);
    match compile(&sheet) {
        Ok(again) if again.text == text => Ok(sheet),
        _ => Err(NO_TICKET.to_string()),
    }
}

/// What frames say if they are a ticket's. Whether they are is left to compiling.
struct Ticket<'a> {
    constants: u8,
    limit: u32,
    arities: Vec<u8>,
    clauses: Vec<Clause<'a>>,
}

struct Clause<'a> {
    conditions: Vec<Atom<'a>>,
    alternatives: Vec<Atom<'a>>,
}

struct Atom<'a> {
    predicate: u8,
    arguments: &'a [u8],
}

impl Ticket<'_> {
    fn of(frames: &[Vec<u8>]) -> Option<Ticket<'_>> {
        let [heading, rest @ .., _] = frames else { return None };
        let [_, _, constants, predicates, a, b, c, d] = heading[..] else { return None };
        let (arities, clauses) = rest.split_at_checked(predicates as usize)?;
        let arities: Vec<u8> = arities.iter().map(|frame| frame.get(1).copied()).collect::<Option<_>>()?;
        let clauses = clauses.iter().map(|frame| clause(frame, &arities)).collect::<Option<_>>()?;
        Some(Ticket { constants, limit: u32::from_be_bytes([a, b, c, d]), arities, clauses })
    }

    fn sheet(&self, names: &Names) -> String {
        let predicates: Vec<String> = names.predicates().iter().map(|(name, arity)| format!("{name}/{arity}")).collect();
        let mut sheet = format!("limit {}.\n", self.limit);
        sheet += &declaration("constants", &ranges(names.constants()));
        sheet += &declaration("predicates", &predicates);
        sheet.push('\n');
        self.clauses.iter().for_each(|clause| sheet += &clause.rule(names));
        sheet
    }
}

fn clause<'a>(frame: &'a [u8], arities: &[u8]) -> Option<Clause<'a>> {
    let [_, n, m, rest @ ..] = frame else { return None };
    let mut rest = rest;
    let mut atoms = |many: &u8| -> Option<Vec<Atom<'a>>> { (0..*many).map(|_| atom(&mut rest, arities)).collect() };
    Some(Clause { conditions: atoms(n)?, alternatives: atoms(m)? })
}

/// Takes an atom from the front of the bytes.
fn atom<'a>(bytes: &mut &'a [u8], arities: &[u8]) -> Option<Atom<'a>> {
    let (predicate, rest) = bytes.split_first()?;
    let (arguments, rest) = rest.split_at_checked(*arities.get(*predicate as usize)? as usize)?;
    *bytes = rest;
    Some(Atom { predicate: *predicate, arguments })
}

impl Clause<'_> {
    fn rule(&self, names: &Names) -> String {
        let joined = |atoms: &[Atom], sign: &str| {
            let atoms: Vec<String> = atoms.iter().map(|atom| names.atom(atom.predicate, atom.arguments)).collect();
            atoms.join(sign)
        };
        let goal = if self.alternatives.is_empty() { "false".to_string() } else { joined(&self.alternatives, " | ") };
        if self.conditions.is_empty() {
            return format!("{goal}.\n");
        }
        format!("{} -> {goal}.\n", joined(&self.conditions, " & "))
    }
}

/// Three or more numbers in a row are told as a range.
fn ranges(constants: &[String]) -> Vec<String> {
    let number = |name: &String| name.parse::<u32>().ok();
    let follows = |a: &String, b: &String| number(b).is_some_and(|b| number(a).and_then(|a| a.checked_add(1)) == Some(b));
    let told = |run: &[String]| match run {
        [first, _, .., last] => vec![format!("{first}..{last}")],
        few => few.to_vec(),
    };
    constants.chunk_by(follows).flat_map(told).collect()
}

/// A list of names in lines of bounded width; nothing where there are none.
fn declaration(word: &str, names: &[String]) -> String {
    let mut lines = vec![word.to_string()];
    for (i, name) in names.iter().enumerate() {
        let sign = if i + 1 == names.len() { '.' } else { ',' };
        let line = lines.last_mut().expect("a line");
        if line.chars().count() + name.chars().count() + 2 > WIDTH {
            lines.push(format!("    {name}{sign}"));
        } else {
            *line += &format!(" {name}{sign}");
        }
    }
    if names.is_empty() { String::new() } else { lines.join("\n") + "\n" }
}
