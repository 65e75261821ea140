//! Random sheets: tickets spelt with random names, with all that the language leaves to the writer chosen at random;
//! damaged ones; and ones of any words.

use crate::random::Random;
use crate::reference::{is_variable, Atom, Clause, Ticket};

/// A piece of a sheet, word by word.
type Words = Vec<String>;

/// What a ticket's constants and predicates are called.
struct Spelling {
    constants: Vec<String>,
    predicates: Vec<String>,
}

/// A sheet that says what a ticket says. A constant that the ticket lacks is spelt as one that is not declared.
pub fn spelt(random: &mut Random, ticket: &Ticket) -> String {
    let spelling = Spelling { constants: constants(random, ticket.constants as usize), predicates: distinct(random, ticket.arities.len(), name) };
    let with_arity = |(name, arity): (&String, &u8)| words(&[name, "/", &arity.to_string()]);
    let predicates = spelling.predicates.iter().zip(&ticket.arities).map(with_arity).collect();
    let kinds = vec![
        vec![words(&["limit", &u32::from_be_bytes(ticket.limit).to_string(), "."])],
        declarations(random, "constants", ranges(&spelling.constants)),
        declarations(random, "predicates", predicates),
        ticket.clauses.iter().map(|clause| rule(random, clause, &spelling)).collect(),
    ];
    let statements = mixed(random, kinds);
    spaced(random, &statements.concat())
}

fn words(words: &[&str]) -> Words {
    words.iter().map(|word| word.to_string()).collect()
}

fn constants(random: &mut Random, many: usize) -> Vec<String> {
    if random.once_in(3) {
        let first = random.pick(&[0, 1, 437, u32::MAX as usize - many]);
        return (first..first + many).map(|number| number.to_string()).collect();
    }
    let draw = random.pick(&[name, number, code]);
    distinct(random, many, draw)
}

/// So many different words.
fn distinct(random: &mut Random, many: usize, draw: fn(&mut Random) -> String) -> Vec<String> {
    let mut list = Vec::new();
    while list.len() < many {
        let word = draw(random);
        if !list.contains(&word) {
            list.push(word);
        }
    }
    list
}

fn number(random: &mut Random) -> String {
    let any = random.next() as u32;
    random.pick(&[any % 400, any % 100_000, any]).to_string()
}

fn name(random: &mut Random) -> String {
    word(random, &['a', 'p', 'z', 'é', '日'])
}

fn code(random: &mut Random) -> String {
    number(random) + &word(random, &['x', 'X', '_'])
}

fn variable(random: &mut Random) -> String {
    word(random, &['X', 'Y', 'Z', 'É'])
}

fn word(random: &mut Random, first: &[char]) -> String {
    let mut word = random.pick(first).to_string();
    for _ in 0..random.below(4) {
        word.push(random.pick(&['a', 'z', 'B', '0', '1', '_', 'ß']));
    }
    word
}

/// The constants as they are declared: a run of numbers as a range.
fn ranges(constants: &[String]) -> Vec<Words> {
    let number = |name: &str| name.parse::<u32>().ok();
    let follows = |a: &String, b: &String| number(a).and_then(|a| a.checked_add(1)).is_some_and(|next| number(b) == Some(next));
    let told = |run: &[String]| match run {
        [one] => words(&[one]),
        _ => words(&[&run[0], "..", &run[run.len() - 1]]),
    };
    constants.chunk_by(follows).map(told).collect()
}

/// In one declaration or in several.
fn declarations(random: &mut Random, word: &str, items: Vec<Words>) -> Vec<Words> {
    let size = random.pick(&[1, 3, 255, 255]);
    items.chunks(size).map(|part| [words(&[word]), part.join(&",".to_string()), words(&["."])].concat()).collect()
}

/// Facts with or without an arrow, and no alternatives in words or without any.
fn rule(random: &mut Random, clause: &Clause, spelling: &Spelling) -> Words {
    let variables = distinct(random, 4, variable);
    let side = |atoms: &[Atom], sign: &str| -> Words {
        let atoms: Vec<Words> = atoms.iter().map(|atom| spelling.atom(atom, &variables)).collect();
        atoms.join(&sign.to_string())
    };
    let mut rule = side(&clause.conditions, "&");
    let arrow = !clause.conditions.is_empty() || random.once_in(4);
    if arrow {
        rule.push("->".to_string());
    }
    if clause.alternatives.is_empty() && (!arrow || random.once_in(2)) {
        rule.push("false".to_string());
    }
    [rule, side(&clause.alternatives, "|"), words(&["."])].concat()
}

impl Spelling {
    fn atom(&self, atom: &Atom, variables: &[String]) -> Words {
        let argument = |argument: &u8| match argument {
            variable if is_variable(*variable) => words(&[&variables[*variable as usize - 0x80]]),
            constant => words(&[self.constants.get(*constant as usize).map_or("undeclared", |name| name)]),
        };
        let name = words(&[&self.predicates[atom.predicate as usize]]);
        if atom.arguments.is_empty() {
            return name;
        }
        let arguments: Vec<Words> = atom.arguments.iter().map(argument).collect();
        [name, words(&["("]), arguments.join(&",".to_string()), words(&[")"])].concat()
    }
}

/// Statements of several kinds, those of a kind in their order; often one kind after the other.
fn mixed(random: &mut Random, kinds: Vec<Vec<Words>>) -> Vec<Words> {
    if random.once_in(2) {
        return kinds.concat();
    }
    let mut turns: Vec<usize> = kinds.iter().enumerate().flat_map(|(kind, statements)| vec![kind; statements.len()]).collect();
    random.shuffle(&mut turns);
    let mut kinds: Vec<_> = kinds.into_iter().map(Vec::into_iter).collect();
    turns.into_iter().filter_map(|kind| kinds[kind].next()).collect()
}

/// Words with blanks and comments between them; sometimes with no more than has to be.
fn spaced(random: &mut Random, words: &[String]) -> String {
    let dense = random.once_in(4);
    let is_word = |text: &str| text.ends_with(|c: char| c.is_alphanumeric() || c == '_');
    let mut sheet = String::new();
    for word in words {
        let apart = is_word(&sheet) && is_word(word);
        let blank = random.pick(&["", "", " ", " ", " ", "\n", "\t", "\r\n", " # limit 5. é\n", "%\n", "\n#\n\n"]);
        match blank {
            "" if apart => sheet.push(' '),
            _ if dense && !apart => {}
            _ => sheet += blank,
        }
        sheet += word;
    }
    sheet
}

/// A sheet with one to three things changed.
pub fn damaged(random: &mut Random, sheet: &str) -> String {
    let mut chars: Vec<char> = sheet.chars().collect();
    for _ in 0..random.within(1, 3) {
        let (at, end) = (random.below(chars.len() + 1), random.below(chars.len() + 1));
        let (at, end) = (at.min(end), at.max(end));
        let near = (at + random.below(12)).min(chars.len());
        match random.below(6) {
            0 => drop(chars.drain(at..near)),
            1 => drop(chars.splice(at..at, chars[at..near].to_vec())),
            2 => chars.truncate(end),
            3 if at < end && end < chars.len() => chars.swap(at, end),
            _ => drop(chars.splice(at..(at + random.below(2)).min(chars.len()), random.pick(&PIECES).chars())),
        }
    }
    chars.into_iter().collect()
}

/// Words in no order, or bytes.
pub fn any(random: &mut Random) -> String {
    let len = random.below(40);
    if random.once_in(4) {
        let bytes: Vec<u8> = (0..len).map(|_| random.byte()).collect();
        return String::from_utf8_lossy(&bytes).into_owned();
    }
    let mut sheet = random.pick(&["", "predicates p/0, q/1. constants a.", "constants 1..32. predicates p/2. "]).to_string();
    for _ in 0..len {
        sheet += random.pick(&PIECES);
        sheet += random.pick(&["", " ", "\n"]);
    }
    sheet
}

const PIECES: [&str; 40] = [
    "limit", "constants", "predicates", "false", "p", "q", "a", "b", "X", "Y", "0", "1", "2", "7", "32", "33", "4294967295", "4294967296", "..", ".",
    ".", ",", "/", "(", ")", "&", "|", "->", "-", ">", "#", "%", "\n", " ", "\u{FEFF}", "é", "日", "€", "\0", "@",
];
