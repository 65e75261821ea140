//! The rule language against the reference and the library: random tickets are spelt as sheets, compiled, read and shown
//! again; each fault of a sheet is told at its place; damaged sheets and any other words are refused or compiled, and
//! never end the program; the example sheets have the verdicts and counts that are written down.
//! Usage: language [NUMBER OF SHEETS]. The same sheets in every run.
mod example_sheets;
#[path = "../tool/language.rs"]
mod language;
mod library;
mod mangle;
mod random;
mod reference;
mod report;
mod sheet_errors;
mod sheets;
mod threads;
mod tickets;

use language::{compile, show, Compiled, Error, Names};
use library::packed;
use reference::{Ticket, BAD_COUNT, BAD_NUMBERING, FREE_VARIABLE, TABLE, TOO_MANY_ATOMS, TOO_MANY_MARKS, UNKNOWN};
use report::{same, same_answer, Report};
use threads::{add_each, row, Run, Tally};

const SHEETS: u64 = 40_000;

/// A character that begins no word.
const FOREIGN: char = '@';

fn main() {
    threads::run("language", SHEETS, 801, run);
}

fn run(run: &mut Run<Met>, sheets: u64) -> Result<(), Report> {
    if run.number == 0 {
        sheet_errors::faults().iter().try_for_each(|(marked, words)| told(marked, words))?;
        names()?;
        usual_limit()?;
        layout()?;
        several()?;
        guide()?;
        run.tally.examples = example_sheets::all_hold()?;
    }
    while run.tally.sheets < sheets {
        run.step()?;
    }
    Ok(())
}

/// What stands for several rules is those rules.
fn several() -> Result<(), Report> {
    const SAME: [(&str, &str); 12] = [
        ("p(1..3).", "p(1). p(2). p(3)."),
        ("p(1; 3).", "p(1). p(3)."),
        ("q(1..2, 3; 1) -> false.", "q(1, 3) -> false. q(1, 1) -> false. q(2, 3) -> false. q(2, 1) -> false."),
        ("q(X, Y) & X != Y & p(Z) -> false.", "q(1, 2) & p(Z) -> false. q(1, 3) & p(Z) -> false. q(2, 1) & p(Z) -> false. \
         q(2, 3) & p(Z) -> false. q(3, 1) & p(Z) -> false. q(3, 2) & p(Z) -> false."),
        ("p(X) & p(Y) & X != Y -> false.", "p(1) & p(2) -> false. p(1) & p(3) -> false. p(2) & p(3) -> false."),
        ("p(X) & X != 2 -> q(X, X).", "p(1) -> q(1, 1). p(3) -> q(3, 3)."),
        ("q(_, _) & p(_) -> p(1).", "q(X, Y) & p(Z) -> p(1)."),
        ("p(X) -> q(X, 1) & q(1, X).", "p(X) -> q(X, 1). p(X) -> q(1, X)."),
        ("at most 1 of p(1..3).", "p(1) & p(2) -> false. p(1) & p(3) -> false. p(2) & p(3) -> false."),
        ("p(X) -> at least 2 of q(X, 1..3).", "p(X) -> q(X, 1) | q(X, 2). p(X) -> q(X, 1) | q(X, 3). p(X) -> q(X, 2) | q(X, 3)."),
        ("exactly 1 of p(1), p(2).", "p(1) & p(2) -> false. p(1) | p(2)."),
        ("exactly 2 of p(1), p(2). at most 2 of p(1; 2). at least 0 of p(1). at least 2 of p(1).", "p(1). p(2). -> false."),
    ];
    const HEAD: &str = "constants 1..3. predicates p/1, q/2.\n";
    SAME.iter().try_for_each(|(short, long)| {
        let [short, long] = [short, long].map(|rules| compile(&format!("{HEAD}{rules}")).map(|compiled| compiled.text));
        same("several rules", long, short)
    })?;
    let text = |declared: &str| compile(&format!("constants {declared}. predicates p/1. p(b10).")).map(|compiled| compiled.text);
    same("a range of names", text("b8, b9, b10, b11"), text("b8..b11"))
}

/// A sheet with a mark where the error is to be told, and the error's words.
fn told(marked: &str, words: &str) -> Result<(), Report> {
    let (line, column) = place_of_mark(marked);
    let expected = Error { part: 0, line, column, message: words.to_string() };
    same(&format!("compiling {marked:?}"), Err(expected), compile(&marked.replace(FOREIGN, "")))
}

/// Line and column of the first foreign character.
fn place_of_mark(marked: &str) -> (usize, usize) {
    let before = &marked[..marked.find(FOREIGN).expect("a mark")];
    (before.split('\n').count(), before.split('\n').next_back().map_or(0, |line| line.chars().count()) + 1)
}

/// Atoms by name, and by number where there is no name.
fn names() -> Result<(), Report> {
    let names = compile("constants a, 12. predicates glyph/2, boot/0.").map_err(|error| format!("{error:?}"))?.names;
    same("an atom", "glyph(a, 12)", &names.atom(0, &[0, 1]))?;
    same("an atom without arguments", "boot", &names.atom(1, &[]))?;
    same("variables", "glyph(X, W)", &names.atom(0, &[0x80, 0x83]))?;
    same("an atom without names", "p2(2, 132, 255)", &names.atom(2, &[2, 0x84, 0xFF]))?;
    same("plain names", "p1(1, Y, Z)", &Names::plain(2, &[0, 3]).atom(1, &[1, 0x81, 0x82]))
}

/// A sheet that gives no limit has 1,000,000; a mark of the encoding at its start is no part of it.
fn usual_limit() -> Result<(), Report> {
    let compiled = compile("\u{FEFF}predicates p/0.").map_err(|error| format!("{error:?}"))?;
    same("the text without a limit", "01010001000F4240\n0200\nFF00\n", &String::from_utf8_lossy(&compiled.text))
}

/// What is shown of a sheet, by its names, by plain ones, and by another ticket's.
fn layout() -> Result<(), Report> {
    let long: Vec<String> = (0..12).map(|i| format!("position_{i}")).collect();
    let source = format!("p. p & q(Y, X) -> q(X, Y) | p. -> false. constants 1..3, 7, 8, {}, 4294967295. predicates p/0, q/2.", long.join(","));
    let compiled = compile(&source).map_err(|error| format!("{error:?}"))?;
    let rules = ["p", "p & q(X, Y) -> q(Y, X) | p", "false"];
    let (first, last) = (long[..6].join(", "), long[6..].join(", "));
    let named = format!("limit 1000000.\nconstants 1..3, 7, 8, {first},\n    {last}, 4294967295.\npredicates p/0, q/2.\n\n{}.\n", rules.join(".\n"));
    same("shown by its names", Ok(named), show(&compiled.text, Some(&compiled.names)))?;
    let plain = rules.join(".\n").replace('p', "p0").replace('q', "p1");
    let plain = format!("limit 1000000.\nconstants 0..17.\npredicates p0/0, p1/2.\n\n{plain}.\n");
    same("shown by plain names", Ok(plain), show(&compiled.text, None))?;
    for other in [Names::plain(17, &[0, 2]), Names::plain(18, &[0, 1]), Names::plain(18, &[0])] {
        same("shown by other names", Err("these names belong to another ticket".to_string()), show(&compiled.text, Some(&other)))?;
    }
    Ok(())
}

/// The first two blocks of docs/LANGUAGE.md are a sheet and its text.
fn guide() -> Result<(), Report> {
    let guide = std::fs::read_to_string("docs/LANGUAGE.md").map_err(|error| format!("docs/LANGUAGE.md: {error}"))?;
    let blocks: Vec<&str> = guide.split("```\n").skip(1).step_by(2).take(2).collect();
    let compiled = compile(blocks[0]).map_err(|error| format!("the guide's sheet: {error:?}"))?;
    same("the guide's text", blocks[1], &String::from_utf8_lossy(&compiled.text))
}

impl Run<Met> {
    /// A ticket, whole or with one thing changed, as a sheet; and the sheet damaged; and any words; and its text damaged.
    fn step(&mut self) -> Result<(), Report> {
        let random = &mut self.random;
        let mut ticket = tickets::ticket(random);
        if random.once_in(4) {
            tickets::spoil(random, &mut ticket);
        }
        let sheet = sheets::spelt(random, &ticket);
        let others = [sheets::damaged(random, &sheet), sheets::any(random)];
        self.tally.sheets += 1;
        self.spelt(&ticket, &sheet).map_err(|report| format!("{report}\n{sheet}"))?;
        self.foreign(&sheet)?;
        for other in others {
            self.any(&other).map_err(|report| format!("{report}\n{other:?}"))?;
        }
        let mut text = reference::print(&ticket);
        mangle::mangle(&mut self.random, &mut text);
        self.shown(&text)
    }

    /// A sheet compiles exactly if its ticket is accepted, and then to the ticket's text. A sheet numbers variables by
    /// itself, so that nothing is said where the ticket is refused for that.
    fn spelt(&mut self, ticket: &Ticket, sheet: &str) -> Result<(), Report> {
        let text = reference::print(ticket);
        let accepted = reference::read(&text);
        match (compile(sheet), accepted) {
            (Ok(compiled), Ok(read)) if read == *ticket => {
                self.tally.accepted += 1;
                same("the text", String::from_utf8_lossy(&text), String::from_utf8_lossy(&compiled.text))?;
                is_spelt_back(&compiled)
            }
            (_, Err(refusal)) if refusal.number == BAD_NUMBERING => Ok(()),
            (Err(error), Err(refusal)) => {
                self.tally.refused[refusal.number as usize] += 1;
                lies_within(sheet, &error)
            }
            (Err(error), Ok(read)) if read != *ticket => lies_within(sheet, &error),
            (compiled, accepted) => Err(format!("compiled: {compiled:?}\nread: {accepted:?}")),
        }
    }

    /// A foreign character outside a comment is told exactly where it stands.
    fn foreign(&mut self, sheet: &str) -> Result<(), Report> {
        let mut chars: Vec<char> = sheet.chars().collect();
        let at = self.random.below(chars.len() + 1);
        let line = chars[..at].rsplit(|c| *c == '\n').next().unwrap_or(&[]);
        if line.iter().any(|c| "#%".contains(*c)) || line.ends_with(&['-']) {
            return Ok(());
        }
        self.tally.foreign += 1;
        chars.insert(at, FOREIGN);
        let marked: String = chars.into_iter().collect();
        let (line, column) = place_of_mark(&marked);
        let error = Error { part: 0, line, column, message: format!("no word begins with '{FOREIGN}'") };
        same(&format!("compiling {marked}"), Err(error), compile(&marked))
    }

    /// Any source is compiled to a text that is read, or is refused at a place within it.
    fn any(&mut self, source: &str) -> Result<(), Report> {
        let compiled = compile(source);
        self.tally.others[compiled.is_ok() as usize] += 1;
        match compiled {
            Ok(compiled) => is_spelt_back(&compiled),
            Err(error) => lies_within(source, &error),
        }
    }

    /// A text is shown exactly if it is accepted.
    fn shown(&mut self, text: &[u8]) -> Result<(), Report> {
        let accepted = reference::read(text).is_ok();
        self.tally.texts[accepted as usize] += 1;
        same(&format!("showing {}", text.escape_ascii()), accepted, show(text, None).is_ok())
    }
}

/// The library reads the text, and shown by its names or by plain ones it compiles to the same.
fn is_spelt_back(compiled: &Compiled) -> Result<(), Report> {
    let mut table = [0; TABLE];
    same_answer(packed(0, 0), library::read(&compiled.text, &mut table), || "reading".to_string())?;
    let named = show(&compiled.text, Some(&compiled.names))?;
    let again = compile(&named).map_err(|error| format!("shown as\n{named}\n{error:?}"))?;
    same(&format!("shown as\n{named}\ncompiled"), (&compiled.text, &compiled.names), (&again.text, &again.names))?;
    let plain = show(&compiled.text, None)?;
    same("shown without names, compiled", Ok(&compiled.text), compile(&plain).as_ref().map(|again| &again.text))
}

/// The place is one of the source, or just after a line of it; something is said.
fn lies_within(source: &str, error: &Error) -> Result<(), Report> {
    let line = source.split('\n').nth(error.line.wrapping_sub(1)).ok_or(format!("line of {error:?}"))?;
    let within = (1..=line.chars().count() + 1).contains(&error.column);
    same(&format!("{error:?} lies within"), (true, false), (within, error.message.is_empty()))
}

/// What a run has met.
#[derive(Default)]
struct Met {
    sheets: u64,
    accepted: u64,
    examples: u64,
    foreign: u64,
    /// sheets of tickets refused by this number
    refused: [u64; 11],
    /// damaged sheets and any words: refused, compiled
    others: [u64; 2],
    /// damaged texts: refused, shown
    texts: [u64; 2],
}

/// The refusals whose tickets have sheets.
const REFUSALS: [u8; 5] = [BAD_COUNT, UNKNOWN, FREE_VARIABLE, TOO_MANY_ATOMS, TOO_MANY_MARKS];

impl Tally for Met {
    fn add(&mut self, other: &Met) {
        self.sheets += other.sheets;
        self.accepted += other.accepted;
        self.examples += other.examples;
        self.foreign += other.foreign;
        add_each(&mut self.refused, &other.refused);
        add_each(&mut self.others, &other.others);
        add_each(&mut self.texts, &other.texts);
    }

    fn print(&self) {
        let refused = REFUSALS.map(|number| self.refused[number as usize]);
        println!("sheets of accepted tickets: {}; of tickets refused by {REFUSALS:?}:{}", self.accepted, row(&refused));
        println!("with a foreign character: {}; damaged or any words, refused and compiled:{}", self.foreign, row(&self.others));
        println!("damaged texts, refused and shown:{}", row(&self.texts));
    }

    fn missing(&self) -> Vec<String> {
        let unmet = REFUSALS.iter().filter(|number| self.refused[**number as usize] == 0);
        let mut missing: Vec<String> = unmet.map(|number| format!("refusal {number}")).collect();
        let enough = |times: u64| times > self.sheets / 40;
        let common = [self.accepted, self.foreign, self.others[0], self.others[1], self.texts[0], self.texts[1]];
        missing.extend(common.iter().position(|times| !enough(*times)).map(|kind| format!("kind {kind} of sheets and texts")));
        missing
    }

    fn agreed(&self) -> String {
        format!("{} sheets, {} faults and {} examples", self.sheets, sheet_errors::faults().len(), self.examples)
    }
}
