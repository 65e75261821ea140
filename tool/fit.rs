//! `fit`: whether a ticket fits, by the engines, and the fitting.

use crate::arguments::{Arguments, Command};
use crate::carry::Carry;
use crate::clock;
use crate::ending::{Ending, Failure, Status};
use crate::engines::{Depth, Walk};
use crate::fitting::Fitting;
use crate::interrupt;
use crate::json::{self, Json};
use crate::library::{self, Engine, Fit, Refusal, Verdict};
use crate::more::Further;
use crate::out;
use crate::parts;
use crate::save::Save;
use crate::source::{Accepted, Source};
use crate::spell::hex;
use crate::staged::{self, Staged};
use std::io::{self, IsTerminal};

pub const COMMAND: Command = Command { name: "fit", text: include_str!("help/fit.txt"), run };

fn run(arguments: &Arguments) -> Result<Ending, Failure> {
    let (engines, is_staged) = (engines(arguments), is_staged(arguments));
    staged::check(arguments)?;
    let limit = arguments.number("--limit")?;
    clock::begin(arguments.number("--time-limit")?);
    out::file(arguments, "--svg")?;
    if arguments.has("--parts") {
        parts::check(arguments)?;
    }
    let source = Source::open(arguments.file(0))?;
    if arguments.has("--lines") {
        if let Err(refusal) = library::read(&source.text) {
            return Ok(Ending::new(Status::Refused, refusal_line(refusal)));
        }
    }
    let text = source.text.clone();
    let accepted = source.accepted()?;
    let most = limit.unwrap_or(accepted.ticket.limit);
    if arguments.has("--parts") {
        interrupt::catch();
        return parts::run(arguments, &engines, &accepted.with_limit(most)?);
    }
    let save = arguments.option("--save").map(|file| Save::anew(file, text)).transpose()?;
    interrupt::catch();
    let beside = if is_staged { Some(staged::begin(&accepted.with_limit(most)?)) } else { None };
    if let (Some(begun), []) = (&beside, &engines[..]) {
        return staged::ending(arguments, &accepted, most, begun.ended()?);
    }
    let walk = Walk::begin(&engines, &accepted)?;
    Carry { arguments, file: arguments.file(0), engines: &engines, accepted: &accepted, most, stopper: "the limit", beside }.on(walk, save)
}

/// The engines whose walks leave sessions, as far as they are chosen.
pub fn engines(arguments: &Arguments) -> Vec<Engine> {
    match arguments.choice("--engine") {
        None | Some("magic") => vec![Engine::Magic],
        Some("relevancy") => vec![Engine::Relevancy],
        Some("staged") => Vec::new(),
        _ => vec![Engine::Relevancy, Engine::Magic],
    }
}

/// Whether the staged engine is chosen, alone or beside the others.
pub fn is_staged(arguments: &Arguments) -> bool {
    matches!(arguments.choice("--engine"), Some("staged" | "all"))
}

pub fn status(verdict: Verdict) -> Status {
    match verdict {
        Verdict::Fits => Status::Fits,
        Verdict::None => Status::None,
        Verdict::Spent => Status::Spent,
    }
}

pub fn engine_words(engines: &[Engine]) -> String {
    match engines {
        [engine] => format!("engine: {}\n", engine.name()),
        _ => "engines: relevancy and magic agree\n".to_string(),
    }
}

/// The fitting: what is true in it at a terminal, or of the predicates asked for; else all of it, since the true atoms alone need not be one.
pub fn fitting_words(arguments: &Arguments, fitting: &Fitting) -> Result<String, Failure> {
    let shown = arguments.option("--show").map(|words| predicates(&words.to_string_lossy(), fitting.accepted())).transpose()?;
    if arguments.has("--all") || (shown.is_none() && !io::stdout().is_terminal()) {
        return Ok(fitting.whole());
    }
    Ok(fitting.what_is_true(shown.as_deref()))
}

/// The predicates of these names, with commas between them.
fn predicates(words: &str, accepted: &Accepted) -> Result<Vec<u8>, Failure> {
    let all: Vec<String> = (0..accepted.ticket.arities.len() as u8).map(|predicate| accepted.predicate(predicate)).collect();
    let number = |word: &str| all.iter().position(|name| name == word.trim()).map(|number| number as u8);
    let unknown = |word| Failure::usage(format!("--show: there is no predicate '{word}'; there are {}", all.join(", ")));
    words.split(',').map(|word| number(word).ok_or_else(|| unknown(word))).collect()
}

/// What was measured, and how much of a ticket's limits is used.
pub fn stats_words(accepted: &Accepted, entries: u64) -> Result<String, Failure> {
    let (seconds, rules) = (clock::seconds(), library::rewrite(&accepted.table)?);
    let time = format!("time: {seconds:.3} s, {:.0} entries a second\n", entries as f64 / seconds);
    Ok(format!("{time}used: {}\nmagic rules: {rules} of at most 320\n", accepted.ticket.used()))
}

/// As JSON.
pub fn json(carry: &Carry, walk: &Walk, fitting: Option<&Fitting>, further: Option<Further>, beside: Option<Staged>) -> Ending {
    let (fit, accepted) = (&walk.at.fit, carry.accepted);
    let mut more = vec![
        ("entries", Json::number(fit.count)),
        ("limit", Json::number(carry.most)),
        ("deepest", Json::number(walk.at.session.deepest)),
        ("engines", Json::texts(carry.engines.iter().map(|engine| engine.name().to_string()).collect())),
    ];
    if let Some(fitting) = fitting {
        more.push(("fitting", Json::texts(accepted.atoms(&fitting.atoms()))));
        more.push(("true", Json::texts(accepted.atoms(&fitting.true_atoms()))));
    }
    if let Some(Further { fittings, others }) = further {
        more.push(("further", Json::List(fittings.iter().map(|fitting| Json::texts(accepted.atoms(&fitting.atoms()))).collect())));
        more.push(("others", Json::text(others)));
    }
    more.extend(beside.map(|staged| ("staged", staged.json())));
    json::ending("fit", fit.verdict.name(), status(fit.verdict), more)
}

/// Verdict and entries; `stopper` is what stops a walk at the limit.
pub fn verdict_words(fit: &Fit, limit: u32, stopper: &str) -> String {
    let meaning = match fit.verdict {
        Verdict::Fits => "fits".to_string(),
        Verdict::None => "none: no set of atoms is a fitting".to_string(),
        Verdict::Spent => format!("spent: {stopper} stopped the walk"),
    };
    format!("verdict: {meaning}\nentries: {} of at most {limit}\n", fit.count)
}

/// The verdict and the entries, in few words.
pub fn after_words(fit: &Fit) -> String {
    format!("{} after {} {}", fit.verdict.name(), fit.count, if fit.count == 1 { "entry" } else { "entries" })
}

/// The deepest path, and what this run took for it: of stack, measured, and lent.
pub fn depth_words(depth: &Depth) -> String {
    let (earlier, of) = if depth.is_earlier { (", in an earlier run", " of this run") } else { ("", "") };
    let took: Vec<String> = depth.stacks.iter().map(|(engine, stack)| memory_words(*stack, engine.lent(), engine.name())).collect();
    format!("deepest path: {} of at most {}{earlier}\nmemory{of}: {}\n", depth.deepest, depth.most, took.join(", "))
}

pub fn memory_words(stack: usize, lent: usize, engine: &str) -> String {
    format!("{stack} bytes of stack and {lent} lent by {engine}")
}

/// Document 01's lines.
pub fn lines(fit: &Fit, fitting: Option<&Fitting>) -> String {
    let first = [&[0x81, fit.verdict as u8], &fit.count.to_be_bytes()[..]].concat();
    let atoms = fitting.map_or(Vec::new(), Fitting::atoms).into_iter().map(|atom| [&[0x82], &atom.bytes()[..]].concat());
    std::iter::once(first).chain(atoms).map(|frame| hex(&frame) + "\n").collect()
}

fn refusal_line(refusal: Refusal) -> String {
    hex(&[&[0x8F, refusal.number], &(refusal.line as u16).to_be_bytes()[..]].concat()) + "\n"
}
