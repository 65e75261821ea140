//! The staged engine. It makes its walk in one go and leaves no session. `fit --engine staged` shows the walk; with `--engine all` it runs beside the
//! others and must not contradict them.

use crate::arguments::Arguments;
use crate::awaited::{begun, waited};
use crate::ending::{Ending, Failure};
use crate::engines::STACK;
use crate::fit::{after_words, lines, memory_words, stats_words, status, verdict_words};
use crate::fitting::Fitting;
use crate::json::{self, Json};
use crate::library::{self, Fit, Stack, Table, Verdict, LENT_TO_STAGED};
use crate::source::Accepted;
use std::sync::mpsc::Receiver;

/// What by stages there is not. Beside the others, whose sessions tell the rest, it is the first alone.
const WITHOUT: [(&str, &str); 5] = [
    ("--parts", "there are no parts"),
    ("--save", "no session is left"),
    ("-n", "one fitting is given"),
    ("--show", "it is not told what is true"),
    ("--svg", "it is not told what is true"),
];

/// A walk that is under way; nothing where the time was over before.
pub struct Begun(Option<Receiver<Result<Made, Failure>>>);

/// How a walk ended; nothing where the time was over before.
pub struct Staged(Option<Made>);

/// What the engine says, and the bytes of stack that it used.
pub struct Made {
    pub fit: Fit,
    pub stack: usize,
}

/// That no option is given that does not go with the staged engine.
pub fn check(arguments: &Arguments) -> Result<(), Failure> {
    match arguments.choice("--engine") {
        Some("staged") => arguments.bar("--engine staged", "stages", &WITHOUT),
        Some("all") => arguments.bar("--engine all", "stages", &WITHOUT[..1]),
        _ => Ok(()),
    }
}

/// The walk under the ticket's limit, from now on.
pub fn begin(accepted: &Accepted) -> Begun {
    let (table, atoms) = (accepted.table.clone(), accepted.ticket.atoms());
    Begun(begun(move || made(&table, atoms)))
}

/// The walk of a ticket with this number of atoms.
pub fn made(table: &Table, atoms: usize) -> Result<Made, Failure> {
    let mut stack = Stack::painted(STACK);
    let fit = library::fit_staged(&mut stack, table, atoms)?;
    Ok(Made { fit, stack: stack.used() })
}

impl Begun {
    pub fn ended(&self) -> Result<Staged, Failure> {
        waited(self.0.as_ref())?.transpose().map(Staged)
    }
}

impl Made {
    pub fn memory_words(&self) -> String {
        format!("memory: {}\n", memory_words(self.stack, LENT_TO_STAGED, "staged"))
    }
}

impl Staged {
    /// That it does not say fits where the others say none, or none where they say fits.
    pub fn check_beside(&self, others: &Fit) -> Result<(), Failure> {
        match &self.0 {
            Some(Made { fit, .. }) if fit.verdict != others.verdict && ![fit.verdict, others.verdict].contains(&Verdict::Spent) => {
                let (others, own) = (others.told(), fit.told());
                Err(Failure::disagreement(format!("the engines disagree: relevancy and magic say {others}, staged says {own}")))
            }
            _ => Ok(()),
        }
    }

    /// What it says, beside what the others do.
    pub fn beside_words(&self) -> String {
        format!("staged: {}\n", self.0.as_ref().map_or("--time-limit stopped the walk".to_string(), |made| after_words(&made.fit)))
    }

    fn verdict(&self) -> Verdict {
        self.0.as_ref().map_or(Verdict::Spent, |made| made.fit.verdict)
    }

    fn entries(&self) -> Json {
        self.0.as_ref().map_or(Json::Null, |made| Json::number(made.fit.count))
    }

    pub fn json(&self) -> Json {
        Json::Record(vec![("verdict", Json::text(self.verdict().name())), ("entries", self.entries())])
    }
}

/// What `fit` says of a ticket by this engine alone, under this limit.
pub fn ending(arguments: &Arguments, accepted: &Accepted, limit: u32, staged: Staged) -> Result<Ending, Failure> {
    let status = status(staged.verdict());
    let fitting = match &staged.0 {
        Some(Made { fit, .. }) if fit.verdict == Verdict::Fits => Some(Fitting::judged(accepted, fit.answer.clone())?),
        _ => None,
    };
    if arguments.has("--json") {
        let mut more = vec![("entries", staged.entries()), ("limit", Json::number(limit)), ("engines", Json::texts(vec!["staged".to_string()]))];
        more.extend(fitting.map(|fitting| ("fitting", Json::texts(accepted.atoms(&fitting.atoms())))));
        return Ok(json::ending("fit", staged.verdict().name(), status, more));
    }
    let is_lines = arguments.has("--lines");
    let Some(made) = &staged.0 else {
        let unknown = "--time-limit stopped the walk: how many entries it has made is not told, and so there is no line";
        let words = "verdict: spent: --time-limit stopped the walk\nengine: staged\n";
        return if is_lines { Err(Failure { status, message: unknown.to_string() }) } else { Ok(Ending::new(status, words)) };
    };
    if is_lines {
        return Ok(Ending::new(status, lines(&made.fit, fitting.as_ref())));
    }
    let verdict = verdict_words(&made.fit, limit, "the limit") + &made.memory_words() + "engine: staged\n";
    let stats = if arguments.has("--stats") { stats_words(accepted, made.fit.count as u64)? } else { String::new() };
    Ok(Ending::new(status, verdict + &stats + &fitting.map_or(String::new(), |fitting| fitting.whole())))
}
