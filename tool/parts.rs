//! `fit --parts`: a ticket part by part. The library says how all parts come out together; so that each can be shown, the tool fits its ticket too, and all
//! of them must come to what the library says.

use crate::arguments::Arguments;
use crate::awaited::awaited;
use crate::clock;
use crate::ending::{Ending, Failure};
use crate::engines::Walk;
use crate::fit::{after_words, engine_words, fitting_words, stats_words, status};
use crate::fitting::Fitting;
use crate::json::{self, Json};
use crate::library::{self, Engine, Moved, Parted, Verdict};
use crate::out;
use crate::picture;
use crate::source::{called, Accepted};
use crate::spell::{counted, plain};
use crate::ticket::Ticket;

/// Clauses that share no predicate with others; a clause without atoms, or a predicate that is in none.
struct Part {
    predicates: Vec<u8>,
    clauses: Vec<usize>,
    /// nothing where it was not walked
    at: Option<Moved>,
}

/// A ticket's parts, as far as they were walked, and what they come to.
struct Parts<'a> {
    arguments: &'a Arguments,
    engines: &'a [Engine],
    accepted: &'a Accepted,
    parts: Vec<Part>,
    whole: Parted,
    /// what stops a walk
    stopper: &'static str,
}

/// What by parts there is not.
const WITHOUT: [(&str, &str); 3] = [("--save", "no session is left"), ("-n", "one fitting is given"), ("--lines", "document 01 has no lines")];

/// That no option is given that does not go with --parts.
pub fn check(arguments: &Arguments) -> Result<(), Failure> {
    arguments.bar("--parts", "parts", &WITHOUT)
}

/// Of a ticket that has the limit that was asked for.
pub fn run(arguments: &Arguments, engines: &[Engine], accepted: &Accepted) -> Result<Ending, Failure> {
    let mut parts = parts(&accepted.ticket);
    walk(engines, accepted, &mut parts)?;
    let own = together(&accepted.ticket, &parts);
    let (table, atoms) = (accepted.table.clone(), accepted.ticket.atoms());
    let said = if is_cut(&parts, accepted.ticket.limit) { None } else { awaited(engines, move |engine| library::fit_parts(engine, &table, atoms), Parted::told)? };
    let (whole, stopper) = match said {
        None => (Parted { verdict: Verdict::Spent, count: own.count, answer: Vec::new() }, "--time-limit"),
        Some(said) if is_same(&said, &own) => (said, "the limit"),
        Some(said) => {
            let (said, own) = (said.told(), own.told());
            return Err(Failure::disagreement(format!("by parts the library says {said}, and its parts one by one come to {own}")));
        }
    };
    Parts { arguments, engines, accepted, parts, whole, stopper }.ending()
}

/// In the order in which they are run: clauses without atoms, and then by the lowest predicate.
fn parts(ticket: &Ticket) -> Vec<Part> {
    let mut lowest: Vec<u8> = (0..ticket.arities.len() as u8).collect();
    let own = |clause: usize| ticket.clauses[clause].atoms().map(|atom| atom.predicate);
    for clause in 0..ticket.clauses.len() {
        let labels: Vec<u8> = own(clause).map(|predicate| lowest[predicate as usize]).collect();
        let least = labels.iter().copied().min().unwrap_or_default();
        lowest.iter_mut().filter(|label| labels.contains(label)).for_each(|label| *label = least);
    }
    let all = 0..ticket.clauses.len();
    let bare = all.clone().filter(|clause| own(*clause).next().is_none()).map(|clause| Part { predicates: Vec::new(), clauses: vec![clause], at: None });
    let family = |label: u8| Part {
        predicates: (0..lowest.len() as u8).filter(|predicate| lowest[*predicate as usize] == label).collect(),
        clauses: all.clone().filter(|clause| own(*clause).next().is_some_and(|predicate| lowest[predicate as usize] == label)).collect(),
        at: None,
    };
    let families = (0..lowest.len() as u8).filter(|predicate| lowest[*predicate as usize] == *predicate).map(family);
    bare.chain(families).collect()
}

/// Walks one after another, up to the first that is none or until the time is over.
fn walk(engines: &[Engine], accepted: &Accepted, parts: &mut [Part]) -> Result<(), Failure> {
    for part in parts {
        let mut walk = Walk::begin(engines, &accepted.only(&part.clauses)?)?;
        if !walk.run(accepted.ticket.limit, &mut |_| Ok(()))? {
            return Err(Failure::stopped("stopped by Ctrl-C: by parts no session is left that could be resumed"));
        }
        let verdict = part.at.insert(walk.at).fit.verdict;
        if verdict == Verdict::None || clock::is_over() {
            break;
        }
    }
    Ok(())
}

/// Whether the time was over before the walks were.
fn is_cut(parts: &[Part], limit: u32) -> bool {
    let ended: Vec<_> = parts.iter().filter_map(|part| part.at.as_ref()).collect();
    let is_none = ended.iter().any(|at| at.fit.verdict == Verdict::None);
    ended.iter().any(|at| at.fit.verdict == Verdict::Spent && at.fit.count < limit) || (!is_none && ended.len() < parts.len())
}

/// What the parts that were walked come to.
fn together(ticket: &Ticket, parts: &[Part]) -> Parted {
    let ended = || parts.iter().filter_map(|part| part.at.as_ref().map(|at| (part, at)));
    let has = |verdict: Verdict| ended().any(|(_, at)| at.fit.verdict == verdict);
    let verdict = [Verdict::None, Verdict::Spent].into_iter().find(|verdict| has(*verdict)).unwrap_or(Verdict::Fits);
    let answer = ticket.ground_atoms().into_iter().enumerate().map(|(i, atom)| {
        let own = ended().find(|(part, _)| part.predicates.contains(&atom.predicate));
        own.map_or(0, |(_, at)| at.fit.answer[i])
    });
    Parted { verdict, count: ended().map(|(_, at)| at.fit.count as u64).sum(), answer: answer.collect() }
}

/// Only with fits the answer counts.
fn is_same(said: &Parted, own: &Parted) -> bool {
    (said.verdict, said.count) == (own.verdict, own.count) && (said.verdict != Verdict::Fits || said.answer == own.answer)
}

impl Parts<'_> {
    fn ending(&self) -> Result<Ending, Failure> {
        let (verdict, ticket) = (self.whole.verdict, &self.accepted.ticket);
        let entered = self.parts.iter().filter_map(|part| part.at.as_ref()).flat_map(Moved::entered);
        let fitting = (verdict == Verdict::Fits).then(|| Fitting::entered(self.accepted, ticket, entered, self.whole.answer.clone())).transpose()?;
        if let (Some(to), Some(fitting)) = (self.arguments.option("--svg"), &fitting) {
            let drawing = picture::drawing(fitting, &format!("A fitting of {}", plain(&called(self.arguments.file(0)))));
            match to.to_str() {
                Some("-") => return Ok(Ending::new(status(verdict), drawing)),
                _ => out::put(to, drawing.as_bytes())?,
            }
        }
        if self.arguments.has("--json") {
            return Ok(self.as_json(fitting.as_ref()));
        }
        let parts: String = self.parts.iter().enumerate().map(|(i, part)| format!("part {}: {}\n", i + 1, self.part_words(part))).collect();
        let stats = if self.arguments.has("--stats") { stats_words(self.accepted, self.whole.count)? } else { String::new() };
        let shown = fitting.as_ref().map_or(Ok(String::new()), |fitting| fitting_words(self.arguments, fitting))?;
        Ok(Ending::new(status(verdict), [parts, self.verdict_words(), engine_words(self.engines), stats, shown].concat()))
    }

    fn predicates(&self, part: &Part) -> Vec<String> {
        part.predicates.iter().map(|predicate| self.accepted.predicate(*predicate)).collect()
    }

    fn part_words(&self, part: &Part) -> String {
        let name = match part.clauses.first() {
            Some(clause) if part.predicates.is_empty() => format!("{}, which has no atoms", self.accepted.clause_name(*clause)),
            Some(_) => self.predicates(part).join(", "),
            None => format!("{}, in no rule", self.predicates(part).join(", ")),
        };
        let Some(at) = &part.at else { return format!("{name}: not walked") };
        format!("{name}: {}", after_words(&at.fit))
    }

    fn verdict_words(&self) -> String {
        let meaning = match self.whole.verdict {
            Verdict::Fits => "fits".to_string(),
            Verdict::None => "none: no set of atoms is a fitting".to_string(),
            Verdict::Spent => format!("spent: {} stopped the walk of a part", self.stopper),
        };
        let (count, limit) = (self.whole.count, self.accepted.ticket.limit);
        format!("verdict: {meaning}\nentries: {count} in {}, of at most {limit} each\n", self.walked_words())
    }

    /// How many parts the entries were made in, and of how many where some were not walked.
    fn walked_words(&self) -> String {
        let (all, walked) = (counted(self.parts.len(), "part"), self.parts.iter().filter(|part| part.at.is_some()).count());
        if walked == self.parts.len() { all } else { format!("{walked} of {all}") }
    }

    fn as_json(&self, fitting: Option<&Fitting>) -> Ending {
        let part = |part: &Part| {
            let verdict = part.at.as_ref().map_or(Json::Null, |at| Json::text(at.fit.verdict.name()));
            let entries = part.at.as_ref().map_or(Json::Null, |at| Json::number(at.fit.count));
            let rules = part.clauses.iter().map(|clause| Json::Record(self.accepted.clause_fields(*clause))).collect();
            let predicates = Json::texts(self.predicates(part));
            Json::Record(vec![("predicates", predicates), ("rules", Json::List(rules)), ("verdict", verdict), ("entries", entries)])
        };
        let mut more = vec![
            ("entries", Json::Number(self.whole.count as f64)),
            ("limit", Json::number(self.accepted.ticket.limit)),
            ("engines", Json::texts(self.engines.iter().map(|engine| engine.name().to_string()).collect())),
            ("parts", Json::List(self.parts.iter().map(part).collect())),
        ];
        if let Some(fitting) = fitting {
            more.push(("fitting", Json::texts(self.accepted.atoms(&fitting.atoms()))));
            more.push(("true", Json::texts(self.accepted.atoms(&fitting.true_atoms()))));
        }
        json::ending("fit", self.whole.verdict.name(), status(self.whole.verdict), more)
    }
}
