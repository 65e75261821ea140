//! `whatif`: whether a ticket has a fitting where some facts are not yet known.

use crate::answer;
use crate::arguments::{Arguments, Command};
use crate::awaited::awaited;
use crate::clock;
use crate::ending::{Ending, Failure, Status};
use crate::fit::{engine_words, engines};
use crate::interrupt;
use crate::json::{self, Json};
use crate::library::{self, Assumed, Engine, Said};
use crate::source::{Accepted, Source};
use crate::spell::counted;

pub const COMMAND: Command = Command { name: "whatif", text: include_str!("help/whatif.txt"), run };

const MOST_FACTS: usize = 16;
const MOST_CLAUSES: usize = 64;

/// What was asked, and of it what was answered: nothing where the time was over.
struct Asked<'a> {
    accepted: &'a Accepted,
    engines: &'a [Engine],
    facts: Vec<usize>,
    assumed: Option<Assumed>,
}

fn run(arguments: &Arguments) -> Result<Ending, Failure> {
    let engines = engines(arguments);
    clock::begin(arguments.number("--time-limit")?);
    let accepted = Source::open(arguments.file(0))?.accepted()?;
    let accepted = accepted.with_limit(arguments.number("--limit")?.unwrap_or(accepted.ticket.limit))?;
    let facts = arguments.atoms().map(|word| fact(&word, &accepted)).collect::<Result<Vec<_>, _>>()?;
    interrupt::catch();
    let (table, numbers) = (accepted.table.clone(), facts.iter().map(|fact| *fact as u32).collect::<Vec<_>>());
    let refused = refused(&accepted, &facts);
    if refused.is_some() {
        clock::stop(); // to refuse them takes no time
    }
    let said = awaited(&engines, move |engine| library::assume(engine, &table, &numbers), told)?;
    let assumed = match (said, refused) {
        (Some(Err(number)), Some((own, why))) if number == own => return Err(Failure::refused(format!("{why} (refused by {number})"))),
        (Some(Ok(assumed)), None) => Some(assumed),
        (None, None) => None,
        (said, own) => {
            let said = said.map_or("nothing in time".to_string(), |said| told(&said));
            let must = own.map_or("must not refuse them".to_string(), |(number, _)| format!("must refuse them by {number}"));
            return Err(Failure::disagreement(format!("of these open facts the library says {said}, and {must}")));
        }
    };
    let asked = Asked { accepted: &accepted, engines: &engines, facts, assumed };
    Ok(if arguments.has("--json") { asked.as_json() } else { Ending::new(asked.status(), asked.words()) })
}

/// The number of an atom by its name.
fn fact(word: &str, accepted: &Accepted) -> Result<usize, Failure> {
    let example = accepted.ticket.ground_atoms().first().map_or(String::new(), |atom| format!("; one is {}", accepted.atom(atom)));
    answer::number(word, accepted).ok_or_else(|| Failure::usage(format!("'{word}' is no atom of the ticket{example}")))
}

/// The number by which open facts must be refused, and why.
fn refused(accepted: &Accepted, facts: &[usize]) -> Option<(u8, String)> {
    let (clauses, many) = (accepted.ticket.clauses.len(), facts.len());
    if clauses + many > MOST_CLAUSES {
        let why = format!("the ticket's {} and {} are more than {MOST_CLAUSES} together", counted(clauses, "rule"), counted(many, "open fact"));
        return Some((library::BAD_COUNT, why));
    }
    if many > MOST_FACTS {
        return Some((library::BAD_FACTS, format!("{many} facts are open, and at most {MOST_FACTS} can be")));
    }
    let again = (0..many).find(|i| facts[..*i].contains(&facts[*i]))?;
    Some((library::BAD_FACTS, format!("{} is named twice", accepted.atom(&accepted.ticket.ground_atoms()[facts[again]]))))
}

fn told(said: &Result<Assumed, u8>) -> String {
    said.as_ref().map_or_else(|number| format!("refused by {number}"), Assumed::told)
}

impl Asked<'_> {
    fn said(&self) -> Said {
        self.assumed.map_or(Said::Spent, |assumed| assumed.said)
    }

    fn status(&self) -> Status {
        match self.said() {
            Said::NoneAlways => Status::None,
            Said::NoneNever => Status::Fits,
            Said::NoneWithSome => Status::NoneWithSome,
            Said::Spent => Status::Spent,
        }
    }

    fn names(&self) -> Vec<String> {
        let atoms = self.accepted.ticket.ground_atoms();
        self.facts.iter().map(|fact| self.accepted.atom(&atoms[*fact])).collect()
    }

    fn words(&self) -> String {
        let stopper = if self.assumed.is_some() { "the limit" } else { "--time-limit" };
        let meaning = match self.said() {
            Said::NoneAlways => "whichever of the open facts are added, no set of atoms is a fitting".to_string(),
            Said::NoneNever => "whichever of the open facts are added, it fits".to_string(),
            Said::NoneWithSome => "without the open facts it fits, with all of them no set of atoms is a fitting".to_string(),
            Said::Spent => format!("{stopper} stopped a walk, so it is not known"),
        };
        format!("verdict: {}: {meaning}\nopen facts: {}\n{}{}", self.said().name(), self.names().join(", "), self.entries(), engine_words(self.engines))
    }

    fn entries(&self) -> String {
        let Some(Assumed { said, counts: [first, second] }) = self.assumed else { return String::new() };
        let second = if said == Said::NoneAlways { "not walked".to_string() } else { second.to_string() };
        format!("entries: {first} without the open facts, {second} with all of them, of at most {} each\n", self.accepted.ticket.limit)
    }

    fn as_json(&self) -> Ending {
        let counts = self.assumed.map_or([None; 2], |assumed| [Some(assumed.counts[0]), Some(assumed.counts[1]).filter(|_| assumed.said != Said::NoneAlways)]);
        let [without, with_all] = counts.map(|count| count.map_or(Json::Null, Json::number));
        let more = vec![
            ("facts", Json::texts(self.names())),
            ("entries_without", without),
            ("entries_with_all", with_all),
            ("limit", Json::number(self.accepted.ticket.limit)),
            ("engines", Json::texts(self.engines.iter().map(|engine| engine.name().to_string()).collect())),
        ];
        json::ending("whatif", self.said().name(), self.status(), more)
    }
}
