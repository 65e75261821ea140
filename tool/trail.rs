//! `trail`: the walk as a tree, in words and as a drawing.

use crate::arguments::{Arguments, Command};
use crate::ending::{Ending, Failure};
use crate::engines;
use crate::fit::{depth_words, is_staged, status, verdict_words};
use crate::json::{self, Json};
use crate::library::{Engine, Fit};
use crate::out;
use crate::source::{self, Accepted, Source};
use crate::spell::plain;
use crate::staged;
use crate::svg;
use crate::tree::{trail, Place, Trail};
use crate::wanted::{Found, Way};

pub const COMMAND: Command = Command { name: "trail", text: include_str!("help/trail.txt"), run };

const ENTRIES: u32 = 1000;
const MOST_ENTRIES: u32 = 20_000;

fn run(arguments: &Arguments) -> Result<Ending, Failure> {
    let out = out::file(arguments, "--svg")?;
    let entries = arguments.number("--entries")?.unwrap_or(ENTRIES);
    if entries > MOST_ENTRIES {
        return Err(Failure::usage(format!("--entries is at most {MOST_ENTRIES}: nobody reads a longer trail")));
    }
    let whole = Source::open(arguments.file(0))?.accepted()?;
    let accepted = whole.with_limit(whole.ticket.limit.min(entries))?;
    let (trail, fit, took) = if is_staged(arguments) { by_stages(&accepted)? } else { by_both(&accepted)? };
    if arguments.option("--svg").is_some() {
        let drawing = svg::drawing(&accepted, &trail, &fit, &format!("The trail of {}", plain(&source::called(arguments.file(0)))));
        let Some(out) = out else { return Ok(Ending::new(status(fit.verdict), drawing)) };
        out::put(out, drawing.as_bytes())?;
    }
    let stopper = if entries < whole.ticket.limit { "--entries" } else { "the limit" };
    if arguments.has("--json") {
        return Ok(as_json(&accepted, &trail, &fit));
    }
    let verdict = verdict_words(&fit, accepted.ticket.limit, stopper) + &took;
    Ok(Ending::new(status(fit.verdict), words(&accepted, &trail, &verdict)))
}

/// The trail of both engines, how it ends, and how deep it came and what that took, in words.
fn by_both(accepted: &Accepted) -> Result<(Trail, Fit, String), Failure> {
    let (trail, walk) = made(accepted)?;
    let depth = depth_words(&walk.depth());
    Ok((trail, walk.at.fit, depth))
}

/// The same of the staged engine, which does not tell how deep it came.
fn by_stages(accepted: &Accepted) -> Result<(Trail, Fit, String), Failure> {
    let trail = trail(accepted, Way::InStages)?;
    let walk = staged::made(&accepted.table, accepted.ticket.atoms())?;
    same(&trail, &walk.fit)?;
    let memory = walk.memory_words();
    Ok((trail, walk.fit, memory))
}

/// The trail of a ticket, and the walk of both engines, which must end as it does.
pub fn made(accepted: &Accepted) -> Result<(Trail, engines::Walk), Failure> {
    let trail = trail(accepted, Way::AtOnce)?;
    let walk = engines::agreed(&[Engine::Relevancy, Engine::Magic], accepted)?;
    same(&trail, &walk.at.fit)?;
    Ok((trail, walk))
}

fn as_json(accepted: &Accepted, trail: &Trail, fit: &Fit) -> Ending {
    let place = |place: &Place| {
        let (found, instance) = match &place.found {
            Found::Closed(clause, values) => ("closed", Some((*clause, values))),
            Found::Open(_) => ("open", None),
            Found::Split(clause, values) => ("split", Some((*clause, values))),
        };
        let (above, atom) = place.entry.as_ref().map_or((Json::Null, Json::Null), |(above, atom)| (Json::number(*above), Json::text(accepted.atom(atom))));
        let mut fields = vec![("above", above), ("entered", atom), ("found", Json::text(found)), ("checked", Json::True(place.confirmed))];
        fields.extend(place.stage.map(|stage| ("stage", Json::number(stage))));
        if let Some((clause, values)) = instance {
            fields.extend(accepted.instance_fields(clause, values));
        }
        Json::Record(fields)
    };
    let mut more = vec![("entries", Json::number(fit.count)), ("limit", Json::number(accepted.ticket.limit))];
    more.extend(fit.deepest.map(|deepest| ("deepest", Json::number(deepest))));
    more.push(("places", Json::List(trail.places.iter().map(place).collect())));
    json::ending("trail", fit.verdict.name(), status(fit.verdict), more)
}

/// behind a place that the library does not confirm
const MARK: &str = " [unchecked]";
const LEGEND: &str = "\
[unchecked]: what is true here, and so that the place is not closed, is the library's
  word; what is wanted, and so the split, is the tool's: a ticket that would tell is refused
";

/// That the tree ends as the engines do, as far as they tell.
fn same(trail: &Trail, fit: &Fit) -> Result<(), Failure> {
    let answer = match trail.places.last().map(|place| &place.found) {
        Some(Found::Open(fitting)) => fitting.clone(),
        _ => fit.answer.clone(),
    };
    let deepest = fit.deepest.and_then(|_| trail.places.iter().map(|place| place.depth as u32).max());
    let tree = Fit { verdict: trail.verdict, count: (trail.places.len() - 1) as u32, deepest, answer };
    if tree == *fit {
        return Ok(());
    }
    Err(Failure::disagreement(format!("the tree says {}, and the engines say {}", tree.told(), fit.told())))
}

fn words(accepted: &Accepted, trail: &Trail, verdict: &str) -> String {
    let mut printed = tree_words(accepted, trail);
    printed += verdict;
    let confirmed = trail.places.iter().filter(|place| place.confirmed).count();
    printed += &format!("checked: {confirmed} of {} places\n", trail.places.len());
    if confirmed < trail.places.len() {
        printed += LEGEND;
    }
    printed
}

/// A line for each place.
pub fn tree_words(accepted: &Accepted, trail: &Trail) -> String {
    trail.places.iter().enumerate().map(|(i, place)| line(accepted, i, place)).collect()
}

fn line(accepted: &Accepted, number: usize, place: &Place) -> String {
    let indent = "  ".repeat(place.depth);
    let stage = place.stage.map_or(String::new(), |stage| format!(" [stage {stage}]"));
    format!("{indent}{}: {}{stage}{}\n", label(accepted, number, place), told(accepted, &place.found), if place.confirmed { "" } else { MARK })
}

/// What the place is called: its number among the entries and the atom entered.
pub fn label(accepted: &Accepted, number: usize, place: &Place) -> String {
    match &place.entry {
        Some((_, atom)) => format!("{number}. {}", accepted.atom(atom)),
        None => "root".to_string(),
    }
}

/// How a place is found, in words.
pub fn told(accepted: &Accepted, found: &Found) -> String {
    match found {
        Found::Closed(clause, values) => {
            format!("closed by {}: {}", accepted.instance_name(*clause, values), accepted.reason(*clause, values))
        }
        Found::Open(_) => "open".to_string(),
        Found::Split(clause, values) => {
            format!("split by {}: {}", accepted.instance_name(*clause, values), accepted.instance(*clause, values))
        }
    }
}
