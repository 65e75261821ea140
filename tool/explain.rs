//! `explain`: why a ticket has no fitting. Rules are taken out one by one and the engine is asked again, until a set is left that has no fitting and
//! from which none can be left out.

use crate::arguments::{Arguments, Command};
use crate::clock;
use crate::ending::{Ending, Failure, Status};
use crate::engines::agreed;
use crate::fit::status;
use crate::interrupt;
use crate::json::{self, Json};
use crate::library::{Engine, Fit, Verdict};
use crate::out;
use crate::progress::Line;
use crate::source::{called, Accepted, Source};
use crate::spell::plain;
use crate::svg;
use crate::trail;

pub const COMMAND: Command = Command { name: "explain", text: include_str!("help/explain.txt"), run };

/// Longer trails are drawn and not printed.
const PRINTED: u32 = 100;
/// Longer ones are not drawn either.
const DRAWN: u32 = 20_000;

/// What is known of a rule that is kept.
#[derive(Clone, Copy, Debug, PartialEq, Eq)]
enum Without {
    /// the others have a fitting
    Fits,
    /// whether they have one is not found out under the limit
    Spent,
    /// the time was over
    Untried,
}

fn run(arguments: &Arguments) -> Result<Ending, Failure> {
    let out = out::file(arguments, "--svg")?;
    clock::begin(arguments.number("--time-limit")?);
    let accepted = Source::open(arguments.file(0))?.accepted()?;
    let accepted = accepted.with_limit(arguments.number("--limit")?.unwrap_or(accepted.ticket.limit))?;
    interrupt::catch();
    let verdict = ask(&[Engine::Magic], &accepted)?.verdict;
    if verdict != Verdict::None {
        return Ok(nothing(arguments, verdict));
    }
    let kept = kept(&accepted)?;
    clock::go_on();
    let reduced = accepted.only(&kept.iter().map(|(clause, _)| *clause).collect::<Vec<_>>())?;
    let entries = confirmed(&reduced)?;
    let longest = if clock::is_over() { PRINTED } else { DRAWN };
    clock::stop();
    let is_drawn = arguments.option("--svg").is_some() && entries.is_some_and(|entries| entries <= longest);
    let drawing = if is_drawn { Some(drawing(arguments, &reduced)?) } else { None };
    match (out, drawing) {
        (Some(out), Some(drawing)) => out::put(out, drawing.as_bytes())?,
        (None, Some(drawing)) => return Ok(Ending::new(Status::None, drawing)),
        _ => {}
    }
    if arguments.has("--json") {
        return Ok(as_json(&accepted, &kept, entries));
    }
    let undrawn = match entries {
        _ if is_drawn || arguments.option("--svg").is_none() => "",
        Some(_) => "not drawn: the trail is too long\n",
        None => "not drawn: the time was over\n",
    };
    let is_printed = entries.is_some_and(|entries| entries <= PRINTED);
    let tree = if is_printed { trail::tree_words(&reduced, &trail::made(&reduced)?.0) } else { String::new() };
    Ok(Ending::new(Status::None, words(&accepted, &kept, entries) + undrawn + &tree))
}

/// Both engines are asked whether the rules that are left have no fitting: after how many entries; nothing where the time is over before.
fn confirmed(reduced: &Accepted) -> Result<Option<u32>, Failure> {
    let fit = ask(&[Engine::Relevancy, Engine::Magic], reduced)?;
    match fit.verdict {
        Verdict::None => Ok(Some(fit.count)),
        Verdict::Spent if clock::is_over() && fit.count < reduced.ticket.limit => Ok(None),
        _ => Err(Failure::disagreement("the rules that are left have a fitting, or are spent")),
    }
}

/// The trail of the rules that are left.
fn drawing(arguments: &Arguments, reduced: &Accepted) -> Result<String, Failure> {
    let (tree, walk) = trail::made(reduced)?;
    Ok(svg::drawing(reduced, &tree, &walk.at.fit, &title(arguments, reduced)))
}

fn title(arguments: &Arguments, reduced: &Accepted) -> String {
    format!("Why {} has no fitting: {} rules that do not go together", plain(&called(arguments.file(0))), reduced.ticket.clauses.len())
}

/// What the engines say of a ticket under its limit.
fn ask(engines: &[Engine], accepted: &Accepted) -> Result<Fit, Failure> {
    let fit = agreed(engines, accepted)?.at.fit;
    if interrupt::is_asked() {
        return Err(Failure::stopped("stopped by Ctrl-C: nothing is explained"));
    }
    Ok(fit)
}

/// A set of clauses that has no fitting, with what is known of each.
fn kept(accepted: &Accepted) -> Result<Vec<(usize, Without)>, Failure> {
    let all = accepted.ticket.clauses.len();
    let mut kept: Vec<(usize, Without)> = (0..all).map(|clause| (clause, Without::Untried)).collect();
    let mut line = Line::new();
    loop {
        let before = kept.len();
        for clause in 0..all {
            line.draw(|| format!("rule {} of {all}, {} are left", clause + 1, kept.len()));
            try_without(accepted, clause, &mut kept)?;
        }
        // A rule that was spent with many others may be found out with few.
        if kept.len() == before || kept.iter().all(|(_, without)| *without != Without::Spent) {
            return checked(accepted, kept);
        }
    }
}

/// Takes a clause out if the others still have no fitting.
fn try_without(accepted: &Accepted, clause: usize, kept: &mut Vec<(usize, Without)>) -> Result<(), Failure> {
    let Some(at) = kept.iter().position(|(own, without)| *own == clause && *without != Without::Fits) else { return Ok(()) };
    if !clock::is_over() {
        match without(accepted, kept, clause)? {
            Some(found) => kept[at].1 = found,
            None => drop(kept.remove(at)),
        }
    }
    Ok(())
}

/// What is known of the others; nothing where they have no fitting.
fn without(accepted: &Accepted, kept: &[(usize, Without)], clause: usize) -> Result<Option<Without>, Failure> {
    let rest: Vec<usize> = kept.iter().map(|(own, _)| *own).filter(|own| *own != clause).collect();
    Ok(match ask(&[Engine::Magic], &accepted.only(&rest)?)?.verdict {
        Verdict::None => None,
        Verdict::Fits => Some(Without::Fits),
        Verdict::Spent if clock::is_over() => Some(Without::Untried),
        Verdict::Spent => Some(Without::Spent),
    })
}

/// Asks once more of each rule without which the others are said to fit, now that all are known.
fn checked(accepted: &Accepted, kept: Vec<(usize, Without)>) -> Result<Vec<(usize, Without)>, Failure> {
    for (clause, said) in kept.iter().filter(|(_, said)| *said == Without::Fits) {
        if !clock::is_over() && without(accepted, &kept, *clause)?.is_none() {
            return Err(Failure::disagreement(format!("without clause {clause} there is a fitting of more rules, and none of fewer ({said:?})")));
        }
    }
    Ok(kept)
}

/// Where the ticket is not known to have no fitting.
fn nothing(arguments: &Arguments, verdict: Verdict) -> Ending {
    let words = match verdict {
        Verdict::Fits => "fits: there is nothing to explain, './lutsamik fit' shows a fitting\n",
        _ => "spent: it is not known whether there is a fitting; --limit N allows more entries, --time-limit S more time\n",
    };
    if arguments.has("--json") {
        return json::ending("explain", verdict.name(), status(verdict), Vec::new());
    }
    Ending::new(status(verdict), words)
}

fn words(accepted: &Accepted, kept: &[(usize, Without)], entries: Option<u32>) -> String {
    let all = accepted.ticket.clauses.len();
    let mut words = format!("none: these {} of {all} rules already have no fitting\n", kept.len());
    for (clause, without) in kept {
        let mark = match without {
            Without::Fits => "",
            Without::Spent => " [spent]",
            Without::Untried => " [untried]",
        };
        words += &format!("  {}: {}{mark}\n", accepted.clause_name(*clause), accepted.rule(*clause));
    }
    let needed = kept.iter().filter(|(_, without)| *without == Without::Fits).count();
    let needed = if needed == kept.len() { "any one of them".to_string() } else { format!("any one of the {needed} that are not marked") };
    words += &match entries {
        Some(entries) => format!("checked: by both engines they have none, after {entries} entries; without {needed} the others fit\n"),
        None => format!("by the magic engine they have none, and without {needed} the others fit; the time was over before both engines had walked them once more\n"),
    };
    let has = |known: Without| kept.iter().any(|(_, without)| *without == known);
    if has(Without::Spent) {
        words += "[spent]: without this rule the walk is spent, so it may not be needed; --limit N allows more entries\n";
    }
    if has(Without::Untried) {
        words += "[untried]: the time was over, so it may not be needed; --time-limit S allows more\n";
    }
    words
}

fn as_json(accepted: &Accepted, kept: &[(usize, Without)], entries: Option<u32>) -> Ending {
    let rule = |(clause, without): &(usize, Without)| {
        let without = format!("{without:?}").to_lowercase();
        Json::Record(accepted.clause_fields(*clause).into_iter().chain([("without", Json::text(without))]).collect())
    };
    let more = vec![
        ("entries", entries.map_or(Json::Null, Json::number)),
        ("checked", Json::True(entries.is_some())),
        ("of", Json::number(accepted.ticket.clauses.len())),
        ("rules", Json::List(kept.iter().map(rule).collect())),
    ];
    json::ending("explain", Verdict::None.name(), Status::None, more)
}
