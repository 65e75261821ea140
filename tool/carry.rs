//! A walk carried on until it is over, has made the entries that it may make, or is stopped by Ctrl-C; and what is said of it then.

use crate::arguments::Arguments;
use crate::ending::{Ending, Failure, Status};
use crate::engines::Walk;
use crate::fit::{depth_words, engine_words, fitting_words, json, lines, stats_words, status, verdict_words};
use crate::fitting::Fitting;
use crate::library::{Engine, Session, Verdict};
use crate::more::{further, Further};
use crate::out;
use crate::picture;
use crate::save::Save;
use crate::source::{called, Accepted};
use crate::spell::plain;
use crate::staged::{Begun, Staged};
use std::ffi::OsStr;

/// How a walk is carried on.
pub struct Carry<'a> {
    pub arguments: &'a Arguments,
    /// the ticket's
    pub file: &'a OsStr,
    pub engines: &'a [Engine],
    pub accepted: &'a Accepted,
    /// how many entries it may have made then
    pub most: u32,
    /// what stops it there
    pub stopper: &'a str,
    /// the staged engine's walk, which must not contradict it
    pub beside: Option<Begun>,
}

impl Carry<'_> {
    pub fn on(&self, mut walk: Walk, mut save: Option<Save>) -> Result<Ending, Failure> {
        let mut show = |session: &Session| save.as_mut().map_or(Ok(()), |save| save.meanwhile(session));
        let is_over = walk.run(self.most, &mut show)?;
        let saved = save.as_mut().map_or(Ok(()), |save| save.put(&walk.at.session));
        if !is_over {
            return Err(self.stopped(&walk.at.session, save.as_ref(), saved));
        }
        let beside = self.beside.as_ref().map(|begun| begun.ended()).transpose()?;
        beside.iter().try_for_each(|staged| staged.check_beside(&walk.at.fit))?;
        let printed = self.printed(&walk, save.as_ref().filter(|_| saved.is_ok()), beside)?;
        match saved {
            Ok(()) => Ok(printed),
            Err(failure) => {
                eprintln!("lutsamik: {}", failure.message);
                Ok(Ending { status: Status::Usage, ..printed })
            }
        }
    }

    fn printed(&self, walk: &Walk, save: Option<&Save>, beside: Option<Staged>) -> Result<Ending, Failure> {
        let fit = &walk.at.fit;
        let fitting = (fit.verdict == Verdict::Fits).then(|| Fitting::of(self.accepted, &self.accepted.ticket, &walk.at)).transpose()?;
        if self.arguments.has("--lines") {
            return Ok(Ending::new(status(fit.verdict), lines(fit, fitting.as_ref())));
        }
        if let (Some("-"), Some(fitting)) = (self.arguments.option("--svg").and_then(OsStr::to_str), &fitting) {
            return Ok(Ending::new(status(fit.verdict), self.picture(fitting)));
        }
        if let (Some(out), Some(fitting)) = (out::file(self.arguments, "--svg")?, &fitting) {
            out::put(out, self.picture(fitting).as_bytes())?;
        }
        let many = self.arguments.number("-n")?.filter(|_| fitting.is_some());
        let further = many.map(|many| further(self, &walk.at, many)).transpose()?;
        if self.arguments.has("--json") {
            return Ok(json(self, walk, fitting.as_ref(), further, beside));
        }
        let stopper = if fit.count < self.most { "--time-limit" } else { self.stopper };
        let saved = save.map_or(String::new(), |save| match fit.verdict {
            Verdict::Spent => format!("to go on: {}\n", self.resuming(save, "N")),
            _ => format!("saved: {}\n", save.name),
        });
        let verdict = verdict_words(fit, self.most, stopper) + &depth_words(&walk.depth());
        let stats = if self.arguments.has("--stats") { stats_words(self.accepted, fit.count as u64)? } else { String::new() };
        let shown = fitting.as_ref().map_or(Ok(String::new()), |fitting| fitting_words(self.arguments, fitting))?;
        let further = further.map_or(Ok(String::new()), |further| self.further_words(&further))?;
        let engines = engine_words(self.engines) + &beside.map_or(String::new(), |staged| staged.beside_words());
        Ok(Ending::new(status(fit.verdict), [verdict, engines, stats, saved, shown, further].concat()))
    }

    fn picture(&self, fitting: &Fitting) -> String {
        picture::drawing(fitting, &format!("A fitting of {}", plain(&called(self.file))))
    }

    fn further_words(&self, further: &Further) -> Result<String, Failure> {
        let told = |(i, fitting): (usize, &Fitting)| Ok(format!("{}. {}", i + 2, fitting_words(self.arguments, fitting)?));
        let told = further.fittings.iter().enumerate().map(told).collect::<Result<String, Failure>>()?;
        Ok(format!("{told}{}\n", further.others))
    }

    fn stopped(&self, session: &Session, save: Option<&Save>, saved: Result<(), Failure>) -> Failure {
        let Session { count, length, .. } = session;
        let next = match (save, saved) {
            (None, _) => "with --save SESSION it could be resumed".to_string(),
            (Some(_), Err(failure)) => failure.message,
            (Some(save), Ok(())) => format!("to go on: {}", self.resuming(save, &(self.most - count).to_string())),
        };
        Failure::stopped(format!("stopped by Ctrl-C after {count} of at most {} entries, at depth {length}; {next}", self.most))
    }

    /// The command that goes on with a session.
    fn resuming(&self, save: &Save, further: &str) -> String {
        let [session, file] = [&save.name, &self.file.to_string_lossy().into_owned()].map(|name| quoted(name));
        let engine = self.arguments.choice("--engine").map(|engine| if engine == "all" { "both" } else { engine });
        let engine = engine.map_or(String::new(), |engine| format!(" --engine {engine}"));
        format!("./lutsamik resume {session} {file} --further {further}{engine}")
    }
}

/// A word as a shell takes it.
fn quoted(word: &str) -> String {
    let is_plain = |letter: char| letter.is_ascii_alphanumeric() || "-_./+:,=@%".contains(letter);
    if !word.is_empty() && word.chars().all(is_plain) { word.to_string() } else { format!("'{}'", word.replace('\'', r"'\''")) }
}
