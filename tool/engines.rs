//! The engines side by side on one walk, in slices. Each goes on from the same session, and after each slice answers and sessions must be equal, every
//! byte. So wherever a walk is stopped, all engines agree on it.
//!
//! A walk is begun on the ticket with limit 0 in place of its own, and all that follows are further limits on that ticket. The library claims that this
//! comes to the answer and the session of one run under the sum of the limits; and but for its end a walk does not depend on the ticket's limit.

use crate::clock;
use crate::ending::Failure;
use crate::interrupt;
use crate::library::{self, Engine, Moved, Session, Stack, Table, Verdict};
use crate::progress::Progress;
use crate::slice::Slice;
use crate::source::Accepted;
use std::thread;
use std::time::Instant;

/// The bytes of stack that an engine is left, as include/lutsamik.h asks.
pub const STACK: usize = 1 << 20;

pub struct Walk {
    runs: Vec<Running>,
    table: Table,
    atoms: usize,
    /// the deepest figure that it began with
    brought: u32,
    /// what the engines say of the walk so far, and where it stands
    pub at: Moved,
}

/// An engine, and the stack that all its calls on this walk are on.
struct Running {
    engine: Engine,
    stack: Stack,
}

/// How deep a walk has come, and what it took.
pub struct Depth {
    /// how many entries the longest path had, and how many it can have
    pub deepest: u32,
    pub most: usize,
    /// whether it was so deep before
    pub is_earlier: bool,
    /// the bytes of stack that each engine has used
    pub stacks: Vec<(Engine, usize)>,
}

/// The walk that all these engines make under the ticket's limit.
pub fn agreed(engines: &[Engine], accepted: &Accepted) -> Result<Walk, Failure> {
    let mut walk = Walk::begin(engines, accepted)?;
    walk.run(accepted.ticket.limit, &mut |_| Ok(()))?;
    Ok(walk)
}

impl Walk {
    /// At the root, before any entry.
    pub fn begin(engines: &[Engine], accepted: &Accepted) -> Result<Walk, Failure> {
        let (table, atoms, mut runs) = (accepted.with_limit(0)?.table, accepted.ticket.atoms(), runs(engines));
        let begun = together(&mut runs, |engine, stack| library::begin(engine, stack, &table, atoms).map(Ok))?;
        let at = begun.map_err(|number| Failure::disagreement(format!("a first run is refused by {number}")))?;
        Ok(Walk { runs, table, atoms, brought: 0, at })
    }

    /// Where a session stands that is to go on with this further limit, or the number by which that is refused. No entry is made: the whole limit
    /// is asked for only where it is too much.
    pub fn resume(engines: &[Engine], accepted: &Accepted, session: &Session, further: u32) -> Result<Result<Walk, u8>, Failure> {
        let (table, atoms, mut runs) = (accepted.with_limit(0)?.table, accepted.ticket.atoms(), runs(engines));
        let is_too_much = session.count.checked_add(further).is_none();
        let asked = if is_too_much { further } else { 0 };
        let said = together(&mut runs, |engine, stack| library::resume(engine, stack, session, asked, &table, atoms))?;
        if is_too_much != (said == Err(library::TOO_MANY_ENTRIES)) {
            let told = told(&said);
            return Err(Failure::disagreement(format!("with {} entries and {asked} more going on {told}", session.count)));
        }
        Ok(said.map(|at| Walk { runs, table, atoms, brought: session.deepest, at }))
    }

    pub fn depth(&self) -> Depth {
        let deepest = self.at.session.deepest;
        let stacks = self.runs.iter().map(|run| (run.engine, run.stack.used())).collect();
        Depth { deepest, most: self.atoms, is_earlier: deepest > 0 && deepest == self.brought, stacks }
    }

    /// Goes on until the walk is over, has made so many entries or has taken its time, or Ctrl-C stops it: whether it was not stopped. Each session on the way is shown.
    pub fn run(&mut self, most: u32, show: &mut dyn FnMut(&Session) -> Result<(), Failure>) -> Result<bool, Failure> {
        let mut slice = Slice::first();
        let mut progress = Progress::new(self.at.fit.count, most);
        while self.at.fit.verdict == Verdict::Spent && self.at.fit.count < most {
            show(&self.at.session)?;
            if interrupt::is_asked() {
                return Ok(false);
            }
            if clock::is_over() {
                return Ok(true);
            }
            let (path, made, begun) = (self.at.session.length, slice.entries.min(most - self.at.fit.count), Instant::now());
            self.go_on(made)?;
            slice.set(made, path, begun.elapsed());
            progress.draw(&self.at.session);
        }
        Ok(true)
    }

    /// Makes so many entries more, or fewer if the walk is over before.
    fn go_on(&mut self, many: u32) -> Result<(), Failure> {
        let from = &self.at.session;
        let said = together(&mut self.runs, |engine, stack| library::resume(engine, stack, from, many, &self.table, self.atoms))?;
        let most = from.count + many;
        match said {
            Ok(at) if at.fit.count == most || (at.fit.verdict != Verdict::Spent && (from.count..most).contains(&at.fit.count)) => {
                self.at = at;
                Ok(())
            }
            said => Err(Failure::disagreement(format!("with {} entries and {many} more going on {}", from.count, told(&said)))),
        }
    }
}

fn runs(engines: &[Engine]) -> Vec<Running> {
    engines.iter().map(|engine| Running { engine: *engine, stack: Stack::painted(STACK) }).collect()
}

/// What all these engines say of one call, each in a thread of its own.
fn together<F>(runs: &mut [Running], call: F) -> Result<Result<Moved, u8>, Failure>
where
    F: Fn(Engine, &mut Stack) -> Result<Result<Moved, u8>, Failure> + Sync,
{
    let call = &call;
    let mut said = thread::scope(|scope| {
        let calls: Vec<_> = runs.iter_mut().map(|run| scope.spawn(move || call(run.engine, &mut run.stack))).collect();
        let ended = calls.into_iter().map(|call| call.join().expect("an engine's thread ends with its answer"));
        ended.collect::<Result<Vec<_>, _>>()
    })?;
    if said.iter().all(|other| *other == said[0]) {
        return Ok(said.swap_remove(0));
    }
    let told: Vec<String> = runs.iter().zip(&said).map(|(run, said)| format!("{} {}", run.engine.name(), told(said))).collect();
    Err(Failure::disagreement(format!("the engines disagree: {}", told.join(", "))))
}

fn told(said: &Result<Moved, u8>) -> String {
    match said {
        Ok(moved) => format!("says {}", moved.told()),
        Err(number) => format!("is refused by {number}"),
    }
}
