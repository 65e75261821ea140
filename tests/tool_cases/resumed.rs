//! Sessions as the tool moves and keeps them, on many random tickets. A walk in slices, and one that is kept in a file and brought back again and
//! again by either engine or both, must come to the answer and the session of a single run under the sum of the limits. A file that is cut off
//! anywhere or has a byte changed is refused. Usage: resumed [NUMBER OF TICKETS].
#![allow(dead_code)] // of the tool only what moves and keeps a session is asked for

#[path = "../../tool/clause.rs"]
mod clause;
#[path = "../../tool/clock.rs"]
mod clock;
#[path = "../../tool/ending.rs"]
mod ending;
#[path = "../../tool/engines.rs"]
mod engines;
#[path = "../../tool/frame.rs"]
mod frame;
#[path = "../../tool/interrupt.rs"]
mod interrupt;
#[path = "../../tool/language.rs"]
mod language;
#[path = "../../tool/library.rs"]
mod library;
#[path = "../../tool/parse.rs"]
mod parse;
#[path = "../../tool/progress.rs"]
mod progress;
#[path = "../random.rs"]
mod random;
#[path = "../reference.rs"]
mod reference;
#[path = "../report.rs"]
mod report;
#[path = "../../tool/session.rs"]
mod session;
#[path = "../../tool/slice.rs"]
mod slice;
#[path = "../../tool/source.rs"]
mod source;
#[path = "../../tool/spell.rs"]
mod spell;
#[path = "../threads.rs"]
mod threads;
#[path = "../../tool/ticket.rs"]
mod ticket;
#[path = "../tickets.rs"]
mod tickets;

use ending::Failure;
use engines::Walk;
use library::{Engine, Moved, Stack};
use random::Random;
use report::{same, Report};
use session::Kept;
use source::{Accepted, Source};
use threads::{add_each, row, Run, Tally};

const TICKETS: u64 = 2_000;
const BOTH: [Engine; 2] = [Engine::Relevancy, Engine::Magic];
const STACK: usize = 1 << 20;

fn main() {
    threads::run("resumed", TICKETS, 31, run);
}

fn run(run: &mut Run<Met>, many: u64) -> Result<(), Report> {
    while run.tally.tickets < many {
        let mut ticket = tickets::to_walk(&mut run.random);
        let most = run.random.pick(&[1, 10, 100, 1000]);
        ticket.limit = (run.random.within(0, most) as u32).to_be_bytes();
        let text = reference::print(&ticket);
        let told = |report: Report| format!("{report}\n{}", String::from_utf8_lossy(&text));
        run.tally.tickets += 1;
        compare(&text, run).map_err(told)?;
    }
    Ok(())
}

fn compare(text: &[u8], run: &mut Run<Met>) -> Result<(), Report> {
    let source = Source { file: "ticket".to_string(), text: text.to_vec(), names: None, is_sheet: false, origins: Vec::new() };
    let accepted = source.accepted().map_err(told)?;
    let (atoms, most) = (accepted.ticket.atoms(), accepted.ticket.limit);
    let mut stack = Stack::painted(STACK);
    let whole = library::begin(Engine::Relevancy, &mut stack, &accepted.table, atoms).map_err(told)?;
    for engine in BOTH {
        same("a first run", &whole, &library::begin(engine, &mut stack, &accepted.table, atoms).map_err(told)?)?;
        same("a fit", &whole.fit, &library::fit(engine, &accepted.table, atoms).map_err(told)?)?;
    }
    let mut walk = Walk::begin(&BOTH, &accepted).map_err(told)?;
    walk.run(most, &mut |_| Ok(())).map_err(told)?;
    same("a walk in slices", &whole, &walk.at)?;
    same("the deepest path, of at most so many entries, in this run", (whole.session.deepest, atoms, false), shown(&walk))?;
    let brought = brought_back(text, &accepted, run)?;
    same("a walk brought back", &whole, &brought)?;
    run.tally.met(&whole);
    file(text, &accepted, &whole, &mut run.random)
}

/// The walk under the ticket's limit, in parts, and through a file between them.
fn brought_back(text: &[u8], accepted: &Accepted, run: &mut Run<Met>) -> Result<Moved, Report> {
    let mut at = Walk::begin(&BOTH, accepted).map_err(told)?.at;
    let mut left = accepted.ticket.limit;
    let longest = run.random.within(1, 1 + left as usize) as u32;
    while left > 0 {
        let further = (run.random.within(0, longest as usize) as u32).min(left);
        let engines = run.random.pick(&[&BOTH[..], &BOTH[..1], &BOTH[1..]]);
        let kept = Kept::parse(&Kept { session: at.session, ticket: text.to_vec() }.text())?;
        same("the session in a file", at.session, kept.session)?;
        let resumed = Walk::resume(engines, accepted, &kept.session, further).map_err(told)?;
        let mut walk = resumed.map_err(|number| format!("a session that was left is refused by {number}"))?;
        walk.run(kept.session.count + further, &mut |_| Ok(())).map_err(told)?;
        let is_earlier = walk.at.session.deepest == kept.session.deepest && kept.session.deepest > 0;
        same("the deepest path of a part", (walk.at.session.deepest, accepted.ticket.atoms(), is_earlier), shown(&walk))?;
        run.tally.earlier += is_earlier as u64;
        (at, left) = (walk.at, left - further);
        run.tally.parts += 1;
    }
    Ok(at)
}

/// A session's file, cut off or changed; and its ticket with another limit, or with a clause less.
fn file(text: &[u8], accepted: &Accepted, whole: &Moved, random: &mut Random) -> Result<(), Report> {
    let kept = Kept { session: whole.session, ticket: text.to_vec() };
    let bytes = kept.text();
    let cut = random.within(0, bytes.len() - 1);
    same("a file that is cut off is taken", false, Kept::parse(&bytes[..cut]).is_ok())?;
    let mut changed = bytes.clone();
    changed[cut] ^= random.within(1, 255) as u8;
    same("a file that is changed is taken", false, Kept::parse(&changed).is_ok())?;
    same("a file with more after it is taken", false, Kept::parse(&[&bytes[..], b"\n"].concat()).is_ok())?;
    same("its ticket is taken with another limit", true, kept.is_of(&accepted.ticket.with_limit(accepted.ticket.limit ^ 1)))?;
    let mut shorter = accepted.ticket.clone();
    let is_shorter = shorter.clauses.pop().is_some();
    same("a shorter ticket is taken", !is_shorter, kept.is_of(&shorter))
}

/// The deepest path as it is shown, how many entries it can have, and whether it was entered before.
fn shown(walk: &Walk) -> (u32, usize, bool) {
    let depth = walk.depth();
    (depth.deepest, depth.most, depth.is_earlier)
}

fn told(failure: Failure) -> Report {
    failure.message
}

/// How often a walk came to none, fits and spent, how many parts they were walked in, in how many of them the deepest path was not passed, and the
/// deepest of all.
#[derive(Default)]
struct Met {
    tickets: u64,
    verdicts: [u64; 3],
    parts: u64,
    earlier: u64,
    deepest: u64,
}

impl Met {
    fn met(&mut self, moved: &Moved) {
        self.verdicts[moved.fit.verdict as usize] += 1;
        self.deepest = self.deepest.max(moved.session.deepest as u64);
    }
}

impl Tally for Met {
    fn add(&mut self, other: &Met) {
        self.tickets += other.tickets;
        add_each(&mut self.verdicts, &other.verdicts);
        self.parts += other.parts;
        self.earlier += other.earlier;
        self.deepest = self.deepest.max(other.deepest);
    }

    fn print(&self) {
        println!("verdict       none     fits    spent\n         {}", row(&self.verdicts));
        println!("parts: {}, the deepest path not passed in {}, deepest path of all: {}", self.parts, self.earlier, self.deepest);
    }

    fn missing(&self) -> Vec<String> {
        let verdicts = ["none", "fits", "spent"].iter().zip(self.verdicts).filter(|(_, times)| *times == 0).map(|(verdict, _)| verdict.to_string());
        let shallow = (self.deepest < 5).then(|| "paths of 5 entries".to_string());
        let earlier = (self.earlier == 0 || self.earlier == self.parts).then(|| "parts that pass the deepest path, and parts that do not".to_string());
        verdicts.chain(shallow).chain(earlier).collect()
    }

    fn agreed(&self) -> String {
        format!("{} tickets in {} parts", self.tickets, self.parts)
    }
}
