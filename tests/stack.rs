//! How much stack each operation needs, and the engines on the longest paths there are, in one go and going on with a session: in a thread
//! of 1 MB, and on a stack of this program's own, painted beforehand, so that the bytes used can be counted; they must be within a bound. On
//! paths of some lengths they must be what the header's table says, or a little less.
//! Usage: stack [BYTES OF STACK]. Where the stack is too small, a signal ends the program.
mod assume;
mod host;
mod library;
mod logic;
mod painted;
mod parts;
mod random;
mod reference;
mod report;
mod session;
mod stages;
mod tickets;
mod walk;

use host::{Host, BY_PARTS, ENGINES, WITH_FACTS, WITH_SESSION};
use library::{fit, packed, said, violated, Session};
use reference::Ticket;
use report::{same, same_answer, Report};
use session::{begun, resumed, Told};
use stages::Staged;
use std::hint::black_box;
use walk::{walk, Engine, Outcome, Relevancy, Remembering};

const STACK: usize = 1 << 20;

/// The most that an engine may use, on a path of first alternatives or of fourth ones; the most where it goes on with a session; and the most for
/// an operation that walks no path.
const MOST_TO_WALK: usize = 9 << 16;
const MOST_TO_GO_ON: usize = 5 << 17;
const MOST: usize = 1 << 14;

/// How much more than a first run a call with open facts may use, or one by parts, as the header says.
const MORE_WITH_FACTS: usize = 7_000;
const MORE_BY_PARTS: usize = 24_000;

/// The header's table: for paths of so many entries, what a first run and going on with a session use, by each engine, and a run of the staged one.
const HEADER: &str = include_str!("../include/lutsamik.h");
const PATHS: [u32; 4] = [0, 64, 256, 1024];
const ROWS: [&str; 5] = ["a first run by relevancy", "a first run by magic", "a run by stages", "going on by relevancy", "going on by magic"];

fn main() {
    let stack = std::env::args().nth(1).map_or(STACK, |word| word.parse().expect("the argument is a number"));
    if let Err(report) = measure(stack) {
        println!("{report}\nstack: FAILED");
        std::process::exit(1);
    }
}

fn measure(stack: usize) -> Result<(), Report> {
    counts_right(stack)?;
    without_a_walk(&tickets::deep(32, 1, 1024), stack)?;
    let (open, late) = (tickets::deep(31, 2, u32::MAX), tickets::late(31, u32::MAX));
    walked(&open, 961, 961, stack)?;
    walked(&late, 4 * 961, 961, stack)?;
    brought_back(&open, 961, stack)?;
    brought_back(&late, 4 * 961, stack)?;
    for limit in [0, 64, 256, 512] {
        walked(&tickets::deep(24, 2, limit), limit, limit, stack)?;
    }
    as_in_header(stack)
}

/// Walks straight down, to each of the lengths in the header's table; the last one is that of the longest path there is.
fn as_in_header(stack: usize) -> Result<(), Report> {
    let mut measured = [[0; PATHS.len()]; ROWS.len()];
    for (i, path) in PATHS.into_iter().enumerate() {
        let ticket = tickets::deep(32, 1, path);
        let (fits, calls) = (walked(&ticket, path, path, stack)?, brought_back(&ticket, path, stack)?);
        measured[2][i] = fits[2];
        for (engine, [begun, resumed]) in calls.into_iter().enumerate() {
            measured[engine][i] = begun.max(fits[engine]);
            measured[3 + engine][i] = resumed;
        }
    }
    println!("stack: in the header's table, on paths of {PATHS:?} entries:");
    ROWS.iter().zip(&measured).for_each(|(row, used)| println!(" *   {row:24}{}", used.map(rounded).concat()));
    ROWS.iter().zip(&measured).try_for_each(|(row, used)| is_said(row, used))
}

/// As the header writes it: in thousands, and no less.
fn rounded(used: usize) -> String {
    format!("{:>5},000", used.div_ceil(1000))
}

/// That a row of the header's table has at least these numbers, and hardly more.
fn is_said(row: &str, used: &[usize]) -> Result<(), Report> {
    let words = HEADER.lines().find_map(|line| line.strip_prefix(" * ")?.trim_start().strip_prefix(row));
    let said: Vec<usize> = words.unwrap_or("").split_whitespace().filter_map(|word| word.replace(',', "").parse().ok()).collect();
    let is_right = |(said, used): (&usize, &usize)| (*used..=used + used / 16 + 1000).contains(said);
    if said.len() == used.len() && said.iter().zip(used).all(is_right) {
        return Ok(());
    }
    Err(format!("{row} uses {used:?} bytes on paths of {PATHS:?} entries, and the header says {said:?}"))
}

/// That a function which fills 100,000 bytes of stack is counted so, and little more.
fn counts_right(stack: usize) -> Result<(), Report> {
    const FILLED: usize = 100_000;
    let (_, used) = painted::run(stack, || black_box([1_u8; FILLED])[FILLED / 2] as u64);
    match used {
        FILLED..=110_000 => Ok(()),
        _ => Err(format!("where {FILLED} bytes are filled, {used} are counted")),
    }
}

/// The operations that walk no path.
fn without_a_walk(ticket: &Ticket, stack: usize) -> Result<(), Report> {
    let text = reference::print(ticket);
    let rules: usize = ticket.clauses.iter().map(|clause| clause.conditions.len() + 1).sum();
    let mut host = Host { answer: vec![0; reference::ANSWER], ..Host::new() };
    let reading = used("reading", packed(0, 0), stack, MOST, || host.read(&text))?;
    let writing = used("writing", packed(0, text.len() as u32), stack, MOST, || host.write())?;
    let rewriting = used("rewriting", packed(0, rules as u32), stack, MOST, || host.rewrite())?;
    let judging = used("judging", violated(0, [0; 4]), stack, MOST, || host.judge())?;
    let last = ticket.clauses.len() as u32 - 1;
    let holding = used("holding", packed(0, 0), stack, MOST, || host.holding(last, [0; 4]))?;
    println!("stack: reading uses {reading} bytes, writing {writing}, rewriting {rewriting}, judging {judging}, holding {holding}");
    let shorter = Ticket { clauses: Vec::new(), ..ticket.clone() };
    host.table = reference::encode(&shorter);
    let rule = reference::clause_frame(&ticket.clauses[0]);
    let offering = used("offering", packed(0, 0), stack, MOST, || host.offer(&rule))?;
    let setting = used("setting", packed(0, 0), stack, MOST, || host.set())?;
    println!("stack: offering uses {offering} bytes, setting {setting}");
    Ok(())
}

/// A ticket that has so many entries, the longest path of this length, by each engine: how many bytes each uses, the staged one last. It tells no figure.
fn walked(ticket: &Ticket, count: u32, path: u32, stack: usize) -> Result<[usize; 3], Report> {
    let limit = u32::from_be_bytes(ticket.limit);
    let [outcome, staged] = [&Relevancy::new(ticket) as &dyn Engine, &Staged::new(ticket)].map(|engine| walk(engine, limit, &mut |_, _| {}));
    same("entries and longest path", [(count, path); 2], [&outcome, &staged].map(|outcome| (outcome.count, outcome.deepest)))?;
    let expected = fit(outcome.verdict as u8, outcome.count, outcome.deepest);
    let [relevancy, magic] = ENGINES.map(|engine| fitted(engine, expected, ticket, stack));
    let most = [relevancy?, magic?];
    with_facts(ticket, &outcome, most, stack)?;
    by_parts(ticket, most, stack)?;
    let staged = fitted(("stages", Host::fit_staged), fit(staged.verdict as u8, staged.count, 0), ticket, stack)?;
    println!("stack: {count} entries on a path of up to {path}: {most:?} bytes by {:?}, {staged} by stages", ENGINES.map(|(name, _)| name));
    Ok([most[0], most[1], staged])
}

/// A ticket fitted by an engine, in a thread and on a painted stack of so many bytes: how many it uses there.
fn fitted((name, engine): (&str, fn(&mut Host) -> u64), expected: u64, ticket: &Ticket, stack: usize) -> Result<usize, Report> {
    let mut host = Host { table: reference::encode(ticket), ..Host::new() };
    let mut again = host.clone();
    let thread = std::thread::Builder::new().stack_size(stack).spawn(move || engine(&mut again)).expect("a thread");
    same_answer(expected, thread.join().expect("the thread ends"), || format!("by {name} in a thread of {stack} bytes"))?;
    used(name, expected, stack, MOST_TO_WALK, || engine(&mut host))
}

/// The same with as many open facts as there is room for, which runs the ticket twice unless it ends in none: a little more than a first run uses.
fn with_facts(ticket: &Ticket, outcome: &Outcome, first_run: [usize; 2], stack: usize) -> Result<(), Report> {
    let facts = open_facts(ticket);
    let longer = assume::with_facts(ticket, &facts);
    let told = assume::told(outcome, || walk(&Relevancy::new(&longer), u32::from_be_bytes(ticket.limit), &mut |_, _| {}));
    let mut host = Host { table: reference::encode(ticket), facts, ..Host::new() };
    for ((name, engine), first_run) in WITH_FACTS.into_iter().zip(first_run) {
        let used = used(name, said(told.said as u8), stack, first_run + MORE_WITH_FACTS, || engine(&mut host))?;
        same("counts with open facts", told.counts, host.counts)?;
        let more = used.saturating_sub(first_run);
        println!("stack: with {} open facts, {:?} entries, {name} uses {used} bytes, {more} more than a first run", host.facts.len(), told.counts);
    }
    Ok(())
}

/// The last atoms of the first predicate: each is entered late or not at all, so that the second run's path is hardly shorter.
fn open_facts(ticket: &Ticket) -> Vec<u32> {
    let room = (reference::MOST_CLAUSES - ticket.clauses.len()).min(assume::MOST_FACTS);
    let atoms = ticket.first_atom(1) as u32;
    (atoms - room as u32..atoms).collect()
}

/// The same by parts.
fn by_parts(ticket: &Ticket, first_run: [usize; 2], stack: usize) -> Result<(), Report> {
    let run = |_, part: &parts::Part| walk(&Relevancy::new(&part.ticket), u32::from_be_bytes(ticket.limit), &mut |_, _| {});
    let told = parts::told(ticket, &parts::parts(ticket), run);
    let mut host = Host { table: reference::encode(ticket), ..Host::new() };
    for ((name, engine), first_run) in BY_PARTS.into_iter().zip(first_run) {
        let used = used(name, said(told.verdict as u8), stack, first_run + MORE_BY_PARTS, || engine(&mut host))?;
        same("the sum of the parts' counts", told.count, host.count)?;
        let more = used.saturating_sub(first_run);
        println!("stack: by parts, of {} entries, {name} uses {used} bytes, {more} more than a first run", told.count);
    }
    Ok(())
}

/// A ticket that has so many entries, with a session, by each engine: how many bytes a first run of them all uses, and going on up to the last one.
fn brought_back(ticket: &Ticket, count: u32, stack: usize) -> Result<[[usize; 2]; 2], Report> {
    let engine = Remembering::new(Relevancy::new(ticket));
    let whole = begun(&engine, u32::from_be_bytes(ticket.limit));
    same("entries", count, whole.outcome.count)?;
    let mut host = Host { table: reference::encode(ticket), ..Host::new() };
    let mut most = [[0; 2]; 2];
    for (i, (name, begin, resume)) in WITH_SESSION.into_iter().enumerate() {
        most[i][0] = deep_call(name, &whole, &mut host, (stack, MOST_TO_WALK), begin)?;
        print!("stack: with a session, {count} entries by {name}: a first run uses {} bytes", most[i][0]);
        for from in on_the_way(&engine, count) {
            let further = count - from.count;
            let told = resumed(&engine, &from, further).map_err(|refusal| format!("a session is refused by {refusal}"))?;
            let used = deep_call(name, &told, &mut host, (stack, MOST_TO_GO_ON), |host| {
                host.session = from;
                resume(host, further)
            })?;
            most[i][1] = most[i][1].max(used);
            print!(", going on from a path of {} {used}", from.length);
        }
        println!();
    }
    Ok(most)
}

/// A session at the root, where no entry is made yet, one at the end of the longest path but for an entry, and one of other origin at its end.
fn on_the_way(engine: &Remembering<Relevancy>, count: u32) -> Vec<Session> {
    let mut sessions = vec![begun(engine, 0).session];
    if count > 0 {
        let last = begun(engine, count - 1).session;
        sessions.extend([last, one_longer(engine, &last)]);
    }
    sessions
}

/// The session with its next alternative on the path.
fn one_longer(engine: &Remembering<Relevancy>, session: &Session) -> Session {
    let (length, nodes) = (session.length as usize, session::standing(engine, session).expect("it stands"));
    let next = nodes[length].next;
    let deepest = session.deepest.max(session.length as u32 + 1);
    let mut longer = Session { count: session.count + 1, length: session.length + 1, next: 0, deepest, ..*session };
    (longer.atoms[length], longer.nexts[length]) = (nodes[length].alternatives[next] as u16, next as u8 + 1);
    longer
}

/// A call that must say and leave this, in a thread and on a painted stack of so many bytes: how many it uses there, which may be so many at most.
fn deep_call(name: &str, told: &Told, host: &mut Host, (stack, most): (usize, usize), call: impl Fn(&mut Host) -> u64 + Copy + Send + Sync) -> Result<usize, Report> {
    let expected = fit(told.outcome.verdict as u8, told.outcome.count, told.outcome.deepest);
    let thread = std::thread::Builder::new().stack_size(stack);
    let answer = std::thread::scope(|scope| {
        let mut again = host.clone();
        thread.spawn_scoped(scope, move || call(&mut again)).expect("a thread").join().expect("the thread ends")
    });
    same_answer(expected, answer, || format!("by {name} in a thread of {stack} bytes"))?;
    let used = used(name, expected, stack, most, || call(host))?;
    same("what is left of a session", session::bytes(&told.session), session::bytes(&host.session))?;
    Ok(used)
}

/// The bytes that a call uses, whose answer must be this one.
fn used(name: &str, expected: u64, stack: usize, most: usize, call: impl FnOnce() -> u64 + Send) -> Result<usize, Report> {
    let (answer, used) = painted::run(stack, call);
    same_answer(expected, answer, || format!("by {name} on a painted stack of {stack} bytes"))?;
    if used > most {
        return Err(format!("{name} uses {used} bytes of stack, more than {most}"));
    }
    Ok(used)
}
