//! The proved operations, with their answers taken apart. What the tool says of a ticket comes from here.
#[path = "../tests/library.rs"]
mod calls;
#[path = "../tests/painted.rs"]
mod painted;

use crate::ending::Failure;
use crate::spell::hex;
pub use calls::Session;
pub use painted::Stack;

// What the buffers must hold, as include/lutsamik.h has it.
const TABLE: usize = 4096;
const RULES: usize = 16384;
const ANSWER: usize = 1024;
const WORK: usize = 65536;
const TEXT_OUT: usize = 7168;
const SLIP: usize = 37;

/// The bytes that the staged engine is lent.
pub const LENT_TO_STAGED: usize = TABLE + ANSWER + WORK;

const BAD_ANSWER: u8 = 32;
const NO_INSTANCE: u8 = 44;
/// with the open facts the ticket has more than 64 clauses
pub const BAD_COUNT: u8 = 5;
/// more than 16 facts are open, or one of them twice
pub const BAD_FACTS: u8 = 45;
/// count and further limit together are more than a count can be
pub const TOO_MANY_ENTRIES: u8 = 41;
/// what is held is no session of the ticket's walk
pub const NO_SESSION: u8 = 42;

/// A ticket that the library accepted, as it keeps it.
#[derive(Clone, PartialEq, Eq)]
pub struct Table(Vec<u8>);

/// A rule that was offered to a ticket, as the library keeps it.
pub struct Slip(Vec<u8>);

/// A reading refused by 1 to 10, at a line that counts from 1.
#[derive(Clone, Copy, Debug, PartialEq, Eq)]
pub struct Refusal {
    pub number: u8,
    pub line: usize,
}

#[derive(Clone, Copy, Debug, PartialEq, Eq)]
pub enum Engine {
    Relevancy,
    Magic,
}

/// By the number that document 01 has for it.
#[derive(Clone, Copy, Debug, PartialEq, Eq)]
pub enum Verdict {
    None = 0,
    Fits = 1,
    Spent = 2,
}

/// What an engine answers. With fits the answer has a byte for each atom, 1 for one in the fitting.
#[derive(Clone, Debug, PartialEq, Eq)]
pub struct Fit {
    pub verdict: Verdict,
    pub count: u32,
    /// how many entries the longest path had; the staged engine does not tell
    pub deepest: Option<u32>,
    pub answer: Vec<u8>,
}

/// What a call with a session answers, and where the walk stands then.
#[derive(Clone, Debug, PartialEq, Eq)]
pub struct Moved {
    pub fit: Fit,
    pub session: Session,
}

/// For which choices of the open facts to add there is no fitting, by the library's number.
#[derive(Clone, Copy, Debug, PartialEq, Eq)]
pub enum Said {
    NoneAlways = 0,
    NoneNever = 1,
    Spent = 2,
    NoneWithSome = 3,
}

/// What an engine answers of a ticket with open facts, and the counts of its runs: without them, and with all, which is 0 where that is not made.
#[derive(Clone, Copy, Debug, PartialEq, Eq)]
pub struct Assumed {
    pub said: Said,
    pub counts: [u32; 2],
}

/// What an engine answers of a ticket by parts: with the sum of their counts, and with fits a byte for each atom.
#[derive(Clone, Debug, PartialEq, Eq)]
pub struct Parted {
    pub verdict: Verdict,
    pub count: u64,
    pub answer: Vec<u8>,
}

#[derive(Clone, Copy, Debug, PartialEq, Eq)]
pub enum Judged {
    Fitting,
    /// by clause and the values of 80, 81, 82, 83
    Violated(usize, [u8; 4]),
    /// a byte of the answer is neither 0 nor 1
    BadAnswer,
}

/// How far an instance holds.
#[derive(Clone, Copy, Debug, PartialEq, Eq)]
pub enum Held {
    /// so many conditions from the left
    Conditions(usize),
    /// the ticket lacks the clause or a value
    Lacking,
    /// as with judging
    BadAnswer,
}

impl Engine {
    pub fn name(self) -> &'static str {
        match self {
            Engine::Relevancy => "relevancy",
            Engine::Magic => "magic",
        }
    }

    /// The bytes that it is lent, those of a session too.
    pub fn lent(self) -> usize {
        let by_both = calls::SESSION + LENT_TO_STAGED;
        match self {
            Engine::Relevancy => by_both,
            Engine::Magic => by_both + RULES,
        }
    }
}

impl Verdict {
    pub fn name(self) -> &'static str {
        match self {
            Verdict::None => "none",
            Verdict::Fits => "fits",
            Verdict::Spent => "spent",
        }
    }
}

impl Said {
    pub fn name(self) -> &'static str {
        match self {
            Said::NoneAlways => "none always",
            Said::NoneNever => "none never",
            Said::Spent => "spent",
            Said::NoneWithSome => "none with some",
        }
    }
}

impl Assumed {
    /// The answer in few words, for a message.
    pub fn told(&self) -> String {
        format!("{} after {} and {} entries", self.said.name(), self.counts[0], self.counts[1])
    }
}

impl Parted {
    /// The answer in few words, for a message.
    pub fn told(&self) -> String {
        let fitting = if self.verdict == Verdict::Fits { format!(" with {}", hex(&self.answer)) } else { String::new() };
        format!("{} after {} entries{fitting}", self.verdict.name(), self.count)
    }
}

impl Fit {
    /// The answer in few words, for a message.
    pub fn told(&self) -> String {
        let fitting = if self.verdict == Verdict::Fits { format!(" with {}", hex(&self.answer)) } else { String::new() };
        let paths = self.deepest.map_or(String::new(), |deepest| format!(" on paths of up to {deepest}"));
        format!("{} after {} entries{paths}{fitting}", self.verdict.name(), self.count)
    }
}

impl Moved {
    /// The numbers of the atoms that were entered on the way to where the walk stands.
    pub fn entered(&self) -> impl Iterator<Item = usize> + '_ {
        self.session.atoms.iter().take(self.session.length as usize).map(|atom| *atom as usize)
    }

    /// The answer and the session in few words, for a message.
    pub fn told(&self) -> String {
        let Session { length, next, atoms, nexts, .. } = &self.session;
        let mut slots = atoms.iter().zip(nexts);
        let path: Vec<String> = slots.by_ref().take(*length as usize).map(|(atom, next)| format!("{atom} {next}")).collect();
        let past = if slots.all(|slot| slot == (&0, &0)) { "" } else { ", with more past the path" };
        format!("{} at [{}] {next}{past}", self.fit.told(), path.join(", "))
    }
}

pub fn read(text: &[u8]) -> Result<Table, Refusal> {
    let mut table = vec![0; TABLE];
    let answer = calls::read(text, &mut table);
    match refusal(answer) {
        0 => Ok(Table(table)),
        number => Err(Refusal { number, line: high(answer) as usize }),
    }
}

pub fn write(table: &Table) -> Result<Vec<u8>, Failure> {
    let mut out = vec![0; TEXT_OUT];
    let answer = accepted("lutsamik_write", calls::write(&table.0, &mut out))?;
    out.truncate(high(answer) as usize);
    Ok(out)
}

/// Offers the bytes of a clause line: a slip, or the number by which reading would refuse the line.
pub fn offer(table: &Table, frame: &[u8]) -> Result<Result<Slip, u8>, Failure> {
    let mut slip = vec![0; SLIP];
    let answer = calls::offer(&table.0, frame, &mut slip);
    match refusal(answer) {
        number @ (2 | 3 | 5..=8 | 10) => Ok(Err(number)),
        _ => accepted("lutsamik_offer", answer).map(|_| Ok(Slip(slip))),
    }
}

/// The ticket with the rule of a slip, which was offered to it.
pub fn set(table: &Table, slip: &Slip) -> Result<Table, Failure> {
    let mut longer = table.0.clone();
    match refusal(calls::set(&mut longer, &slip.0)) {
        0 => Ok(Table(longer)),
        number => Err(Failure::disagreement(format!("lutsamik_set refuses a rule that was just offered, with {number}"))),
    }
}

/// The number of magic rules.
pub fn rewrite(table: &Table) -> Result<u32, Failure> {
    accepted("lutsamik_rewrite", calls::rewrite(&table.0, &mut vec![0; RULES])).map(high)
}

/// Judges an answer of a byte for each atom.
pub fn judge(table: &Table, answer: &[u8]) -> Result<Judged, Failure> {
    let judged = calls::judge(&table.0, &whole(answer));
    if refusal(judged) == BAD_ANSWER {
        return Ok(Judged::BadAnswer);
    }
    let [_, word, _, clause, values @ ..] = accepted("lutsamik_judge", judged)?.to_le_bytes();
    match word {
        1 => Ok(Judged::Fitting),
        2 => Ok(Judged::Violated(clause as usize, values)),
        _ => Err(senseless("lutsamik_judge", judged)),
    }
}

/// How many conditions of an instance hold from the left, in an answer of a byte for each atom. It is named by its clause and the values of
/// the clause's variables, at most four of them.
pub fn holding(table: &Table, answer: &[u8], clause: u32, values: &[u8]) -> Result<Held, Failure> {
    let mut four = [0; 4];
    four.iter_mut().zip(values).for_each(|(place, value)| *place = *value as u32);
    let held = calls::holding(&table.0, &whole(answer), clause, four);
    match refusal(held) {
        NO_INSTANCE => Ok(Held::Lacking),
        BAD_ANSWER => Ok(Held::BadAnswer),
        _ => accepted("lutsamik_holding", held).map(|held| Held::Conditions(high(held) as usize)),
    }
}

/// An answer as long as it must be.
fn whole(answer: &[u8]) -> Vec<u8> {
    let mut lent = answer.to_vec();
    lent.resize(ANSWER, 0);
    lent
}

/// What is lent to an engine beside the table.
struct Lent {
    rules: Vec<u8>,
    answer: Vec<u8>,
    work: Vec<u8>,
}

impl Lent {
    fn new() -> Lent {
        Lent { rules: vec![0; RULES], answer: vec![0; ANSWER], work: vec![0; WORK] }
    }
}

/// Fits a ticket with this number of atoms.
pub fn fit(engine: Engine, table: &Table, atoms: usize) -> Result<Fit, Failure> {
    let mut lent = Lent::new();
    let Lent { rules, answer, work } = &mut lent;
    let (name, given) = match engine {
        Engine::Relevancy => ("lutsamik_fit_relevancy", calls::fit_relevancy(&table.0, answer, work)),
        Engine::Magic => ("lutsamik_fit_magic", calls::fit_magic(&table.0, rules, answer, work)),
    };
    answered(name, accepted(name, given)?, lent.answer, atoms)
}

/// Fits a ticket with this number of atoms by the staged engine, on this stack. It leaves no session and tells no deepest path.
pub fn fit_staged(stack: &mut Stack, table: &Table, atoms: usize) -> Result<Fit, Failure> {
    let (name, mut lent) = ("lutsamik_fit_staged", Lent::new());
    let Lent { answer, work, .. } = &mut lent;
    let given = accepted(name, stack.run(|| calls::fit_staged(&table.0, answer, work)))?;
    let fit = answered(name, given, lent.answer, atoms)?;
    if fit.deepest == Some(0) { Ok(Fit { deepest: None, ..fit }) } else { Err(senseless(name, given)) }
}

/// A first run on a ticket with this number of atoms, which leaves a session. The engine runs on this stack, and on nothing else.
pub fn begin(engine: Engine, stack: &mut Stack, table: &Table, atoms: usize) -> Result<Moved, Failure> {
    let (mut session, mut lent) = (Session::EMPTY, Lent::new());
    let Lent { rules, answer, work } = &mut lent;
    let (name, given) = match engine {
        Engine::Relevancy => ("lutsamik_begin_relevancy", stack.run(|| calls::begin_relevancy(&mut session, &table.0, answer, work))),
        Engine::Magic => ("lutsamik_begin_magic", stack.run(|| calls::begin_magic(&mut session, &table.0, rules, answer, work))),
    };
    moved(name, answered(name, accepted(name, given)?, lent.answer, atoms)?, session)
}

/// Going on from a session with a further limit, or the number by which that is refused; on this stack.
pub fn resume(engine: Engine, stack: &mut Stack, from: &Session, further: u32, table: &Table, atoms: usize) -> Result<Result<Moved, u8>, Failure> {
    let (mut session, mut lent) = (*from, Lent::new());
    let Lent { rules, answer, work } = &mut lent;
    let (name, given) = match engine {
        Engine::Relevancy => ("lutsamik_resume_relevancy", stack.run(|| calls::resume_relevancy(&mut session, further, &table.0, answer, work))),
        Engine::Magic => ("lutsamik_resume_magic", stack.run(|| calls::resume_magic(&mut session, further, &table.0, rules, answer, work))),
    };
    match refusal(given) {
        number @ (TOO_MANY_ENTRIES | NO_SESSION) => Ok(Err(number)),
        _ => moved(name, answered(name, accepted(name, given)?, lent.answer, atoms)?, session).map(Ok),
    }
}

/// What an engine says of a ticket with these open facts, or the number by which they are refused.
pub fn assume(engine: Engine, table: &Table, facts: &[u32]) -> Result<Result<Assumed, u8>, Failure> {
    let (mut first, mut second, mut lent) = (0, 0, Lent::new());
    let (counts, Lent { rules, answer, work }) = ([&mut first, &mut second], &mut lent);
    let (name, given) = match engine {
        Engine::Relevancy => ("lutsamik_assume_relevancy", calls::assume_relevancy(&table.0, facts, counts, answer, work)),
        Engine::Magic => ("lutsamik_assume_magic", calls::assume_magic(&table.0, facts, counts, rules, answer, work)),
    };
    if let number @ (BAD_COUNT | BAD_FACTS) = refusal(given) {
        return Ok(Err(number));
    }
    let number = accepted(name, given)? >> 8;
    let said = [Said::NoneAlways, Said::NoneNever, Said::Spent, Said::NoneWithSome].into_iter().find(|said| *said as u64 == number);
    Ok(Ok(Assumed { said: said.ok_or_else(|| senseless(name, given))?, counts: [first, second] }))
}

/// Fits a ticket with this number of atoms by parts.
pub fn fit_parts(engine: Engine, table: &Table, atoms: usize) -> Result<Parted, Failure> {
    let (mut count, mut lent) = (0, Lent::new());
    let Lent { rules, answer, work } = &mut lent;
    let (name, given) = match engine {
        Engine::Relevancy => ("lutsamik_parts_relevancy", calls::parts_relevancy(&table.0, &mut count, answer, work)),
        Engine::Magic => ("lutsamik_parts_magic", calls::parts_magic(&table.0, &mut count, rules, answer, work)),
    };
    let Fit { verdict, answer, .. } = answered(name, accepted(name, given)?, lent.answer, atoms)?;
    if given >> 16 == 0 { Ok(Parted { verdict, count, answer }) } else { Err(senseless(name, given)) }
}

/// What an engine says that did not refuse.
fn answered(name: &str, given: u64, mut answer: Vec<u8>, atoms: usize) -> Result<Fit, Failure> {
    let number = given.to_le_bytes()[1];
    let verdict = [Verdict::None, Verdict::Fits, Verdict::Spent].into_iter().find(|verdict| *verdict as u8 == number);
    answer.truncate(atoms);
    Ok(Fit { verdict: verdict.ok_or_else(|| senseless(name, given))?, count: high(given), deepest: Some(given as u32 >> 16), answer })
}

/// The session that is left must have the verdict, the count and the deepest figure that are answered.
fn moved(name: &str, fit: Fit, session: Session) -> Result<Moved, Failure> {
    if (session.verdict, session.count, Some(session.deepest)) == (fit.verdict as u8, fit.count, fit.deepest) {
        return Ok(Moved { fit, session });
    }
    let left = format!("a session of verdict {} and {} entries on paths of up to {}", session.verdict, session.count, session.deepest);
    Err(Failure::disagreement(format!("{name} says {}, and leaves {left}", fit.told())))
}

/// The answer of an operation that refuses no table that was read.
fn accepted(operation: &str, answer: u64) -> Result<u64, Failure> {
    match refusal(answer) {
        0 => Ok(answer),
        number => Err(Failure::disagreement(format!("{operation} refuses a table that was just read, with {number}"))),
    }
}

fn senseless(operation: &str, answer: u64) -> Failure {
    Failure::disagreement(format!("{operation} answers {answer:016X}, which means nothing"))
}

fn refusal(answer: u64) -> u8 {
    answer.to_le_bytes()[0]
}

fn high(answer: u64) -> u32 {
    (answer >> 32) as u32
}
