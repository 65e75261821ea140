//! Tickets brought back, by the library and by what `session.rs` has of document 02: first runs and lists of further limits, the engines mixed at
//! random, with refused calls in between, so that sums come to just below, at and above the whole count; finished sessions called again; sessions with
//! each field changed, made up, or of another ticket; 41 at its edge, and which refusal comes first. The answer and every byte, of the session, in each
//! buffer and around them, must agree; and a list of calls must leave what one run under the sum does. Usage: resuming [NUMBER OF CALLS]. The same
//! calls in every run.
mod arbitrary;
mod assume;
mod large;
mod library;
mod logic;
mod magic;
mod mangle;
mod memory;
mod met;
mod mix;
mod operations;
mod oracle;
mod parts;
mod random;
mod reference;
mod report;
#[allow(dead_code)] // rules are compared by their bytes, and not read back
mod rules;
mod session;
mod sizes;
mod slip;
mod stages;
mod tamper;
mod threads;
mod tickets;
mod walk;
mod worked;

use large::FAMILIES;
use library::{Session, SESSION};
use magic::{rewritten, Magic};
use memory::{less_than, Memory};
use met::Required;
use operations::{Buffer, Lent, Operation, BUFFERS};
use random::Random;
use reference::{Ticket, NO_SESSION, NO_TABLE, SHORT_BUFFER, TABLE, TOO_MANY_ENTRIES};
use report::{same, Report};
use session::{begun, bytes, of_bytes, Node, ROOM};
use std::cmp::Ordering;
use tamper::{changed, further, CHANGES, FIELDS};
use threads::Run;
use walk::{Engine, Found, Relevancy, Remembering, Verdict, Whole};

const CALLS: u64 = 120_000;

/// Walks of small tickets are cut after this many entries, and so are those that begin where nobody has been.
const LONG: u32 = 60;
const SHORT: u32 = 12;

/// The first is the relevancy engine's.
const BEGIN: [Operation; 2] = [Operation::BeginRelevancy, Operation::BeginMagic];
const RESUME: [Operation; 2] = [Operation::ResumeRelevancy, Operation::ResumeMagic];

fn main() {
    threads::run("resuming", CALLS, 811, run);
}

fn run(run: &mut Run<Met>, calls: u64) -> Result<(), Report> {
    for worked in worked::worked().into_iter().chain(worked::named_again()) {
        run.ticket(reference::read(worked.text.as_bytes()).expect("a worked ticket"), LONG)?;
    }
    match run.number {
        0 => run.longest_path()?,
        _ => run.large()?,
    }
    while run.tally.calls < calls {
        let ticket = if run.random.once_in(3) { tickets::crowded(&mut run.random) } else { tickets::to_walk(&mut run.random) };
        run.ticket(ticket, LONG)?;
    }
    Ok(())
}

/// A ticket, its two walks, the whole of them up to a cut, and what is lent for it.
struct Case {
    ticket: Ticket,
    whole: Whole,
    relevancy: Remembering<Relevancy>,
    magic: Remembering<Magic>,
    lent: Lent,
}

impl Case {
    fn new(random: &mut Random, ticket: Ticket, cut: u32) -> Case {
        let table = reference::encode(&ticket);
        assert!(reference::ticket_in(&table).as_ref() == Some(&ticket), "the ticket is refused");
        let relevancy = Remembering::new(Relevancy::new(&ticket));
        let magic = Remembering::new(Magic::new(&rewritten(&ticket), &ticket));
        let buffers = BUFFERS.map(|buffer| {
            let more = random.pick(&[0, 0, 1, 57]);
            let len = match buffer {
                Buffer::Table | Buffer::Rules | Buffer::Answer | Buffer::Work => buffer.required() + more,
                Buffer::Session => SESSION,
                _ => 0,
            };
            Memory::random(random, len)
        });
        let whole = Whole::new(&relevancy, cut, &mut |_, _| {});
        let mut case = Case { ticket, whole, relevancy, magic, lent: Lent { buffers, clause: 0, values: [0; 4], further: 0 } };
        case.lent[Buffer::Table] = case.lent[Buffer::Table].beginning_with(&table);
        case
    }

    fn atoms(&self) -> u32 {
        self.ticket.atoms() as u32
    }

    /// The same ticket with another limit.
    fn limit(&mut self, limit: u32) {
        self.ticket.limit = limit.to_be_bytes();
        self.lent[Buffer::Table].lent_mut()[4..8].copy_from_slice(&limit.to_be_bytes());
    }

    fn engine(&self, operation: Operation) -> &dyn Engine {
        if operation.buffers().contains(&Buffer::Rules) { &self.magic } else { &self.relevancy }
    }

    fn lend(&self, session: &Session, further: u32) -> Lent {
        let mut lent = self.lent.clone();
        lent[Buffer::Session] = lent[Buffer::Session].beginning_with(&bytes(session));
        lent.further = further;
        lent
    }
}

/// A session after a list of calls, and the sum of their limits.
struct Kept {
    session: Session,
    sum: u64,
}

impl Run<Met> {
    /// All that is tried with a ticket, whose walk is cut here.
    fn ticket(&mut self, ticket: Ticket, cut: u32) -> Result<(), Report> {
        let mut case = Case::new(&mut self.random, ticket, cut);
        let mut met = self.list(&mut case, cut)?;
        met.extend(self.list(&mut case, cut)?);
        self.figures(&case, &met)?;
        for _ in 0..4 {
            let session = self.made_up(&case);
            self.go_on_anyhow(&case, &session, "made up")?;
            met.push(session);
        }
        self.tampered(&case, &met)?;
        self.other_tickets(&case, &met)?;
        self.in_order(&case, &met)?;
        self.tally.own.sessions = met;
        Ok(())
    }

    // ---- Lists of calls ----

    /// A first run and further limits up to a sum near the whole count, or any below it; then some more. All sessions on the way.
    fn list(&mut self, case: &mut Case, cut: u32) -> Result<Vec<Session>, Report> {
        let count = case.whole.outcome.count;
        let any = self.random.below(count as usize + 1) as u32;
        let aim = self.random.pick(&[count.saturating_sub(1), count, count + 1, any]).min(cut);
        let first = self.random.below(aim as usize + 1) as u32;
        case.limit(self.random.pick(&[0, first, first, aim]));
        let mut kept = self.begin(case)?;
        let mut met = vec![kept.session];
        while kept.sum < aim as u64 {
            let left = aim - kept.sum as u32;
            let part = self.random.below(left as usize + 1) as u32;
            let further = self.random.pick(&[0, 1, part, part, left]);
            kept = self.go_on(case, kept, further)?;
            met.push(kept.session);
        }
        self.tally.note(SUMS, format!("{} the count", how(kept.sum, count)));
        for _ in 0..3 {
            kept = self.go_on_at_end(case, kept, cut)?;
            met.push(kept.session);
        }
        met.dedup();
        Ok(met)
    }

    /// A first run by either engine, over a session that holds anything.
    fn begin(&mut self, case: &Case) -> Result<Kept, Report> {
        let held = of_bytes(&arbitrary::bytes(&mut self.random, SESSION));
        let held = if self.random.once_in(2) { held } else { self.tally.own.sessions.last().copied().unwrap_or(held) };
        self.tally.own.moved = self.random.below(2);
        let said = self.call(case, BEGIN[self.tally.own.moved], &held, 0)?;
        let session = said.map_err(|refusal| format!("a first run is refused by {refusal}"))?;
        Ok(Kept { session, sum: u32::from_be_bytes(case.ticket.limit) as u64 })
    }

    /// One more call that is not refused: it must leave what a first run under the sum leaves.
    fn go_on(&mut self, case: &Case, kept: Kept, further: u32) -> Result<Kept, Report> {
        if self.random.once_in(6) {
            self.refused_between(case, &kept.session, further)?;
        }
        let which = self.random.below(2);
        let session = self.call(case, RESUME[which], &kept.session, further)?.map_err(|refusal| format!("an own session is refused by {refusal}"))?;
        let sum = kept.sum + further as u64;
        let limit = sum.min(u32::MAX as u64) as u32;
        let whole = begun(&case.relevancy, limit);
        same("the two walks of the tests", &case.whole.under(limit), &whole.outcome)?;
        same("the session of the whole walk under the sum", dumped(&whole.session), dumped(&session))?;
        same("the figure of the whole walk under the sum", case.whole.under(limit).deepest, session.deepest)?;
        self.tally.note(LISTED, figure(kept.session.deepest, &session));
        let moved = std::mem::replace(&mut self.tally.own.moved, which);
        self.tally.note(MIXED, format!("{} after {}", ENGINES[which], ENGINES[moved]));
        self.tally.note(if further == 0 { WITH_0 } else { WENT_ON }, format!("{} to {}", verdict(&kept.session), verdict(&session)));
        if kept.session.verdict != Verdict::Spent as u8 {
            same("a finished session", dumped(&kept.session), dumped(&session))?;
        }
        Ok(Kept { session, sum })
    }

    /// After a list: one entry, none, or all that the count allows where the walk is known to end.
    fn go_on_at_end(&mut self, case: &Case, kept: Kept, cut: u32) -> Result<Kept, Report> {
        let left = u32::MAX - kept.session.count;
        if left < u32::MAX {
            let said = self.call(case, RESUME[self.tally.own.moved], &kept.session, left + 1)?;
            same("one more than there can be", Err(TOO_MANY_ENTRIES), said.map(drop))?;
            self.tally.note(PAST_EDGE, verdict(&kept.session));
        }
        if case.whole.outcome.verdict != Verdict::Spent && self.random.once_in(2) {
            self.tally.note(AT_EDGE, verdict(&kept.session));
            return self.go_on(case, kept, left);
        }
        let most = (cut as u64).saturating_sub(kept.sum).min(2) as usize;
        let further = self.random.below(most + 1) as u32;
        self.go_on(case, kept, further)
    }

    /// A call that is refused by 11 or 31, whatever the session.
    fn refused_between(&mut self, case: &Case, session: &Session, further: u32) -> Result<(), Report> {
        let operation = self.random.pick(&RESUME);
        let mut lent = case.lend(session, further);
        if self.random.once_in(2) {
            shorten(&mut self.random, operation, &mut lent);
            return self.refused(operation, &lent, SHORT_BUFFER);
        }
        if damage(&mut self.random, &mut lent) { self.refused(operation, &lent, NO_TABLE) } else { Ok(()) }
    }

    // ---- Sessions of other origin ----

    /// A session that stands on the walk, with any alternatives entered, any count and any figure.
    fn made_up(&mut self, case: &Case) -> Session {
        let session = self.standing(case);
        let most = self.random.within(session.length as usize, case.atoms() as usize) as u32;
        Session { deepest: self.random.pick(&[session.length as u32, most, case.atoms()]), ..session }
    }

    fn standing(&mut self, case: &Case) -> Session {
        let random = &mut self.random;
        let count = random.pick(&[0, 1, 7, 0xFFFF, u32::MAX - 3, u32::MAX]);
        let mut session = Session { count, verdict: Verdict::Spent as u8, ..Session::EMPTY };
        let mut entered = Vec::new();
        loop {
            let node = Node::new(case.relevancy.place(&entered));
            if node.alternatives.is_empty() || random.once_in(4) || entered.len() == ROOM {
                session.length = entered.len() as u16;
                session.next = random.below(node.alternatives.len() + 1) as u8;
                let finished = if node.place.found == Found::Open { Verdict::Fits } else { Verdict::None };
                if random.once_in(2) {
                    session.verdict = finished as u8;
                }
                return session;
            }
            let which = random.below(node.alternatives.len());
            session.atoms[entered.len()] = node.alternatives[which] as u16;
            session.nexts[entered.len()] = which as u8 + 1;
            entered.push(node.alternatives[which]);
        }
    }

    /// By both engines, with any further limit.
    fn go_on_anyhow(&mut self, case: &Case, session: &Session, kind: &str) -> Result<(), Report> {
        let further = further(&mut self.random, &bytes(session), SHORT);
        let said = self.call(case, RESUME[0], session, further)?;
        same("what the magic engine leaves", said.map(|left| dumped(&left)), self.call(case, RESUME[1], session, further)?.map(|left| dumped(&left)))?;
        self.tally.note(OTHER_ORIGIN, format!("{kind}: {}", told(said)));
        Ok(())
    }

    /// A session with figures at and around the path's length and A: it is refused by 42 where it is below the one or above the other, also
    /// where its low bytes are not; else it counts as a path beside those that the call enters. What these are is told by the call with the least one.
    fn figures(&mut self, case: &Case, met: &[Session]) -> Result<(), Report> {
        let session = self.random.pick(met);
        let (length, atoms) = (session.length as u32, case.atoms());
        let further = self.random.pick(&[0, 1, 3, SHORT]).min(u32::MAX - session.count);
        let least = Session { deepest: length, ..session };
        let own = self.call(case, RESUME[0], &least, further)?.map_err(|refusal| format!("a figure at the length is refused by {refusal}"))?;
        let past = [length.wrapping_sub(1), atoms + 1, length | 0x10000, atoms | 0x8000_0000, u32::MAX];
        for deepest in [length, length + 1, own.deepest - (own.deepest > length) as u32, own.deepest + 1, atoms.wrapping_sub(1), atoms].into_iter().chain(past) {
            let is_within = length <= deepest && deepest <= atoms;
            let expected = Session { deepest: deepest.max(own.deepest), ..own };
            let expected = if is_within { Ok(dumped(&expected)) } else { Err(NO_SESSION) };
            let operation = self.random.pick(&RESUME);
            let said = self.call(case, operation, &Session { deepest, ..session }, further)?;
            same(&format!("what is left of a figure of {deepest}"), expected, said.map(|left| dumped(&left)))?;
            self.tally.note(FIGURES, brought(deepest, length, atoms, said));
        }
        Ok(())
    }

    /// Each of some sessions with each change.
    fn tampered(&mut self, case: &Case, met: &[Session]) -> Result<(), Report> {
        for change in CHANGES {
            let session = &met[self.random.below(met.len())];
            let other = changed(&mut self.random, session, change, case.atoms());
            let further = further(&mut self.random, &bytes(&other), SHORT);
            let operation = self.random.pick(&RESUME);
            let said = self.call(case, operation, &other, further)?;
            if other != *session {
                self.tally.note(TAMPERED, format!("{change:?} {}", told(said)));
            }
        }
        Ok(())
    }

    /// Sessions of an earlier ticket; and this one's with the ticket changed, often only in its limit.
    fn other_tickets(&mut self, case: &Case, met: &[Session]) -> Result<(), Report> {
        let earlier = self.tally.own.sessions.clone();
        for session in earlier.iter().take(2) {
            self.go_on_anyhow(case, session, "earlier ticket")?;
        }
        let mut ticket = case.ticket.clone();
        match self.random.below(6) {
            0 => drop(ticket.clauses.pop()),
            1 => tickets::spoil(&mut self.random, &mut ticket),
            2 => self.random.fill(&mut ticket.limit),
            _ => return Ok(()),
        }
        if reference::ticket_in(&reference::encode(&ticket)).as_ref() == Some(&ticket) {
            let other = Case::new(&mut self.random, ticket, 0);
            for session in met.iter().rev().take(2) {
                self.go_on_anyhow(&other, session, "ticket changed")?;
            }
        }
        Ok(())
    }

    // ---- Refusals ----

    /// Which of two refusals comes first: 11, 31, 41, 42.
    fn in_order(&mut self, case: &Case, met: &[Session]) -> Result<(), Report> {
        let standing = Session { count: self.random.within(1, u32::MAX as usize) as u32, ..met[0] };
        let by_verdict = Session { verdict: 3 + self.random.below(253) as u8, ..standing };
        let nowhere = self.random.pick(&[by_verdict, Session { deepest: case.atoms() + 1, ..standing }]);
        let past = u32::MAX - self.random.below(nowhere.count as usize) as u32;
        for operation in RESUME {
            let mut lent = case.lend(&nowhere, u32::MAX - nowhere.count);
            self.refused(operation, &lent, NO_SESSION)?;
            lent.further = past;
            self.refused(operation, &lent, TOO_MANY_ENTRIES)?;
        }
        for operation in [self.random.pick(&RESUME), self.random.pick(&BEGIN)] {
            let mut lent = case.lend(&nowhere, past);
            if damage(&mut self.random, &mut lent) {
                self.refused(operation, &lent, NO_TABLE)?;
            }
            shorten(&mut self.random, operation, &mut lent);
            self.refused(operation, &lent, SHORT_BUFFER)?;
        }
        Ok(())
    }

    fn refused(&mut self, operation: Operation, lent: &Lent, number: u8) -> Result<(), Report> {
        let (answer, left) = oracle::expected(operation, lent);
        same("refusal", number as u64, answer)?;
        self.tally.call(operation, Err(number));
        lent.agrees(operation, answer, &left)
    }

    /// One call by the library, which must answer and leave what document 02 has: the session afterwards, or the refusal.
    fn call(&mut self, case: &Case, operation: Operation, session: &Session, further: u32) -> Result<Result<Session, u8>, Report> {
        let lent = case.lend(session, further);
        let mut left = lent.clone();
        let answer = oracle::with_session(operation, case.engine(operation), &case.ticket, &mut left);
        lent.agrees(operation, answer, &left)?;
        let said = match answer as u8 {
            0 => Ok(of_bytes(left[Buffer::Session].lent())),
            refusal => Err(refusal),
        };
        self.tally.call(operation, said);
        Ok(said)
    }

    // ---- Large tickets ----

    /// One of each family of large ones.
    fn large(&mut self) -> Result<(), Report> {
        for family in &FAMILIES {
            let ticket = (family.draw)(&mut self.random);
            self.ticket(ticket, family.cut.min(400))?;
        }
        Ok(())
    }

    /// A path of all 1,024 atoms: own sessions with up to 1,023 entries of it, and one of other origin that has them all.
    fn longest_path(&mut self) -> Result<(), Report> {
        let mut case = Case::new(&mut self.random, tickets::deep(32, 1, 1000), u32::MAX);
        let mut kept = self.begin(&case)?;
        for further in [22, 0, 1] {
            kept = self.go_on(&case, kept, further)?;
        }
        same("entries of the path", 1023, kept.session.length)?;
        let mut full = Session { length: 1024, ..kept.session };
        let entered: Vec<usize> = kept.session.atoms[..1023].iter().map(|atom| *atom as usize).collect();
        (full.atoms[1023], full.nexts[1023]) = (Node::new(case.relevancy.place(&entered)).alternatives[0] as u16, 1);
        same("a path that is longer than the figure", Err(NO_SESSION), self.call(&case, RESUME[1], &full, 0)?.map(drop))?;
        full.deepest = 1024;
        self.go_on_anyhow(&case, &full, "full path")?;
        for length in [1025, 1026, 1024 + 256, 2048, 0xFFFF] {
            let longer = Session { length, ..full };
            same("a path that there is no room for", Err(NO_SESSION), self.call(&case, RESUME[length as usize % 2], &longer, 0)?.map(drop))?;
        }
        for change in FIELDS {
            let other = changed(&mut self.random, &full, *change, 1024);
            self.go_on_anyhow(&case, &other, "full path")?;
        }
        kept = self.go_on(&case, kept, u32::MAX - 1023)?;
        same("the end of the path", (1024, 0, Verdict::None as u8), (kept.session.count, kept.session.length, kept.session.verdict))?;
        case.limit(0);
        self.go_on(&case, kept, 5).map(drop)
    }
}

/// Makes one of the operation's buffers too short, or several.
fn shorten(random: &mut Random, operation: Operation, lent: &mut Lent) {
    let buffers: Vec<Buffer> = operation.buffers().iter().copied().filter(|buffer| *buffer != Buffer::Session).collect();
    let sure = random.pick(&buffers);
    for buffer in buffers {
        if buffer == sure || random.once_in(4) {
            lent[buffer] = lent[buffer].truncated(less_than(random, buffer.required()));
        }
    }
}

/// Damages the table: whether it is no ticket's then.
fn damage(random: &mut Random, lent: &mut Lent) -> bool {
    let damaged = tickets::damaged(random, &lent[Buffer::Table].lent()[..TABLE]);
    lent[Buffer::Table] = lent[Buffer::Table].beginning_with(&damaged);
    reference::ticket_in(&damaged).is_none()
}

fn how(sum: u64, count: u32) -> &'static str {
    match sum.cmp(&(count as u64)) {
        Ordering::Less => "below",
        Ordering::Equal => "at",
        Ordering::Greater => "above",
    }
}

fn verdict(session: &Session) -> String {
    ["none", "fits", "spent"][session.verdict as usize].to_string()
}

fn told(said: Result<Session, u8>) -> String {
    said.map_or_else(|refusal| refusal.to_string(), |session| verdict(&session))
}

/// The fields, with the path alone.
fn dumped(session: &Session) -> String {
    let length = (session.length as usize).min(ROOM);
    let past = session.atoms[length..].iter().any(|atom| *atom != 0) || session.nexts[length..].iter().any(|next| *next != 0);
    let Session { count, length: entries, verdict, next, deepest, .. } = session;
    format!("{count} {entries} {verdict} {next} {:?} {:?} {past} {deepest}", &session.atoms[..length], &session.nexts[..length])
}

/// Where the figure of a session comes from that a list of calls has left.
fn figure(before: u32, session: &Session) -> String {
    let from = if session.deepest > before { "raised by the call" } else { "from an earlier call" };
    let path = if session.deepest > session.length as u32 { "above" } else { "at" };
    format!("{from}, {path} the path's length")
}

/// A figure that is brought, by its bounds, and what becomes of it.
fn brought(deepest: u32, length: u32, atoms: u32, said: Result<Session, u8>) -> String {
    let at = match deepest {
        _ if deepest < length => "below the length",
        _ if deepest > atoms && deepest & 0xFFFF <= atoms => "above A but for its low bytes",
        _ if deepest > atoms => "above A",
        _ if deepest == length => "at the length",
        _ if deepest == atoms => "at A",
        _ => "between",
    };
    let left = said.map_or_else(|refusal| refusal.to_string(), |left| if left.deepest > deepest { "passed" } else { "kept" }.to_string());
    format!("{at}, {left}")
}

/// Which engine moved the last session, and the sessions of the last ticket.
#[derive(Default)]
struct Brought {
    moved: usize,
    sessions: Vec<Session>,
}

type Met = met::Met<Brought>;

const ENGINES: [&str; 2] = ["relevancy", "magic"];
const FIRST: &str = "first runs";
const BY_RELEVANCY: &str = "going on by relevancy";
const BY_MAGIC: &str = "going on by magic";
const WENT_ON: &str = "lists, from";
const WITH_0: &str = "lists, with a further limit of 0 from";
const MIXED: &str = "lists, by engines";
const SUMS: &str = "lists, with a sum";
const AT_EDGE: &str = "lists, with count and further limit at FFFFFFFF";
const PAST_EDGE: &str = "lists, with one more than that";
const LISTED: &str = "lists, with a figure";
const PATHS: &str = "sessions left with a path of";
const DEEPEST: &str = "sessions left with a figure of";
const FIGURES: &str = "figures brought";
const OTHER_ORIGIN: &str = "sessions of other origin";
const TAMPERED: &str = "sessions changed in";

/// By the number of a path's entries.
fn class(length: u32) -> String {
    let names = ["0", "1 to 3", "4 to 9", "10 to 99", "100 to 999", "1,000 on"];
    names[[1, 4, 10, 100, 1000].iter().take_while(|least| length >= **least).count()].to_string()
}

/// What each run must meet.
const REQUIRED: [(&str, &[&str]); 15] = [
    (BY_RELEVANCY, &["11", "31", "41", "42", "none", "fits", "spent"]),
    (BY_MAGIC, &["11", "31", "41", "42", "none", "fits", "spent"]),
    (FIRST, &["11", "31", "none", "fits", "spent"]),
    (WENT_ON, &["none to none", "fits to fits", "spent to none", "spent to fits", "spent to spent"]),
    (WITH_0, &["none to none", "fits to fits", "spent to spent"]),
    (MIXED, &["relevancy after relevancy", "relevancy after magic", "magic after relevancy", "magic after magic"]),
    (SUMS, &["below the count", "at the count", "above the count"]),
    (AT_EDGE, &["none", "fits", "spent"]),
    (PAST_EDGE, &["none", "fits", "spent"]),
    (
        LISTED,
        &[
            "raised by the call, at the path's length",
            "raised by the call, above the path's length",
            "from an earlier call, at the path's length",
            "from an earlier call, above the path's length",
        ],
    ),
    (PATHS, &["0", "1 to 3", "4 to 9", "10 to 99", "100 to 999", "1,000 on"]),
    (DEEPEST, &["0", "1 to 3", "4 to 9", "10 to 99", "100 to 999", "1,000 on"]),
    (
        FIGURES,
        &[
            "below the length, 42",
            "at the length, kept",
            "at the length, passed",
            "between, kept",
            "between, passed",
            "at A, kept",
            "above A, 42",
            "above A but for its low bytes, 42",
        ],
    ),
    (
        OTHER_ORIGIN,
        &[
            "made up: 41",
            "made up: 42",
            "made up: none",
            "made up: fits",
            "made up: spent",
            "earlier ticket: 41",
            "earlier ticket: 42",
            "earlier ticket: none",
            "earlier ticket: fits",
            "earlier ticket: spent",
            "ticket changed: 41",
            "ticket changed: 42",
            "ticket changed: none",
            "ticket changed: fits",
            "ticket changed: spent",
            "full path: 42",
            "full path: none",
        ],
    ),
    (
        TAMPERED,
        &[
            "Count 41",
            "Count none",
            "Count fits",
            "Count spent",
            "Length 42",
            "Length none",
            "Length spent",
            "Verdict 42",
            "Verdict none",
            "Verdict fits",
            "Verdict spent",
            "Next 42",
            "Next none",
            "Next spent",
            "PathAtom 42",
            "PathNext 42",
            "AtomPast none",
            "AtomPast fits",
            "AtomPast spent",
            "NextPast none",
            "NextPast fits",
            "NextPast spent",
            "Deepest 42",
            "Deepest none",
            "Deepest fits",
            "Deepest spent",
            "Several 41",
            "Several 42",
            "All 42",
            "All none",
            "All fits",
            "All spent",
        ],
    ),
];

impl Required for Brought {
    fn required() -> Vec<(&'static str, String)> {
        REQUIRED.iter().flat_map(|(kind, names)| names.iter().map(|name| (*kind, name.to_string()))).collect()
    }
}

impl Met {
    fn call(&mut self, operation: Operation, said: Result<Session, u8>) {
        self.calls += 1;
        let kind = match operation {
            Operation::ResumeRelevancy => BY_RELEVANCY,
            Operation::ResumeMagic => BY_MAGIC,
            _ => FIRST,
        };
        self.note(kind, told(said));
        if let Ok(session) = said {
            self.note(PATHS, class(session.length as u32));
            self.note(DEEPEST, class(session.deepest));
        }
    }
}
