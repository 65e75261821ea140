//! Tickets with open facts, by the library's two engines and by what `assume.rs` has of document 02: on many small random tickets and on some of any size,
//! with limits around the counts of both runs, what is said, both counts and every byte of every buffer must agree; so must refusals, and which of two
//! comes first. Where there are few atoms and facts, what is said is held to all choices of the facts to add, by trying all sets of atoms. Tickets by
//! hand come first, one of them with a second run whose end nobody would wait for. Usage: assuming [NUMBER OF TICKETS]. The same calls in every run.
mod arbitrary;
mod assume;
mod library;
mod logic;
mod magic;
mod mangle;
mod memory;
mod met;
mod operations;
mod oracle;
mod parts;
mod random;
mod reference;
mod report;
#[allow(dead_code)] // rules are compared by their bytes, and not read back
mod rules;
mod session;
mod slip;
mod stages;
mod threads;
mod tickets;
mod unrelated;
mod walk;

use assume::{atom, refused, right, told, with_facts, Said, Told, Why, MOST_FACTS, WHYS};
use library::packed;
use magic::{rewritten, Magic};
use memory::{less_than, Memory};
use met::Required;
use operations::{Buffer, Lent, Operation, BUFFERS};
use random::Random;
use reference::{Atom, Clause, Ticket, ANSWER, BAD_COUNT, BAD_FACTS, MOST_CLAUSES, NO_TABLE, RULES, SHORT_BUFFER, WORK};
use report::{same, Report};
use std::sync::mpsc;
use std::thread;
use std::time::Duration;
use threads::Run;
use unrelated::Family;
use walk::{Relevancy, Verdict, Whole};

const TICKETS: u64 = 4_000;

/// Walks are cut after this many entries.
const LONG: u32 = 60;

/// All choices and all sets are tried where there are at most this many atoms and facts.
const FEW_ATOMS: u64 = 9;
const FEW_FACTS: usize = 6;

const ASSUME: [Operation; 2] = [Operation::AssumeRelevancy, Operation::AssumeMagic];

fn main() {
    threads::run("assuming", TICKETS, 911, run);
}

fn run(run: &mut Run<Met>, tickets: u64) -> Result<(), Report> {
    if run.number == 0 {
        run.by_hand()?;
    }
    while run.tally.own.tickets < tickets {
        run.step()?;
        run.tally.own.tickets += 1;
    }
    Ok(())
}

/// What a ticket and facts come to with no limit but a cut.
struct Case {
    ticket: Ticket,
    facts: Vec<u32>,
    alone: Whole,
    with_all: Whole,
}

impl Case {
    /// Both runs, by both walks, which must end alike.
    fn new(ticket: Ticket, facts: Vec<u32>, cut: u32) -> Result<Case, Report> {
        let both = |ticket: &Ticket| -> Result<Whole, Report> {
            let whole = Whole::new(&Relevancy::new(ticket), cut, &mut |_, _| {});
            let by_rules = Whole::new(&Magic::new(&rewritten(ticket), ticket), cut, &mut |_, _| {});
            same("outcome of the magic walk", &whole.outcome, &by_rules.outcome)?;
            Ok(whole)
        };
        let (alone, with_all) = (both(&ticket)?, both(&with_facts(&ticket, &facts))?);
        Ok(Case { ticket, facts, alone, with_all })
    }

    fn told(&self, limit: u32) -> Told {
        told(&self.alone.under(limit), || self.with_all.under(limit))
    }

    /// Limits at which a run's end turns, none of them past a cut.
    fn limits(&self, cut: u32) -> Vec<u32> {
        let (one, other) = (self.alone.outcome.count, self.with_all.outcome.count);
        let mut limits: Vec<u32> = [one, other].iter().flat_map(|count| [0, count.saturating_sub(1), *count, count + 1]).map(|limit| limit.min(cut)).collect();
        limits.sort_unstable();
        limits.dedup();
        limits
    }
}

impl Run<Met> {
    /// A ticket with facts, under some limits; then facts, tables and buffers that are refused.
    fn step(&mut self) -> Result<(), Report> {
        let ticket = self.ticket();
        let told = |report: Report| format!("{report}\n{}", String::from_utf8_lossy(&reference::print(&ticket)));
        let facts = self.facts(&ticket);
        self.answered(&ticket, facts).map_err(told)?;
        match self.random.below(4) {
            0 => self.any_size()?,
            1 => self.refused_facts(&ticket).map_err(told)?,
            2 => self.no_table(&ticket)?,
            _ => self.too_little(&ticket)?,
        }
        Ok(())
    }

    /// A small ticket; some are filled up to nearly as many clauses as there can be.
    fn ticket(&mut self) -> Ticket {
        let mut ticket = tickets::to_walk(&mut self.random);
        if ticket.atoms() > 0 && self.random.once_in(8) {
            let many = MOST_CLAUSES - self.random.below(MOST_FACTS + 2);
            while ticket.clauses.len() < many {
                let any = [atom(&ticket, self.random.below(ticket.atoms() as usize) as u32)];
                ticket.clauses.push(Clause::new(&any, &any));
            }
        }
        ticket
    }

    /// Atoms of the ticket, each once, in any order: up to 16, and up to as many as there is room for.
    fn facts(&mut self, ticket: &Ticket) -> Vec<u32> {
        let mut atoms: Vec<u32> = (0..ticket.atoms() as u32).collect();
        self.random.shuffle(&mut atoms);
        let room = MOST_CLAUSES - ticket.clauses.len();
        atoms.truncate(self.random.pick(&[0, 1, 1, 1, 2, 2, 3, 4, 6, 16, 16]).min(room));
        atoms
    }

    fn answered(&mut self, ticket: &Ticket, facts: Vec<u32>) -> Result<(), Report> {
        let case = Case::new(ticket.clone(), facts, LONG)?;
        let mut limits = case.limits(LONG);
        self.random.shuffle(&mut limits);
        limits.truncate(3);
        for limit in limits {
            let told = case.told(limit);
            self.tally.note(RUNS, format!("{:?}/{:?}", case.alone.under(limit).verdict, told.second_is_made.then(|| case.with_all.under(limit).verdict)));
            self.tally.note(SAID, format!("{:?}", told.said));
            self.call(&case.ticket, limit, &case.facts, &told)?;
            self.is_right(&case, &told)?;
        }
        let full = case.ticket.clauses.len() + case.facts.len() == MOST_CLAUSES && !case.facts.is_empty();
        let marks = [(full, "64 clauses together"), (case.facts.len() == MOST_FACTS, "16 facts"), (!case.facts.is_sorted(), "facts out of order")];
        marks.into_iter().filter(|(is_met, _)| *is_met).for_each(|(_, name)| self.tally.note(LENT, name.to_string()));
        Ok(())
    }

    /// What is said where nothing was spent is so for all choices of the facts.
    fn is_right(&mut self, case: &Case, told: &Told) -> Result<(), Report> {
        if told.said == Said::Spent || case.ticket.atoms() > FEW_ATOMS || case.facts.len() > FEW_FACTS {
            return Ok(());
        }
        self.tally.note(TRIED, format!("{:?}", told.said));
        same("what is said of all choices", right(&case.ticket, &case.facts), told.said)
    }

    /// A call by each engine, which must say and leave this.
    fn call(&mut self, ticket: &Ticket, limit: u32, facts: &[u32], told: &Told) -> Result<(), Report> {
        let ticket = Ticket { limit: limit.to_be_bytes(), ..ticket.clone() };
        let last = if told.second_is_made { with_facts(&ticket, facts) } else { ticket.clone() };
        for operation in ASSUME {
            let lent = lend(&mut self.random, &reference::encode(&ticket), facts);
            let mut left = lent.clone();
            let answer = oracle::assumed_so(operation, told, &last, &mut left);
            self.tally.calls += 1;
            lent.agrees(operation, answer, &left)?;
        }
        Ok(())
    }

    /// A ticket of any size, valid or not, with any facts and a limit that is soon reached.
    fn any_size(&mut self) -> Result<(), Report> {
        let limit = self.random.below(4) as u32;
        let ticket = Ticket { limit: limit.to_be_bytes(), ..tickets::ticket(&mut self.random) };
        let facts = arbitrary::facts(&mut self.random, Some(&ticket));
        let lent = lend(&mut self.random, &reference::encode(&ticket), &facts);
        self.as_expected(&lent).map(drop)
    }

    /// Facts that are refused for one reason after another, or for several.
    fn refused_facts(&mut self, ticket: &Ticket) -> Result<(), Report> {
        let own = self.facts(ticket);
        let atoms = ticket.atoms() as u32;
        let mut lists: Vec<Vec<u32>> = [atoms, atoms + 1, 0xFFFF, 0x1_0000, 0x1_0000 + atoms.saturating_sub(1), u32::MAX].map(|fact| with(&own, 0, &[fact])).to_vec();
        lists.push(with(&own, own.len(), &[atoms]));
        if let (Some(first), Some(last)) = (own.first(), own.last()) {
            lists.extend([with(&own, own.len(), &[*first]), with(&own, 0, &[*last]), with(&own, 1, &[*first])]);
        }
        let all: Vec<u32> = (0..atoms).chain(atoms..).take(MOST_CLAUSES + 200).collect();
        let room = MOST_CLAUSES - ticket.clauses.len();
        lists.extend([16, 17, 18, room, room + 1, 64, 65, 256, 257].map(|many: usize| all[..many].to_vec()));
        lists.push(vec![atoms; self.random.pick(&[2, 16, 17, 65])]);
        for facts in lists {
            let lent = lend(&mut self.random, &reference::encode(&Ticket { limit: [0; 4], ..ticket.clone() }), &facts);
            let why = refused(ticket, &facts);
            self.tally.note(REFUSED, why.map_or("no".to_string(), |why| format!("{why:?}")));
            let number = why.map_or(0, Why::number);
            same("the refusal", [number; 2], self.as_expected(&lent)?)?;
        }
        Ok(())
    }

    /// A damaged table, mostly no ticket's: then it is 31, whatever the facts.
    fn no_table(&mut self, ticket: &Ticket) -> Result<(), Report> {
        let short = Ticket { limit: [0, 0, 0, 1], ..ticket.clone() };
        let mut table = tickets::damaged(&mut self.random, &reference::encode(&short));
        table[4..8].copy_from_slice(&[0, 0, 0, 2]);
        let is_table = reference::ticket_in(&table).is_some();
        for facts in [arbitrary::facts(&mut self.random, Some(ticket)), vec![u32::MAX; 17], vec![0; 65]] {
            let lent = lend(&mut self.random, &table, &facts);
            let numbers = self.as_expected(&lent)?;
            same("whether it is refused by 31", [!is_table; 2], numbers.map(|number| number == NO_TABLE))?;
        }
        Ok(())
    }

    /// A buffer that is too short, or several: whatever table and facts are, it is 11.
    fn too_little(&mut self, ticket: &Ticket) -> Result<(), Report> {
        let table = if self.random.once_in(2) { reference::encode(ticket) } else { arbitrary::bytes(&mut self.random, reference::TABLE) };
        let facts = arbitrary::facts(&mut self.random, Some(ticket));
        for buffer in [Buffer::Table, Buffer::Answer, Buffer::Work, Buffer::Rules] {
            let mut lent = lend(&mut self.random, &table, &facts);
            lent[buffer] = lent[buffer].truncated(less_than(&mut self.random, buffer.required()));
            for operation in ASSUME.into_iter().filter(|operation| operation.buffers().contains(&buffer)) {
                self.tally.calls += 1;
                self.tally.note("short", format!("{buffer:?}"));
                lent.agrees(operation, packed(SHORT_BUFFER, 0), &lent)?;
            }
        }
        Ok(())
    }

    /// A call by each engine, as `oracle` has it: the refusals.
    fn as_expected(&mut self, lent: &Lent) -> Result<[u8; 2], Report> {
        let mut numbers = [0; 2];
        for (number, operation) in numbers.iter_mut().zip(ASSUME) {
            let (answer, left) = oracle::expected(operation, lent);
            self.tally.calls += 1;
            lent.agrees(operation, answer, &left)?;
            *number = answer as u8;
        }
        Ok(numbers)
    }

    /// What document 02 says of tickets with facts, told by hand.
    fn by_hand(&mut self) -> Result<(), Report> {
        for (text, facts, said, counts) in BY_HAND {
            let ticket = reference::read(text.as_bytes()).map_err(|refusal| format!("{refusal:?} of {text}"))?;
            let told = Told { said, counts, second_is_made: said != Said::Always };
            let case = Case::new(ticket.clone(), facts.to_vec(), 1000)?;
            let limit = u32::from_be_bytes(ticket.limit);
            same(&format!("{text}with {facts:?}"), told, case.told(limit))?;
            self.call(&ticket, limit, facts, &told)?;
        }
        for (text, facts, number) in REFUSED_BY_HAND {
            let ticket = reference::read(text.as_bytes()).map_err(|refusal| format!("{refusal:?} of {text}"))?;
            let lent = lend(&mut self.random, &reference::encode(&ticket), facts);
            same(&format!("{text}with {facts:?}"), [number; 2], self.as_expected(&lent)?)?;
        }
        self.at_the_limits()?;
        self.at_once()
    }

    /// Where the ticket by itself is none, a second run is not made, not even one that would be thrown away: nobody waits for the end of this one.
    fn at_once(&mut self) -> Result<(), Report> {
        let (ticket, facts) = endless_with_fact();
        let case = Case::new(ticket.clone(), facts.clone(), 1000)?;
        same("verdicts by itself and with the fact", [Verdict::None, Verdict::Spent], [&case.alone, &case.with_all].map(|whole| whole.under(1000).verdict))?;
        for operation in ASSUME {
            let told = in_time(operation, &ticket, &facts).ok_or_else(|| format!("{operation:?} makes a second run after none"))?;
            same(&format!("{operation:?}"), (library::said(Said::Always as u8), [2, 0]), told)?;
            self.tally.calls += 1;
        }
        Ok(())
    }

    /// A ticket of 20 atoms, each of which may be a fact, with so many clauses and so many facts, the last one again where that is said.
    fn at_the_limits(&mut self) -> Result<(), Report> {
        for (clauses, many, again, number) in AT_THE_LIMITS {
            let fact = Clause::new(&[], &[Atom::new(0, &[0])]);
            let ticket = Ticket { constants: 20, limit: [0; 4], arities: vec![1], clauses: vec![fact; clauses] };
            let mut facts: Vec<u32> = (0..many as u32).rev().collect();
            facts.extend(facts.last().copied().filter(|_| again));
            let lent = lend(&mut self.random, &reference::encode(&ticket), &facts);
            same(&format!("{clauses} clauses with {facts:?}"), [number; 2], self.as_expected(&lent)?)?;
        }
        Ok(())
    }
}

/// How long a call may take, on a machine that has much else to do.
const PATIENCE: Duration = Duration::from_secs(60);

/// The answer and the counts of a call with these open facts; nothing where it takes too long.
fn in_time(operation: Operation, ticket: &Ticket, facts: &[u32]) -> Option<(u64, [u32; 2])> {
    let (table, facts, (answered, told)) = (reference::encode(ticket), facts.to_vec(), mpsc::channel());
    let call = move || {
        let (mut counts, mut rules, answer, mut work) = ([u32::MAX; 2], vec![7; RULES], vec![7; ANSWER], vec![7; WORK]);
        let given = match operation {
            Operation::AssumeMagic => library::assume_magic(&table, &facts, counts.each_mut(), &mut rules, &answer, &mut work),
            _ => library::assume_relevancy(&table, &facts, counts.each_mut(), &answer, &mut work),
        };
        let _ = answered.send((given, counts));
    };
    thread::spawn(call);
    told.recv_timeout(PATIENCE).ok()
}

/// A ticket that is none after two entries, under the greatest limit. With atom 2 as a fact its lines hold, and before those two it makes the choices of a
/// family of seven lines, which has 2 to the power of 49 ways.
fn endless_with_fact() -> (Ticket, Vec<u32>) {
    let [one, other, begun] = [0, 1, 2].map(|predicate| Atom::new(predicate, &[]));
    let mut clauses = Family { first: 3, lines: 7 }.without_fitting();
    clauses.iter_mut().filter(|clause| clause.conditions.is_empty()).for_each(|clause| clause.conditions.push(begun.clone()));
    clauses.extend([Clause::new(&[], &[one.clone(), other.clone()]), Clause::new(&[one], &[]), Clause::new(&[other], &[])]);
    (unrelated::ticket(7, 3, 1, clauses, u32::MAX), vec![2])
}

/// The list with others put in at a place.
fn with(list: &[u32], at: usize, others: &[u32]) -> Vec<u32> {
    [&list[..at], others, &list[at..]].concat()
}

/// Buffers that are long enough, or longer, with any bytes in them but for table and facts.
fn lend(random: &mut Random, table: &[u8], facts: &[u32]) -> Lent {
    let facts: Vec<u8> = facts.iter().flat_map(|fact| fact.to_le_bytes()).collect();
    let buffers = BUFFERS.map(|buffer| match buffer {
        Buffer::Facts => Memory::random(random, facts.len()).beginning_with(&facts),
        Buffer::Table => {
            let more = random.pick(&[0, 0, 1, 57]);
            Memory::random(random, table.len() + more).beginning_with(table)
        }
        Buffer::Rules | Buffer::Answer | Buffer::Work => {
            let more = random.pick(&[0, 0, 1, 57]);
            Memory::random(random, buffer.required() + more)
        }
        _ => Memory::random(random, buffer.required()),
    });
    Lent { buffers, clause: 0, values: [0; 4], further: 0 }
}

/// K6 of document 01 with other limits. Atoms 0 to 5 are 00 to 21, as predicate and argument. 01 closes what 20 opens; 10 is denied; 20 leaves no split.
const K6: &str = "0101020300000064\n0201\n0201\n0201\n0300010000\n030102008001800280\n0301000100\n03020002800001\nFF04\n";
const K6_ONE: &str = "0101020300000001\n0201\n0201\n0201\n0300010000\n030102008001800280\n0301000100\n03020002800001\nFF04\n";
const K1: &str = "0101020300000064\n0201\n0201\n0201\n0300010000\n030102008001800280\n0301000100\n0301000280\nFF04\n";
const K7: &str = "0101000100000064\n0200\nFF00\n";
const K8: &str = "0101000100000064\n0200\n030000\nFF01\n";

/// A ticket that fits at once, and whose two atoms, both denied, are split where atom 2 is a fact; with no entry allowed.
const SPLIT_BY_FACT: &str = "0101000300000000\n0200\n0200\n0200\n030102020001\n03010000\n03010001\nFF03\n";
const NO_ATOMS: &str = "0101000100000064\n0201\nFF00\n";

type ByHand = (&'static str, &'static [u32], Said, [u32; 2]);

const BY_HAND: [ByHand; 16] = [
    (K6, &[], Said::Never, [2, 2]),
    (K6, &[1], Said::WithSome, [2, 2]),
    (K6, &[2], Said::WithSome, [2, 0]),
    (K6, &[4], Said::Never, [2, 0]),
    (K6, &[4, 1], Said::WithSome, [2, 0]),
    (K6, &[5, 3, 0], Said::Never, [2, 2]),
    (K6_ONE, &[], Said::Spent, [1, 1]),
    (K6_ONE, &[2], Said::Spent, [1, 0]),
    (K6_ONE, &[4], Said::Spent, [1, 0]),
    (K1, &[], Said::Always, [2, 0]),
    (K1, &[5, 0], Said::Always, [2, 0]),
    (K7, &[0], Said::Never, [0, 0]),
    (K8, &[0], Said::Always, [0, 0]),
    (SPLIT_BY_FACT, &[2], Said::Spent, [0, 0]),
    (SPLIT_BY_FACT, &[0, 2], Said::WithSome, [0, 0]),
    (NO_ATOMS, &[], Said::Never, [0, 0]),
];

const REFUSED_BY_HAND: [(&str, &[u32], u8); 7] = [
    (K6, &[6], BAD_FACTS),
    (K6, &[0, 65536], BAD_FACTS),
    (K6, &[3, 0, 3], BAD_FACTS),
    (K1, &[6], BAD_FACTS),
    (NO_ATOMS, &[0], BAD_FACTS),
    (K6, &[0; 60], BAD_FACTS),
    (K6, &[0; 61], BAD_COUNT),
];

/// Clauses, facts, whether the last one is repeated, and the refusal's number: 5 comes before 45.
const AT_THE_LIMITS: [(usize, usize, bool, u8); 11] = [
    (0, 16, false, 0),
    (0, 17, false, BAD_FACTS),
    (48, 16, false, 0),
    (47, 17, false, BAD_FACTS),
    (48, 17, false, BAD_COUNT),
    (49, 16, false, BAD_COUNT),
    (63, 1, false, 0),
    (62, 1, true, BAD_FACTS),
    (63, 1, true, BAD_COUNT),
    (64, 0, false, 0),
    (64, 1, false, BAD_COUNT),
];

/// What is met, by kind.
const RUNS: &str = "runs";
const SAID: &str = "said";
const TRIED: &str = "right for all choices";
const REFUSED: &str = "refused";
const LENT: &str = "lent";

#[derive(Default)]
struct Own {
    tickets: u64,
}

type Met = met::Met<Own>;

impl Required for Own {
    fn required() -> Vec<(&'static str, String)> {
        let mut required: Vec<(&str, String)> = vec![(RUNS, format!("{:?}/{:?}", Verdict::None, None::<Verdict>))];
        for first in [Verdict::Fits, Verdict::Spent] {
            required.extend([Verdict::None, Verdict::Fits, Verdict::Spent].map(|second| (RUNS, format!("{first:?}/{:?}", Some(second)))));
        }
        required.extend([Said::Always, Said::Never, Said::WithSome].map(|said| (TRIED, format!("{said:?}"))));
        required.extend(WHYS.map(|why| (REFUSED, format!("{why:?}"))));
        required.extend(["64 clauses together", "16 facts", "facts out of order"].map(|name| (LENT, name.to_string())));
        required.extend([Buffer::Table, Buffer::Answer, Buffer::Work, Buffer::Rules].map(|buffer| ("short", format!("{buffer:?}"))));
        required
    }
}
