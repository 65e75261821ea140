//! Tickets fitted part by part, by the library's two engines and by what `parts.rs` has of document 02: on many small random tickets, most of them put
//! together from several that share no predicate, and on some of any size, with limits around the parts' counts, verdict, the sum of the counts and every
//! byte of every buffer must agree; so must refusals. Fits and none are held to the whole ticket, where there are few atoms by trying all sets, and to the
//! whole walk, which says the same where it is not spent. Tickets by hand come first, some whose whole walk nobody waits for. Usage: parting [NUMBER OF TICKETS]. The same calls in every run.
mod arbitrary;
mod assume;
mod library;
mod logic;
mod magic;
mod mangle;
mod memory;
mod met;
mod operations;
mod oracle;
mod parts;
mod random;
mod reference;
mod refusing;
mod report;
#[allow(dead_code)] // rules are compared by their bytes, and not read back
mod rules;
mod session;
mod slip;
mod stages;
mod threads;
mod tickets;
mod unrelated;
mod walk;

use logic::ground;
use magic::{rewritten, Magic};
use met::Required;
use operations::{Buffer, Operation};
use parts::{has_fitting, parts, told, Part, Told};
use random::Random;
use reference::{Atom, Clause, Ticket, ANSWER, MOST_CLAUSES, RULES, WORK};
use refusing::lend;
use report::{same, Report};
use std::sync::mpsc;
use std::thread;
use std::time::Duration;
use threads::Run;
use unrelated::Family;
use walk::{Relevancy, Verdict, Whole};

const TICKETS: u64 = 4_000;

/// Walks are cut after this many entries.
const LONG: u32 = 60;

/// All sets are tried where there are at most this many atoms.
const FEW_ATOMS: u64 = 10;

const PARTS: [Operation; 2] = [Operation::PartsRelevancy, Operation::PartsMagic];

fn main() {
    threads::run("parting", TICKETS, 1013, run);
}

fn run(run: &mut Run<Met>, tickets: u64) -> Result<(), Report> {
    if run.number == 0 {
        run.by_hand()?;
        run.at_once()?;
    }
    while run.tally.own.tickets < tickets {
        run.step()?;
        run.tally.own.tickets += 1;
    }
    Ok(())
}

/// What a ticket and its parts come to with no limit but a cut.
struct Case {
    ticket: Ticket,
    whole: Whole,
    parts: Vec<Part>,
    walks: Vec<Whole>,
}

impl Case {
    /// Each part is walked by both engines, which must end alike.
    fn new(ticket: Ticket, cut: u32) -> Result<Case, Report> {
        let both = |part: &Part| -> Result<Whole, Report> {
            let whole = Whole::new(&Relevancy::new(&part.ticket), cut, &mut |_, _| {});
            let by_rules = Whole::new(&Magic::new(&rewritten(&part.ticket), &part.ticket), cut, &mut |_, _| {});
            same("outcome of the magic walk", &whole.outcome, &by_rules.outcome)?;
            Ok(whole)
        };
        let parts = parts(&ticket);
        let walks = parts.iter().map(both).collect::<Result<_, _>>()?;
        let whole = Whole::new(&Relevancy::new(&ticket), cut, &mut |_, _| {});
        Ok(Case { ticket, whole, parts, walks })
    }

    fn told(&self, limit: u32) -> Told {
        told(&self.ticket, &self.parts, |i, _| self.walks[i].under(limit))
    }

    /// Limits at which the end of a part, or of the whole, turns, none of them past a cut.
    fn limits(&self, cut: u32) -> Vec<u32> {
        let counts = self.walks.iter().chain([&self.whole]).map(|walk| walk.outcome.count);
        let mut limits: Vec<u32> = counts.flat_map(|count| [0, count.saturating_sub(1), count, count + 1]).map(|limit| limit.min(cut)).collect();
        limits.sort_unstable();
        limits.dedup();
        limits
    }
}

impl Run<Met> {
    /// A ticket under some limits; then one of any size, a table that is none, or buffers that are too short.
    fn step(&mut self) -> Result<(), Report> {
        let ticket = self.ticket();
        let told = |report: Report| format!("{report}\n{}", String::from_utf8_lossy(&reference::print(&ticket)));
        same("whether the ticket is accepted", true, reference::read(&reference::print(&ticket)).is_ok()).map_err(told)?;
        self.answered(&ticket).map_err(told)?;
        self.refuse(&PARTS, &ticket)
    }

    /// Up to four small tickets as one, their predicates and clauses mixed; at times a clause joins two of them, one is without atoms, or a predicate is
    /// in no clause.
    fn ticket(&mut self) -> Ticket {
        let random = &mut self.random;
        let mut ticket = tickets::to_walk(random);
        for _ in 0..random.pick(&[0, 1, 1, 2, 2, 3]) {
            let mut other = tickets::to_walk(random);
            other.clauses.truncate(random.pick(&[2, 4, 8, 30]));
            beside(&mut ticket, other);
        }
        if random.once_in(4) {
            let any = |random: &mut Random| random.below(ticket.arities.len()) as u8;
            let bridge = [any(random), any(random)].map(|predicate| Atom::new(predicate, &vec![0; ticket.arities[predicate as usize] as usize]));
            if ticket.constants > 0 || bridge.iter().all(|atom| atom.arguments.is_empty()) {
                ticket.clauses.push(Clause::new(&bridge[..1], &bridge[1..]));
            }
        }
        if random.once_in(12) {
            ticket.clauses.insert(random.below(ticket.clauses.len() + 1), Clause::new(&[], &[]));
        }
        ticket.clauses.truncate(MOST_CLAUSES);
        shuffled(random, ticket)
    }

    fn answered(&mut self, ticket: &Ticket) -> Result<(), Report> {
        let case = Case::new(ticket.clone(), LONG)?;
        let right = (ticket.atoms() <= FEW_ATOMS).then(|| has_fitting(&ground(ticket)));
        let mut limits = case.limits(LONG);
        self.random.shuffle(&mut limits);
        limits.truncate(3);
        for limit in limits {
            let told = case.told(limit);
            self.is_right(&case, &told, right, limit)?;
            self.note(&case, &told, limit);
            self.call(&case.ticket, limit, &told)?;
        }
        Ok(())
    }

    /// Fits comes with a fitting of the whole ticket, and none only where it has none. Where the whole walk is not spent, the parts say what it does, by
    /// no more entries each.
    fn is_right(&mut self, case: &Case, told: &Told, right: Option<bool>, limit: u32) -> Result<(), Report> {
        if let Some(fitting) = &told.fitting {
            same("violated instance of the joined fitting", None, ground(&case.ticket).first_violated(fitting))?;
        }
        if let (Some(right), true) = (right, told.verdict != Verdict::Spent) {
            self.tally.note(TRIED, format!("{:?}", told.verdict));
            same("whether there is a fitting", right, told.verdict == Verdict::Fits)?;
        }
        let whole = case.whole.under(limit);
        if whole.verdict != Verdict::Spent {
            same("the whole walk's verdict", whole.verdict, told.verdict)?;
        }
        self.tally.note(WHOLE, format!("{:?} by parts {:?}", whole.verdict, told.verdict));
        Ok(())
    }

    fn note(&mut self, case: &Case, told: &Told, limit: u32) {
        let made: Vec<Verdict> = case.walks[..told.runs].iter().map(|walk| walk.under(limit).verdict).collect();
        let spent = made.iter().position(|verdict| *verdict == Verdict::Spent);
        let then = |verdict: Verdict| spent.is_some_and(|spent| made[spent..].contains(&verdict));
        let marks = [
            (then(Verdict::None), "spent, then none"),
            (then(Verdict::Fits), "spent, then fits"),
            (told.verdict == Verdict::None && told.runs < case.parts.len(), "none before the last part"),
            (told.verdict == Verdict::None && made.contains(&Verdict::Fits), "fits, then none"),
            (told.count > limit as u64, "a sum above the limit"),
            (case.parts.iter().any(|part| part.ticket.clauses.is_empty()), "a predicate in no clause"),
            (case.parts[0].predicates.is_empty(), "a clause without atoms"),
            (case.parts.iter().any(|part| part.predicates.windows(2).any(|two| two[1] - two[0] > 1)), "a part between another's predicates"),
            (made.iter().zip(&case.walks).filter(|(_, walk)| walk.outcome.count > 0).count() > 1, "entries in several parts"),
        ];
        marks.into_iter().filter(|(is_met, _)| *is_met).for_each(|(_, name)| self.tally.note(MET, name.to_string()));
        self.tally.note(VERDICTS, format!("{:?}", told.verdict));
        self.tally.note(MANY, format!("{:2}", case.parts.len()));
    }

    /// A call by each engine, which must say and leave this.
    fn call(&mut self, ticket: &Ticket, limit: u32, told: &Told) -> Result<(), Report> {
        let ticket = Ticket { limit: limit.to_be_bytes(), ..ticket.clone() };
        for operation in PARTS {
            let lent = lend(&mut self.random, &reference::encode(&ticket));
            let mut left = lent.clone();
            let answer = oracle::parted(operation, told, &ticket, &mut left);
            self.tally.calls += 1;
            lent.agrees(operation, answer, &left)?;
            if told.verdict == Verdict::Fits {
                same("judging of the joined fitting", library::FITTING, library::judge(left[Buffer::Table].lent(), left[Buffer::Answer].lent()))?;
            }
        }
        Ok(())
    }

    /// What document 02 says of tickets in parts, told by hand: the parts by their predicates, verdict, sum and marks.
    fn by_hand(&mut self) -> Result<(), Report> {
        for (text, predicates, verdict, count, marks) in BY_HAND {
            let ticket = reference::read(text.as_bytes()).map_err(|refusal| format!("{refusal:?} of {text}"))?;
            let case = Case::new(ticket.clone(), 1000)?;
            let found: Vec<&[u8]> = case.parts.iter().map(|part| &part.predicates[..]).collect();
            same(&format!("parts of\n{text}"), predicates, &found[..])?;
            let limit = u32::from_be_bytes(ticket.limit);
            let told = case.told(limit);
            same(&format!("verdict and sum of\n{text}"), (verdict, count), (told.verdict, told.count))?;
            let fitting = (verdict == Verdict::Fits).then(|| marks.bytes().map(|mark| mark == b'1').collect());
            same(&format!("fitting of\n{text}"), fitting, told.fitting.clone())?;
            self.call(&ticket, limit, &told)?;
        }
        Ok(())
    }

    /// Tickets with walks whose end nobody waits for, but not by parts: a none before them ends it, and of families each is walked by itself.
    fn at_once(&mut self) -> Result<(), Report> {
        let (small, sum) = unrelated::three(2, u32::MAX);
        let told = Case::new(small, 1000)?.told(1000);
        same("verdict and sum of three small families", (Verdict::Fits, sum), (told.verdict, told.count))?;
        for (name, ticket, verdict, count) in endless() {
            for operation in PARTS {
                let (given, sum, answer) = in_time(operation, &ticket).ok_or_else(|| format!("{name}: {operation:?} is not answered in time"))?;
                same(&format!("{name}: {operation:?}"), (library::said(verdict as u8), count), (given, sum))?;
                if verdict == Verdict::Fits {
                    same(name, library::FITTING, library::judge(&reference::encode(&ticket), &answer))?;
                }
                self.tally.calls += 1;
            }
        }
        Ok(())
    }
}

/// How long a call by parts may take, on a machine that has much else to do.
const PATIENCE: Duration = Duration::from_secs(60);

/// The answer, the sum and the marks of a call with this ticket; nothing where it takes too long.
fn in_time(operation: Operation, ticket: &Ticket) -> Option<(u64, u64, Vec<u8>)> {
    let (table, (answered, told)) = (reference::encode(ticket), mpsc::channel());
    let call = move || {
        let (mut sum, mut rules, mut answer, mut work) = (u64::MAX, vec![7; RULES], vec![7; ANSWER], vec![7; WORK]);
        let given = match operation {
            Operation::PartsMagic => library::parts_magic(&table, &mut sum, &mut rules, &mut answer, &mut work),
            _ => library::parts_relevancy(&table, &mut sum, &mut answer, &mut work),
        };
        let _ = answered.send((given, sum, answer));
    };
    thread::spawn(call);
    told.recv_timeout(PATIENCE).ok()
}

/// What each is, with verdict and sum. A family of seven lines has 2 to the power of 49 ways to choose; the product of three with sixteen choices is as long.
fn endless() -> [(&'static str, Ticket, Verdict, u64); 4] {
    let bare = Clause::new(&[], &[]);
    let atom = |predicate: u8| Atom::new(predicate, &[]);
    let neither = [Clause::new(&[], &[atom(0), atom(1)]), Clause::new(&[atom(0)], &[]), Clause::new(&[atom(1)], &[])];
    let long = |before: u8, clauses: &[Clause]| {
        let own = Family { first: before, lines: 7 }.without_fitting();
        unrelated::ticket(7, before, 1, [&own, clauses].concat(), u32::MAX)
    };
    let (three, sum) = unrelated::three(4, u32::MAX);
    let (limited, _) = unrelated::three(4, 150_000);
    [
        ("a clause without atoms behind a long family", long(0, &[bare]), Verdict::None, 0),
        ("a part that is none before a long one", long(2, &neither), Verdict::None, 2),
        ("three families", three, Verdict::Fits, sum),
        ("three families under a limit that each keeps, and their sum passes", limited, Verdict::Fits, sum),
    ]
}

/// Puts the predicates and clauses of another ticket behind those of the first, as far as there is room; its constants are taken as the first's are.
fn beside(ticket: &mut Ticket, other: Ticket) {
    let before = ticket.arities.len();
    let mut wide = Ticket { arities: [&ticket.arities[..], &other.arities].concat(), ..ticket.clone() };
    let constants = ticket.constants;
    let argument = |argument: u8| if argument < 0x80 { argument % constants.max(1) } else { argument };
    let atom = |atom: &Atom| Atom { predicate: atom.predicate + before as u8, arguments: atom.arguments.iter().map(|value| argument(*value)).collect() };
    let moved = |atoms: &[Atom]| atoms.iter().map(atom).collect::<Vec<_>>();
    wide.clauses.extend(other.clauses.iter().map(|clause| Clause::new(&moved(&clause.conditions), &moved(&clause.alternatives))));
    wide.clauses.truncate(MOST_CLAUSES - 2);
    if wide.arities.len() <= 24 && wide.atoms() <= 60 && reference::read(&reference::print(&wide)).is_ok() {
        *ticket = wide;
    }
}

/// The ticket with its predicates numbered anew and its clauses in another order.
fn shuffled(random: &mut Random, ticket: Ticket) -> Ticket {
    let mut order: Vec<usize> = (0..ticket.arities.len()).collect();
    random.shuffle(&mut order);
    let mut arities = vec![0; order.len()];
    order.iter().zip(&ticket.arities).for_each(|(new, arity)| arities[*new] = *arity);
    let mut clauses = ticket.clauses;
    for atom in clauses.iter_mut().flat_map(|clause| clause.conditions.iter_mut().chain(&mut clause.alternatives)) {
        atom.predicate = order[atom.predicate as usize] as u8;
    }
    random.shuffle(&mut clauses);
    Ticket { arities, clauses, ..ticket }
}

type ByHand = (&'static str, &'static [&'static [u8]], Verdict, u64, &'static str);

/// Predicates without arguments, so that an atom has its predicate's number. Families of a split over two atoms, both of them wanted by denials: of one,
/// or of both apart.
const BY_HAND: [ByHand; 12] = [
    // no clause: each predicate is a part that fits
    ("0101000300000000\n0200\n0200\n0200\nFF00\n", &[&[0], &[1], &[2]], Verdict::Fits, 0, "111"),
    // two families, one in between the other; each enters two atoms, under a limit of two
    (
        "0101000400000002\n0200\n0200\n0200\n0200\n0300020003\n03010000\n0302000300\n0300020102\n03010001\n0302000201\nFF06\n",
        &[&[0, 3], &[1, 2]],
        Verdict::Fits,
        4,
        "0011",
    ),
    // a third clause through which two others belong together
    ("0101000400000064\n0200\n0200\n0200\n0200\n0301010001\n0301010203\n0301010102\nFF03\n", &[&[0, 1, 2, 3]], Verdict::Fits, 0, "1111"),
    // the second family is none: the first has fitted after an entry, and the third is not run
    (
        "0101000500000064\n0200\n0200\n0200\n0200\n0200\n03000104\n0300020203\n03010002\n03010003\n0300020001\n03010001\n0302000001\nFF07\n",
        &[&[0, 1], &[2, 3], &[4]],
        Verdict::None,
        3,
        "",
    ),
    // the first family is spent after an entry, the second is none at once
    (
        "0101000400000001\n0200\n0200\n0200\n0200\n0300020001\n03010000\n0302000100\n03000102\n03010002\nFF05\n",
        &[&[0, 1], &[2], &[3]],
        Verdict::None,
        1,
        "",
    ),
    // the same but for the denial: the second family fits, and the ticket is spent
    ("0101000400000001\n0200\n0200\n0200\n0200\n0300020001\n03010000\n0302000100\n03000102\nFF04\n", &[&[0, 1], &[2], &[3]], Verdict::Spent, 1, ""),
    // the first family is spent after two entries, the second fits after two: it is run, and counted
    (
        "0101000600000002\n0200\n0200\n0200\n0200\n0200\n0200\n030003000102\n03010000\n03010001\n03010002\n0300020304\n03010003\n0302000403\nFF07\n",
        &[&[0, 1, 2], &[3, 4], &[5]],
        Verdict::Spent,
        4,
        "",
    ),
    // the same but that the second has no fitting, after two entries
    (
        "0101000600000002\n0200\n0200\n0200\n0200\n0200\n0200\n030003000102\n03010000\n03010001\n03010002\n0300020304\n03010003\n03010004\nFF07\n",
        &[&[0, 1, 2], &[3, 4], &[5]],
        Verdict::None,
        4,
        "",
    ),
    // a predicate in no clause, before a family: all its atoms are in the fitting
    (
        "0101020300000002\n0202\n0200\n0200\n0300020102\n03010001\n0302000201\nFF03\n",
        &[&[0], &[1, 2]],
        Verdict::Fits,
        2,
        "111101",
    ),
    // a clause without atoms comes first, wherever it stands, and is none at once
    ("0101000200000064\n0200\n0200\n0300020001\n030000\nFF02\n", &[&[], &[0, 1]], Verdict::None, 0, ""),
    // two of them: the first ends it
    ("0101000100000064\n0200\n030000\n030000\nFF02\n", &[&[], &[], &[0]], Verdict::None, 0, ""),
    // no entry is allowed: the family is spent, and the denial of a fact is none
    ("0101000300000000\n0200\n0200\n0200\n0300020001\n03010000\n03010001\n03000102\n03010002\nFF05\n", &[&[0, 1], &[2]], Verdict::None, 0, ""),
];

/// What is met, by kind.
const VERDICTS: &str = "verdicts";
const TRIED: &str = "all sets tried";
const WHOLE: &str = "whole";
const MET: &str = "met";
const MANY: &str = "number of parts";

#[derive(Default)]
struct Own {
    tickets: u64,
}

type Met = met::Met<Own>;

impl Required for Own {
    fn required() -> Vec<(&'static str, String)> {
        let mut required: Vec<(&str, String)> = [Verdict::None, Verdict::Fits, Verdict::Spent].map(|verdict| (VERDICTS, format!("{verdict:?}"))).to_vec();
        required.extend([Verdict::None, Verdict::Fits].map(|verdict| (TRIED, format!("{verdict:?}"))));
        required.extend([Verdict::None, Verdict::Fits].map(|verdict| (WHOLE, format!("{:?} by parts {verdict:?}", Verdict::Spent))));
        let met = ["spent, then none", "spent, then fits", "none before the last part", "fits, then none", "a sum above the limit"];
        let more = ["a predicate in no clause", "a clause without atoms", "a part between another's predicates", "entries in several parts"];
        required.extend(met.into_iter().chain(more).map(|name| (MET, name.to_string())));
        required.extend(refusing::required(&PARTS));
        required
    }
}
