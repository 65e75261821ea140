//! How many conditions of an instance hold from the left, by the library and by the reference, on many random tables and answers: for each
//! instance of small tickets and for some of large ones, for instances that a ticket lacks, and where the call is refused. The numbers
//! must agree, no byte of any buffer may change, and judging must go with them. Usage: holding [NUMBER OF CALLS]. The same calls in every run.
mod arbitrary;
mod library;
mod logic;
mod mangle;
mod memory;
mod random;
mod reference;
mod report;
mod slip;
mod stages;
mod threads;
mod tickets;
mod walk;

use library::{packed, violated, FITTING};
use logic::{all_values, number};
use memory::{less_than, same_bytes, Memory};
use random::Random;
use reference::{Clause, Ticket, ANSWER, BAD_ANSWER, NO_INSTANCE, NO_TABLE, SHORT_BUFFER, TABLE};
use report::{dump, same, same_answer, Report};
use threads::{add_each, row, Run, Tally};

const CALLS: u64 = 400_000;

/// Of a ticket with more instances than these, some are asked for.
const FEW: u64 = 200;

fn main() {
    threads::run("holding", CALLS, 501, run);
}

fn run(run: &mut Run<Met>, calls: u64) -> Result<(), Report> {
    while run.tally.calls < calls {
        run.step()?;
    }
    Ok(())
}

/// A table, its ticket if it is one's, and an answer.
struct Lent {
    table: Vec<u8>,
    ticket: Option<Ticket>,
    answer: Vec<u8>,
}

/// An instance by clause and the values of 80, 81, 82, 83.
type Named = (u32, [u32; 4]);

impl Run<Met> {
    /// A ticket, an answer to it, its instances and others; then answers and tables that are none, and buffers that are too short.
    fn step(&mut self) -> Result<(), Report> {
        let drawn = if self.random.once_in(2) { tickets::to_walk(&mut self.random) } else { tickets::ticket(&mut self.random) };
        let table = reference::encode(&drawn);
        let ticket = reference::ticket_in(&table);
        let answer = self.answer(ticket.as_ref());
        let lent = Lent { table, ticket, answer };
        if let Some(ticket) = &lent.ticket {
            self.instances(&lent, ticket)?;
            self.lacking(&lent, ticket)?;
            self.bad_answers(&lent, ticket)?;
        }
        self.no_table(&lent)?;
        self.too_little(&lent)
    }

    /// A set of atoms, from sparse to dense, in which so many conditions of some instance hold and the next one mostly does not. What follows
    /// the atoms is at random.
    fn answer(&mut self, ticket: Option<&Ticket>) -> Vec<u8> {
        let mut answer = vec![0; ANSWER];
        self.random.fill(&mut answer);
        let Some(ticket) = ticket else { return answer };
        let density = self.random.pick(&[1, 8, 16, 24, 31]);
        answer[..ticket.atoms() as usize].fill_with(|| (self.random.below(32) < density) as u8);
        if !ticket.clauses.is_empty() && ticket.constants > 0 {
            let clause = &ticket.clauses[self.random.below(ticket.clauses.len())];
            let values: Vec<u8> = (0..4).map(|_| self.random.below(ticket.constants as usize) as u8).collect();
            let hold = self.random.below(clause.conditions.len() + 1);
            for (i, condition) in clause.conditions.iter().enumerate().take(hold + 1).rev() {
                answer[number(ticket, condition, &values)] = (i < hold) as u8;
            }
        }
        answer
    }

    /// Each instance of a small ticket, and up to four of each clause of a large one. Then what judging says.
    fn instances(&mut self, lent: &Lent, ticket: &Ticket) -> Result<(), Report> {
        let all = ticket.clauses.iter().map(|clause| ticket.instances(clause)).sum::<u64>() <= FEW;
        let mut first = None;
        for (k, clause) in ticket.clauses.iter().enumerate() {
            for own in self.values(ticket, clause, all) {
                let named = (k as u32, self.with_any_past(&own));
                let hold = self.ask(lent, named)?;
                self.tally.hold(clause.conditions.len(), hold, own.len());
                if first.is_none() && hold == Ok(clause.conditions.len() as u32) && !has_alternative(ticket, clause, &own, &lent.answer) {
                    first = Some((k as u8, four(&own)));
                }
            }
        }
        self.judged(lent, ticket, all.then_some(first))
    }

    fn values(&mut self, ticket: &Ticket, clause: &Clause, all: bool) -> Vec<Vec<u8>> {
        let (constants, variables) = (ticket.constants, clause.variables().len());
        if all {
            return all_values(constants, variables);
        }
        let any = |random: &mut Random| (0..variables).map(|_| random.below(constants.max(1) as usize) as u8).collect();
        (0..if variables > 0 && constants == 0 { 0 } else { 4 }).map(|_| any(&mut self.random)).collect()
    }

    /// The clause's own values, and after them any numbers.
    fn with_any_past(&mut self, own: &[u8]) -> [u32; 4] {
        let mut values = [0; 4].map(|_: u32| any_number(&mut self.random));
        values.iter_mut().zip(own).for_each(|(value, own)| *value = *own as u32);
        values
    }

    /// Of the instance that judging names all conditions hold. Where each instance was asked for, it is the first of which all hold and no
    /// alternative does, and where there is none the answer is a fitting.
    fn judged(&mut self, lent: &Lent, ticket: &Ticket, first: Option<Option<(u8, [u8; 4])>>) -> Result<(), Report> {
        let judged = library::judge(&lent.table, &lent.answer);
        if let Some(first) = first {
            let expected = first.map_or(FITTING, |(clause, values)| violated(clause, values));
            same_answer(expected, judged, || format!("judging by what holds:\n{}", dump(&lent.table)))?;
        }
        let [_, said, _, clause, values @ ..] = judged.to_le_bytes();
        if said == 2 {
            self.tally.violated += 1;
            let hold = self.ask(lent, (clause as u32, values.map(u32::from)))?;
            same("conditions of a violated instance that hold", Ok(ticket.clauses[clause as usize].conditions.len() as u32), hold)?;
        }
        Ok(())
    }

    /// Clauses that the ticket lacks, and for a variable of a clause that it has a value that it lacks; also such whose last byte it has.
    fn lacking(&mut self, lent: &Lent, ticket: &Ticket) -> Result<(), Report> {
        let (count, constants) = (ticket.clauses.len(), ticket.constants as usize);
        let inside = [0; 4].map(|_: u32| self.random.below(constants.max(1)) as u32);
        for clause in outside(&mut self.random, count) {
            same("a clause that is lacking", Err(NO_INSTANCE), self.ask(lent, (clause, inside))?)?;
            self.tally.lacking[0] += 1;
        }
        if count == 0 {
            return Ok(());
        }
        let k = self.random.below(count);
        for variable in 0..ticket.clauses[k].variables().len() {
            for value in outside(&mut self.random, constants) {
                let mut values = inside;
                values[variable] = value;
                same("a value that is lacking", Err(NO_INSTANCE), self.ask(lent, (k as u32, values))?)?;
                self.tally.lacking[1 + variable] += 1;
            }
        }
        Ok(())
    }

    /// A byte that is neither 0 nor 1: among the atoms' it is 32, whatever the instance; past them it does not matter.
    fn bad_answers(&mut self, lent: &Lent, ticket: &Ticket) -> Result<(), Report> {
        let atoms = ticket.atoms() as usize;
        for place in [atoms.max(1) - 1, atoms, self.random.below(ANSWER)].into_iter().filter(|place| *place < ANSWER) {
            let mut answer = lent.answer.clone();
            answer[place] = self.random.pick(&[2, 2, 3, 0x80, 0xFE, 0xFF]);
            let bad = Lent { table: lent.table.clone(), ticket: Some(ticket.clone()), answer };
            for named in [arbitrary::instance(&mut self.random, Some(ticket)), (u32::MAX, [u32::MAX; 4])] {
                let hold = self.ask(&bad, named)?;
                same("whether it is refused by 32", place < atoms, hold == Err(BAD_ANSWER))?;
            }
        }
        Ok(())
    }

    /// A damaged table, with any instance: mostly no ticket's, and then it is 31, whatever answer and instance are.
    fn no_table(&mut self, lent: &Lent) -> Result<(), Report> {
        let table = tickets::damaged(&mut self.random, &lent.table);
        let ticket = reference::ticket_in(&table);
        let mut answer = lent.answer.clone();
        if self.random.once_in(2) {
            answer[0] = 2;
        }
        let damaged = Lent { table, ticket, answer };
        for named in [arbitrary::instance(&mut self.random, damaged.ticket.as_ref()), (64, [32; 4])] {
            let hold = self.ask(&damaged, named)?;
            same("whether it is refused by 31", damaged.ticket.is_none(), hold == Err(NO_TABLE))?;
        }
        Ok(())
    }

    /// A short table, a short answer, or both: whatever else there is, it is 11.
    fn too_little(&mut self, lent: &Lent) -> Result<(), Report> {
        let (mut table, mut answer) = (lent.table.clone(), lent.answer.clone());
        let which = self.random.below(3);
        if which != 0 {
            table.truncate(less_than(&mut self.random, TABLE));
        }
        if which != 1 {
            answer.truncate(less_than(&mut self.random, ANSWER));
        }
        let named = arbitrary::instance(&mut self.random, None);
        let hold = self.ask(&Lent { table, ticket: None, answer }, named)?;
        same("a short buffer", Err(SHORT_BUFFER), hold)
    }

    /// One call by the library, which must give what the reference does, and change nothing.
    fn ask(&mut self, lent: &Lent, (clause, values): Named) -> Result<Result<u32, u8>, Report> {
        let expected = logic::holding(lent.table.len(), lent.ticket.as_ref(), &lent.answer, clause, values);
        let (table, answer) = (Memory::holding(&mut self.random, &lent.table), Memory::holding(&mut self.random, &lent.answer));
        let before = (table.clone(), answer.clone());
        let found = library::holding(table.lent(), answer.lent(), clause, values);
        let about = || format!("holding of clause {clause} with {values:?}, table:\n{}answer:\n{}", dump(&lent.table), dump(&lent.answer));
        same_answer(expected.map_or_else(|refusal| packed(refusal, 0), |hold| packed(0, hold)), found, about)?;
        same_bytes("table", &before.0, &table, about)?;
        same_bytes("answer", &before.1, &answer, about)?;
        self.tally.call(expected);
        Ok(expected)
    }
}

/// Whether an alternative of the instance is in the answer.
fn has_alternative(ticket: &Ticket, clause: &Clause, own: &[u8], answer: &[u8]) -> bool {
    clause.alternatives.iter().any(|atom| answer[number(ticket, atom, own)] == 1)
}

/// The values of 80, 81, 82, 83, with 0 for a variable that the clause lacks.
fn four(own: &[u8]) -> [u8; 4] {
    let mut four = [0; 4];
    four[..own.len()].copy_from_slice(own);
    four
}

fn any_number(random: &mut Random) -> u32 {
    random.pick(&[0, 1, 31, 32, 255, 256, 0x8000_0000, u32::MAX])
}

/// Numbers from `many` on, some with a last byte or the last two below it.
fn outside(random: &mut Random, many: usize) -> Vec<u32> {
    let below = random.below(many.max(1)) as u32;
    vec![many as u32, many as u32 + random.below(40) as u32, 255, 256 + below, 0x1_0000 + below, 0x8000_0000 + below, u32::MAX]
}

/// What a run has met: refusals, how many of n conditions hold, of instances with how many variables, which numbers were lacking, and
/// violated instances.
#[derive(Default)]
struct Met {
    calls: u64,
    refused: [u64; 4],
    hold: [[u64; 5]; 5],
    variables: [u64; 5],
    lacking: [u64; 5],
    violated: u64,
}

/// The refusals that each run must meet.
const REFUSALS: [u8; 4] = [SHORT_BUFFER, NO_TABLE, BAD_ANSWER, NO_INSTANCE];
const LACKING: [&str; 5] = ["a clause", "a value of 80", "a value of 81", "a value of 82", "a value of 83"];

impl Met {
    fn call(&mut self, answer: Result<u32, u8>) {
        self.calls += 1;
        if let Err(refusal) = answer {
            REFUSALS.iter().zip(&mut self.refused).filter(|(number, _)| **number == refusal).for_each(|(_, times)| *times += 1);
        }
    }

    fn hold(&mut self, conditions: usize, hold: Result<u32, u8>, variables: usize) {
        self.hold[conditions][hold.map_or(0, |hold| hold as usize)] += 1;
        self.variables[variables] += 1;
    }
}

impl Tally for Met {
    fn add(&mut self, other: &Met) {
        self.calls += other.calls;
        self.violated += other.violated;
        add_each(&mut self.refused, &other.refused);
        self.hold.iter_mut().zip(&other.hold).for_each(|(to, from)| add_each(to, from));
        add_each(&mut self.variables, &other.variables);
        add_each(&mut self.lacking, &other.lacking);
    }

    fn print(&self) {
        println!("refusals 11, 31, 32 and 44:{}", row(&self.refused));
        println!("conditions that hold        0        1        2        3        4");
        self.hold.iter().enumerate().for_each(|(n, times)| println!("            of {n} {}", row(&times[..=n])));
        println!("of instances with 0 to 4 variables:{}", row(&self.variables));
        println!("lacking {}:{}", LACKING.join(", "), row(&self.lacking));
        println!("violated, and all hold: {}", self.violated);
    }

    fn missing(&self) -> Vec<String> {
        let few = |names: &[String], times: &[u64]| -> Vec<String> {
            names.iter().zip(times).filter(|(_, times)| **times < 10).map(|(name, _)| name.clone()).collect()
        };
        let mut missing = few(&REFUSALS.map(|number| format!("refusal {number}")), &self.refused);
        for (n, times) in self.hold.iter().enumerate() {
            missing.extend((0..=n).filter(|hold| times[*hold] < 10).map(|hold| format!("{hold} of {n} conditions")));
        }
        missing.extend(few(&[0, 1, 2, 3, 4].map(|many| format!("{many} variables")), &self.variables));
        missing.extend(few(&LACKING.map(|what| format!("{what} that is lacking")), &self.lacking));
        missing.extend((self.violated == 0).then(|| "a violated instance".to_string()));
        missing
    }

    fn agreed(&self) -> String {
        format!("{} calls", self.calls)
    }
}
