//! The library's judge and the reference's on many random tables and answers: what they say must agree, and
//! no byte of any buffer may change. Usage: judge [NUMBER OF ANSWERS]. The same answers in every run.
mod library;
mod logic;
mod memory;
mod random;
mod reference;
mod report;
mod threads;
mod tickets;

use library::{packed, violated, FITTING};
use logic::{Atoms, Ground, Judging};
use memory::{less_than, same_bytes, Memory};
use random::Random;
use reference::{Ticket, ANSWER, BAD_ANSWER, NO_TABLE, SHORT_BUFFER, TABLE};
use report::{dump, same_answer, Report};
use threads::{add_each, row, Run, Tally};

const ANSWERS: u64 = 600_000;

/// Fittings are looked for where there are no more instances than these.
const SMALL: usize = 1500;

fn main() {
    threads::run("judge", ANSWERS, 101, run);
}

fn run(run: &mut Run<Met>, answers: u64) -> Result<(), Report> {
    for bytes in [[0x00; TABLE], [0xFF; TABLE]] {
        run.judging(&Table::of(bytes.to_vec()), &[0; ANSWER])?;
    }
    while run.tally.answers < answers {
        run.step()?;
    }
    Ok(())
}

/// 4,096 bytes and the ground instances of the ticket that they are the table of, if they are.
struct Table {
    bytes: Vec<u8>,
    ground: Option<Ground>,
}

impl Table {
    fn of(bytes: Vec<u8>) -> Table {
        let ground = reference::ticket_in(&bytes).map(|ticket| logic::ground(&ticket));
        Table { bytes, ground }
    }
}

impl Run<Met> {
    /// A ticket and many answers to it; then its table damaged, and buffers that are too short.
    fn step(&mut self) -> Result<(), Report> {
        let mut ticket = tickets::ticket(&mut self.random);
        let mut set = self.any_set(ticket.atoms() as usize);
        match self.random.below(8) {
            0..=3 => {}
            4 => tickets::spoil(&mut self.random, &mut ticket),
            _ => self.settle(&mut ticket, &set),
        }
        let table = Table::of(reference::encode(&ticket));
        let atoms = table.ground.as_ref().map_or(0, |ground| ground.atoms);
        set.resize(atoms, false);
        self.sets(&table, &set)?;
        self.bad_bytes(&table, &set)?;
        let damaged = Table::of(tickets::damaged(&mut self.random, &table.bytes));
        self.tally.other_tables += (damaged.ground.is_some() && damaged.bytes != table.bytes) as u64;
        self.judging(&damaged, &marks(&set))?;
        self.too_little(&table, &marks(&set))
    }

    /// This set, a random one, all atoms, none; fittings, and fittings with one atom more or less.
    fn sets(&mut self, table: &Table, set: &[bool]) -> Result<(), Report> {
        let another = self.any_set(set.len());
        let all = vec![true; set.len()];
        let none = vec![false; set.len()];
        for set in [set, &another, &all, &none] {
            self.judging(table, &marks(set))?;
        }
        let Some(ground) = &table.ground else { return Ok(()) };
        let starts = if ground.instances.len() <= SMALL { vec![set, &another, &all, &none] } else { vec![set] };
        for start in starts {
            if let Some(fitting) = fitting_near(&mut self.random, ground, start) {
                self.judging(table, &marks(&fitting))?;
                self.near_fitting(table, ground, fitting)?;
            }
        }
        Ok(())
    }

    /// A fitting with one atom flipped: each in turn where they are few, else one of some instances.
    fn near_fitting(&mut self, table: &Table, ground: &Ground, mut fitting: Atoms) -> Result<(), Report> {
        let mut flips: Vec<usize> = (0..fitting.len()).collect();
        if flips.len() > 8 {
            flips = (0..6.min(ground.instances.len())).filter_map(|_| self.atom_of_an_instance(ground)).collect();
        }
        for at in flips {
            fitting[at] = !fitting[at];
            self.judging(table, &marks(&fitting))?;
            fitting[at] = !fitting[at];
        }
        Ok(())
    }

    fn atom_of_an_instance(&mut self, ground: &Ground) -> Option<usize> {
        let instance = &ground.instances[self.random.below(ground.instances.len())];
        let atoms = [&instance.conditions[..], &instance.alternatives].concat();
        (!atoms.is_empty()).then(|| self.random.pick(&atoms))
    }

    /// A byte that is neither 0 nor 1: the last that counts, the first that does not, and any. Sometimes at every place.
    fn bad_bytes(&mut self, table: &Table, set: &[bool]) -> Result<(), Report> {
        let atoms = set.len();
        let any = self.random.below(ANSWER);
        let every = self.random.once_in(400);
        let places = if every { (0..ANSWER).collect() } else { vec![atoms.max(1) - 1, atoms, any] };
        for place in places {
            let mut marks = marks(set);
            marks.resize(ANSWER + 1, 0);
            marks[place] = self.random.pick(&[2, 2, 3, 0x10, 0x30, 0x31, 0x80, 0x81, 0xFE, 0xFF]);
            self.judging(table, &marks)?;
        }
        self.tally.every_place += every as u64;
        Ok(())
    }

    /// A short table, a short answer, or both: whatever the bytes are, it is 11.
    fn too_little(&mut self, table: &Table, marks: &[u8]) -> Result<(), Report> {
        let mut bytes = table.bytes.clone();
        let mut answer = marks.to_vec();
        answer.resize(ANSWER, 0);
        let which = self.random.below(3);
        if which != 0 {
            bytes.truncate(less_than(&mut self.random, TABLE));
        }
        if which != 1 {
            answer.truncate(less_than(&mut self.random, ANSWER));
        }
        let (table, answer) = (Memory::holding(&mut self.random, &bytes), Memory::holding(&mut self.random, &answer));
        self.compare(table, answer, Judging::Refused(SHORT_BUFFER))
    }

    /// One judging of an answer that begins with these marks and goes on at random.
    fn judging(&mut self, table: &Table, marks: &[u8]) -> Result<(), Report> {
        let mut bytes = table.bytes.clone();
        bytes.resize(TABLE + self.random.pick(&[0, 0, 1, 100]), 0xA5);
        let len = marks.len().max(ANSWER) + self.random.pick(&[0, 0, 1, 2, 57]);
        let answer = Memory::random(&mut self.random, len).beginning_with(marks);
        let expected = logic::judge(bytes.len(), table.ground.as_ref(), answer.lent());
        let lent = Memory::holding(&mut self.random, &bytes);
        self.compare(lent, answer, expected)
    }

    fn compare(&mut self, table: Memory, answer: Memory, expected: Judging) -> Result<(), Report> {
        self.tally.count(expected);
        let before = (table.clone(), answer.clone());
        let found = library::judge(table.lent(), answer.lent());
        let about = || {
            let (table, answer) = (table.lent(), answer.lent());
            format!("judging, table of {} bytes:\n{}answer of {}:\n{}", table.len(), dump(table), answer.len(), dump(answer))
        };
        same_answer(packed_judging(expected), found, about)?;
        same_bytes("table", &before.0, &table, about)?;
        same_bytes("answer", &before.1, &answer, about)
    }

    /// A set of atoms, from sparse to dense.
    fn any_set(&mut self, atoms: usize) -> Atoms {
        let density = self.random.pick(&[1, 8, 16, 24, 31]);
        (0..atoms).map(|_| self.random.below(32) < density).collect()
    }

    /// Leaves the clauses that the set satisfies, repeated up to the number there was, and puts one that it violates,
    /// if there is one, at any place.
    fn settle(&mut self, ticket: &mut Ticket, set: &[bool]) {
        if ticket.atoms() > 1024 {
            return;
        }
        let many = ticket.clauses.len().min(64);
        let ground = logic::ground(ticket);
        let mut is_violated = vec![false; ticket.clauses.len()];
        for instance in &ground.instances {
            is_violated[instance.clause] |= instance.is_violated(set);
        }
        let (against, with): (Vec<usize>, Vec<usize>) = (0..ticket.clauses.len()).partition(|k| is_violated[*k]);
        let mut chosen: Vec<usize> = with.iter().copied().cycle().take(if with.is_empty() { 0 } else { many }).collect();
        if !against.is_empty() && self.random.below(4) > 0 {
            let place = if self.random.once_in(2) { chosen.len() } else { self.random.below(chosen.len() + 1) };
            chosen.truncate(63);
            chosen.insert(place.min(chosen.len()), self.random.pick(&against));
        }
        ticket.clauses = chosen.into_iter().map(|k| ticket.clauses[k].clone()).collect();
    }
}

/// A fitting that a few repairs of this set lead to.
fn fitting_near(random: &mut Random, ground: &Ground, set: &[bool]) -> Option<Atoms> {
    let mut set = set.to_vec();
    for _ in 0..40 {
        let Some(instance) = ground.first_violated(&set) else { return Some(set) };
        let repairs: Vec<usize> = instance.conditions.iter().chain(&instance.alternatives).copied().collect();
        if repairs.is_empty() {
            return None;
        }
        let atom = random.pick(&repairs);
        set[atom] = !set[atom];
    }
    None
}

fn marks(set: &[bool]) -> Vec<u8> {
    set.iter().map(|is_in| *is_in as u8).collect()
}

fn packed_judging(judging: Judging) -> u64 {
    match judging {
        Judging::Refused(number) => packed(number, 0),
        Judging::Fitting => FITTING,
        Judging::Violated(clause, values) => violated(clause, values),
    }
}

/// What a run has met: how often each answer came.
struct Met {
    answers: u64,
    refused: [u64; 33],
    fitting: u64,
    violated: [u64; 64],
    past_first: [u64; 4],
    other_tables: u64,
    every_place: u64,
}

/// The refusals that each run must meet.
const REFUSALS: [u8; 3] = [SHORT_BUFFER, NO_TABLE, BAD_ANSWER];

impl Default for Met {
    fn default() -> Met {
        Met { answers: 0, refused: [0; 33], fitting: 0, violated: [0; 64], past_first: [0; 4], other_tables: 0, every_place: 0 }
    }
}

impl Met {
    fn count(&mut self, judging: Judging) {
        self.answers += 1;
        match judging {
            Judging::Refused(number) => self.refused[number as usize] += 1,
            Judging::Fitting => self.fitting += 1,
            Judging::Violated(clause, values) => {
                self.violated[clause as usize] += 1;
                for (i, value) in values.iter().enumerate() {
                    self.past_first[i] += (*value != 0) as u64;
                }
            }
        }
    }
}

impl Tally for Met {
    fn add(&mut self, other: &Met) {
        self.answers += other.answers;
        self.fitting += other.fitting;
        self.other_tables += other.other_tables;
        self.every_place += other.every_place;
        add_each(&mut self.refused, &other.refused);
        add_each(&mut self.violated, &other.violated);
        add_each(&mut self.past_first, &other.past_first);
    }

    fn print(&self) {
        for number in REFUSALS {
            println!("{number:8} {:8}", self.refused[number as usize]);
        }
        println!(" fitting {:8}", self.fitting);
        println!("violated {:8}, by clause:", self.violated.iter().sum::<u64>());
        for (i, times) in self.violated.chunks(8).enumerate() {
            println!("{:8}{}", 8 * i, row(times));
        }
        println!("violated with a value past 0 of 80, 81, 82, 83: {:?}", self.past_first);
        println!("changed tables that are again a ticket's: {}", self.other_tables);
        println!("answers with a bad byte at each place in turn: {}", self.every_place);
    }

    fn missing(&self) -> Vec<String> {
        let refusals = REFUSALS.iter().filter(|number| self.refused[**number as usize] == 0);
        let mut missing: Vec<String> = refusals.map(|number| format!("refusal {number}")).collect();
        missing.extend((self.fitting == 0).then(|| "fitting".to_string()));
        missing.extend((0..64).filter(|clause| self.violated[*clause] == 0).map(|clause| format!("violated clause {clause}")));
        missing.extend((0..4).filter(|i| self.past_first[*i] == 0).map(|i| format!("a value past 0 of {:X}", 0x80 + i)));
        missing
    }

    fn agreed(&self) -> String {
        format!("{} answers", self.answers)
    }
}
