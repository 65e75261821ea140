//! A walk in one go, and in slices of which each goes on with the session that the one before it has left.

use crate::engines::{Engine, Lent};
use crate::grounded;
use crate::library::{self, fit, Session};
use crate::puzzles::{self, Puzzle};
use crate::reference::{self, Ticket, ANSWER, RULES, WORK};
use crate::timing::timed;
use crate::walk::Verdict;

pub const IN_SLICES: &str = "100 slices";
pub const IN_ONE_GO: &str = "one go";

/// More times the instructions of one go than this are too many.
pub const MOST: f64 = 1.3;

const SLICES: u32 = 100;

/// The paths of these walks are shorter.
const LONG: u32 = 100;

/// A walk by one of the library's engines.
pub struct Walk {
    pub name: String,
    engine: Engine,
    ticket: Ticket,
}

pub fn all() -> Vec<Walk> {
    let walk = |puzzle: &Puzzle, engine: Engine| Walk { name: format!("{}, {}", puzzle.name, engine.name()), engine, ticket: puzzle.ticket.clone() };
    puzzles::in_slices().iter().flat_map(|puzzle| Engine::LIBRARY.map(|engine| walk(puzzle, engine))).collect()
}

impl Walk {
    /// Makes the walk, and sees to it that its end is right.
    pub fn make(&self, program: &str) {
        match program {
            IN_ONE_GO => self.in_one_go(),
            _ => self.in_slices(),
        }
    }

    fn in_one_go(&self) {
        let (found, _) = Lent::new(&self.ticket).call(self.engine, 1);
        assert!(found == grounded::fit(&self.ticket), "{}: another end", self.name);
    }

    /// A first run and further ones, each with as many entries as a slice has.
    fn in_slices(&self) {
        let whole = grounded::fit(&self.ticket);
        let slice = whole.count.div_ceil(SLICES);
        let mut kept = Kept::new(&Ticket { limit: slice.to_be_bytes(), ..self.ticket.clone() });
        let (given, _) = timed(|| {
            kept.begin(self.engine);
            (1..SLICES).map(|_| kept.resume(self.engine, slice)).last()
        });
        assert_eq!(given, Some(fit(whole.verdict as u8, whole.count, whole.deepest)), "{}: another end", self.name);
        assert!(whole.deepest < LONG, "{}: a path of {} entries", self.name, whole.deepest);
        if let (Verdict::Fits, Some(fitting)) = (whole.verdict, whole.fitting) {
            assert!(kept.answer.iter().zip(fitting).all(|(mark, is_in)| *mark == is_in as u8), "{}: another fitting", self.name);
        }
    }
}

/// A session, with what is lent beside it.
struct Kept {
    session: Session,
    table: Vec<u8>,
    rules: Vec<u8>,
    answer: Vec<u8>,
    work: Vec<u8>,
}

impl Kept {
    fn new(ticket: &Ticket) -> Kept {
        let (table, rules, answer, work) = (reference::encode(ticket), vec![0; RULES], vec![0; ANSWER], vec![0; WORK]);
        Kept { session: Session::EMPTY, table, rules, answer, work }
    }

    fn begin(&mut self, engine: Engine) -> u64 {
        let Kept { session, table, rules, answer, work } = self;
        match engine {
            Engine::Magic => library::begin_magic(session, table, rules, answer, work),
            _ => library::begin_relevancy(session, table, answer, work),
        }
    }

    fn resume(&mut self, engine: Engine, further: u32) -> u64 {
        let Kept { session, table, rules, answer, work } = self;
        match engine {
            Engine::Magic => library::resume_magic(session, further, table, rules, answer, work),
            _ => library::resume_relevancy(session, further, table, answer, work),
        }
    }
}
