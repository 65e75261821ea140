//! Further fittings. Each is one of the ticket with rules that forbid the entered atoms of every fitting before to hold together; a rule has four
//! conditions at most, and more of them go through helper predicates. It must be a fitting of the ticket itself.

use crate::carry::Carry;
use crate::ending::Failure;
use crate::engines::agreed;
use crate::fitting::Fitting;
use crate::library::{self, Moved, Verdict};
use crate::source::Accepted;
use crate::ticket::{Atom, Clause, Ticket};

pub struct Further<'a> {
    pub fittings: Vec<Fitting<'a>>,
    /// whether there can be others, in words
    pub others: &'static str,
}

const CONDITIONS: usize = 4;

/// After the first one, until there are so many together.
pub fn further<'a>(carry: &Carry<'a>, first: &Moved, many: u32) -> Result<Further<'a>, Failure> {
    let (mut at, mut ticket, mut fittings) = (first.clone(), carry.accepted.ticket.clone(), Vec::new());
    let others = loop {
        if fittings.len() as u32 + 1 >= many {
            break "others may exist";
        }
        if at.session.length == 0 {
            break "others may exist: the walk entered no atom that a rule could forbid";
        }
        let Some(next) = forbidding(&ticket, &at, carry.most) else {
            break "others may exist: the rules that forbid these are more than a ticket can have";
        };
        let walk = agreed(carry.engines, &next)?;
        match walk.at.fit.verdict {
            Verdict::None => break "no others: every fitting has the entered atoms of one of these",
            Verdict::Spent => break "others may exist: the walk to the next one is spent",
            Verdict::Fits => fittings.push(Fitting::of(carry.accepted, &next.ticket, &walk.at)?),
        }
        (at, ticket) = (walk.at, next.ticket);
    };
    Ok(Further { fittings, others })
}

/// The ticket with a rule by which the entered atoms do not hold together, if it can have that.
fn forbidding(ticket: &Ticket, at: &Moved, limit: u32) -> Option<Accepted> {
    let (atoms, mut longer) = (ticket.ground_atoms(), ticket.with_limit(limit));
    let mut left: Vec<Atom> = at.entered().map(|atom| atoms[atom].clone()).collect();
    while left.len() > CONDITIONS {
        let helper = Atom { predicate: u8::try_from(longer.arities.len()).ok()?, arguments: Vec::new() };
        let rest = left.split_off(CONDITIONS);
        longer.arities.push(0);
        longer.clauses.push(Clause { conditions: left, alternatives: vec![helper.clone()] });
        left = std::iter::once(helper).chain(rest).collect();
    }
    longer.clauses.push(Clause { conditions: left, alternatives: Vec::new() });
    let table = library::read(&longer.text()).ok()?;
    Some(Accepted { table, ticket: longer, names: None, origins: Vec::new(), numbers: Vec::new() })
}
