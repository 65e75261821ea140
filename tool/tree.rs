//! Making the trail of a ticket: the root, and then the entries, in the walk's order. What is true at a place is the library's word, and so is
//! whether it is closed; how it is found otherwise is held against the library as it is made.

use crate::check::{confirms, Seen};
use crate::ending::Failure;
use crate::library::Verdict;
use crate::progress::Line;
use crate::source::Accepted;
use crate::ticket::Atom;
use crate::truth::Truth;
use crate::wanted::{Found, Marking, Way};

/// An entry: the place before it on its path, and the atom entered.
type Entry = (usize, Atom);

pub struct Place {
    /// the root has none
    pub entry: Option<Entry>,
    pub depth: usize,
    pub found: Found,
    /// in which stage, counted from 1, where marking is in stages and the place is not closed
    pub stage: Option<usize>,
    /// whether the library confirms how it is found
    pub confirmed: bool,
}

/// The root and the entries made, and the verdict.
pub struct Trail {
    pub places: Vec<Place>,
    pub verdict: Verdict,
}

/// A node of the path, with what is true there and the alternatives left, the next one last. One that is equal to an earlier one is not
/// among them.
struct Node {
    place: usize,
    truth: Vec<u8>,
    left: Vec<Atom>,
}

struct Walk<'a> {
    accepted: &'a Accepted,
    way: Way,
    truth: Truth,
    marking: Marking,
    places: Vec<Place>,
    path: Vec<Node>,
}

/// The trail under the ticket's limit.
pub fn trail(accepted: &Accepted, way: Way) -> Result<Trail, Failure> {
    let (truth, marking) = (Truth::of(&accepted.ticket)?, Marking::of(&accepted.ticket));
    let mut walk = Walk { accepted, way, truth, marking, places: Vec::new(), path: Vec::new() };
    let mut line = Line::new();
    walk.make(None)?;
    let verdict = loop {
        line.draw(|| format!("{} entries of at most {}", walk.places.len() - 1, accepted.ticket.limit));
        let Some(entry) = walk.next() else { break walk.end() };
        if walk.places.len() as u64 > accepted.ticket.limit as u64 {
            break Verdict::Spent;
        }
        walk.make(Some(entry))?;
    };
    Ok(Trail { places: walk.places, verdict })
}

impl Walk<'_> {
    /// The next entry, if the last place is not open and an alternative is left.
    fn next(&mut self) -> Option<Entry> {
        if self.is_open() {
            return None;
        }
        while let Some(node) = self.path.last_mut() {
            if let Some(atom) = node.left.pop() {
                return Some((node.place, atom));
            }
            self.path.pop();
        }
        None
    }

    fn is_open(&self) -> bool {
        matches!(self.places.last(), Some(Place { found: Found::Open(_), .. }))
    }

    /// The verdict where no entry follows.
    fn end(&self) -> Verdict {
        if self.is_open() { Verdict::Fits } else { Verdict::None }
    }

    /// Makes a place.
    fn make(&mut self, entry: Option<Entry>) -> Result<(), Failure> {
        let ticket = &self.accepted.ticket;
        let mut marks = self.path.last().map_or_else(|| vec![0; ticket.atoms()], |node| node.truth.clone());
        entry.iter().for_each(|(_, atom)| marks[ticket.number(atom)] = 1);
        let depth = self.path.len();
        let (found, stage, confirmed) = match self.truth.from(marks)? {
            Ok(truth) => self.find(&entry, truth)?,
            Err((clause, values)) => (Found::Closed(clause, values), None, true),
        };
        self.places.push(Place { entry, depth, found, stage, confirmed });
        Ok(())
    }

    /// How a place with these true atoms is found, in which stage, and whether that is confirmed. A split goes onto the path.
    fn find(&mut self, entry: &Option<Entry>, truth: Vec<u8>) -> Result<(Found, Option<usize>, bool), Failure> {
        let wanted = self.marking.wanted(self.way, &truth);
        let found = self.marking.find(&truth, &wanted);
        let before = self.path.iter().filter_map(|node| self.places[node.place].entry.as_ref());
        let entered: Vec<Atom> = before.chain(entry).map(|(_, atom)| atom.clone()).collect();
        let seen = Seen { entered: &entered, truth: &truth, wanted: &wanted, found: &found };
        let confirmed = confirms(self.accepted, &self.marking, &seen)?;
        if let Found::Split(clause, values) = &found {
            let [_, alternatives] = self.accepted.instance_atoms(*clause, values);
            let entered = |i: &usize| !alternatives[..*i].contains(&alternatives[*i]);
            let left = (0..alternatives.len()).rev().filter(entered).map(|i| alternatives[i].clone()).collect();
            self.path.push(Node { place: self.places.len(), truth, left });
        }
        Ok((found, Some(wanted.stages.len()).filter(|stage| *stage > 0), confirmed))
    }
}
