//! Which places of a trail are drawn: all of a small one; of a large one as many as a viewer opens, the path to the last place first and then those next
//! to the root, with one box for all that is left out below a place.

use crate::source::Accepted;
use crate::ticket::Atom;
use crate::tree::Place;
use crate::wanted::Found;

/// Boxes at most, as long as a single place has not more of them below it.
const MOST: usize = 400;

pub enum Shown {
    Place(usize),
    /// so many entries below the place before it
    Folded(usize),
    /// an alternative of the place before it that was not entered
    Alternative(Atom),
}

/// A box, below another one, which comes before it; a box stands before those below it, and they before the next one beside it.
pub struct Box {
    pub above: Option<usize>,
    pub depth: usize,
    pub shown: Shown,
}

struct Fold<'a> {
    accepted: &'a Accepted,
    places: &'a [Place],
    entries: Vec<Vec<usize>>,
    /// the entries below each place
    below: Vec<usize>,
    unfolded: Vec<bool>,
}

pub fn boxes(accepted: &Accepted, places: &[Place]) -> Vec<Box> {
    let (mut entries, mut below) = (vec![Vec::new(); places.len()], vec![0; places.len()]);
    for i in (1..places.len()).rev() {
        if let Some((above, _)) = places[i].entry {
            entries[above].insert(0, i);
            below[above] += below[i] + 1;
        }
    }
    let mut fold = Fold { accepted, places, entries, below, unfolded: vec![false; places.len()] };
    fold.unfold();
    let mut boxes = Vec::new();
    fold.put(0, None, &mut boxes);
    boxes
}

impl Fold<'_> {
    /// Unfolds places as long as there are few boxes.
    fn unfold(&mut self) {
        let mut order: Vec<usize> = (0..self.places.len()).collect();
        order.sort_by_key(|i| self.places[*i].depth);
        let path = std::iter::successors(Some(self.places.len() - 1), |i| self.places[*i].entry.as_ref().map(|(above, _)| *above));
        let path: Vec<usize> = path.collect();
        let mut boxes = 1;
        for i in path.into_iter().rev().chain(order) {
            let is_seen = self.places[i].entry.as_ref().is_none_or(|(above, _)| self.unfolded[*above]);
            let more = self.entries[i].iter().map(|entry| 1 + (self.below[*entry] > 0) as usize).sum::<usize>() + self.left_out(i).len();
            if is_seen && !self.unfolded[i] && boxes + more <= MOST {
                self.unfolded[i] = true;
                boxes += more;
            }
        }
    }

    /// The alternatives of a split that were not entered.
    fn left_out(&self, i: usize) -> Vec<Atom> {
        let Found::Split(clause, values) = &self.places[i].found else { return Vec::new() };
        let [_, alternatives] = self.accepted.instance_atoms(*clause, values);
        let is_entered = |atom: &Atom| self.entries[i].iter().any(|entry| matches!(&self.places[*entry].entry, Some((_, entered)) if entered == atom));
        let is_first = |k: usize| !alternatives[..k].contains(&alternatives[k]);
        (0..alternatives.len()).filter(|k| is_first(*k) && !is_entered(&alternatives[*k])).map(|k| alternatives[k].clone()).collect()
    }

    /// Puts a place, and what is below it, behind the boxes.
    fn put(&self, i: usize, above: Option<usize>, boxes: &mut Vec<Box>) {
        let (own, depth) = (boxes.len(), self.places[i].depth);
        boxes.push(Box { above, depth, shown: Shown::Place(i) });
        if self.unfolded[i] {
            self.entries[i].iter().for_each(|entry| self.put(*entry, Some(own), boxes));
            let left = self.left_out(i).into_iter().map(|atom| Box { above: Some(own), depth: depth + 1, shown: Shown::Alternative(atom) });
            boxes.extend(left);
        } else if self.below[i] > 0 {
            boxes.push(Box { above: Some(own), depth: depth + 1, shown: Shown::Folded(self.below[i]) });
        }
    }
}
