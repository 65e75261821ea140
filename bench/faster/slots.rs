//! Where a fact can stand: for each fact the slots, clause and position, that take it.

use super::atoms::Atoms;
use super::pattern::{Part, Pattern};

#[derive(Clone, Copy)]
pub struct Slot {
    pub clause: u16,
    pub position: u16,
}

/// A slot, the instances with the fact there, and the next link; the first link ends each list.
struct Link {
    slot: Slot,
    part: Part,
    next: u16,
}

/// A slot that takes all atoms of its predicate stands in one list of the predicate, any other in a list of each atom that
/// it takes.
pub struct Slots {
    of_predicate: [u16; 33],
    of_fact: Vec<u16>,
    links: Vec<Link>,
}

impl Slots {
    pub fn new(atoms: &Atoms) -> Slots {
        let end = Link { slot: Slot { clause: 0, position: 0 }, part: Part::default(), next: 0 };
        Slots { of_predicate: [0; 33], of_fact: vec![0; atoms.always as usize], links: vec![end] }
    }

    pub fn put(&mut self, slot: Slot, pattern: &Pattern) {
        let position = slot.position as usize;
        let Slots { of_predicate, of_fact, links } = self;
        let mut link = |head: &mut u16, part: Part| {
            let last = links.len() as u16;
            links.push(Link { slot, part, next: std::mem::replace(head, last) });
        };
        if pattern.takes_all(position) {
            return link(&mut of_predicate[pattern.predicate(position)], Part::default());
        }
        pattern.at(position, |fact, part| link(&mut of_fact[fact as usize], part));
    }

    /// Shows each slot that takes a fact, with the instances that have it there.
    pub fn each<'a>(&self, fact: u16, atoms: &Atoms, patterns: &'a [Pattern], mut show: impl FnMut(&'a Pattern, usize, Part)) {
        for Link { slot, part, .. } in self.list(self.of_fact[fact as usize]) {
            show(&patterns[slot.clause as usize], slot.position as usize, *part);
        }
        let head = self.of_predicate[atoms.predicate(fact)];
        if head != 0 {
            let arguments = atoms.arguments(fact);
            for Link { slot, .. } in self.list(head) {
                let (pattern, position) = (&patterns[slot.clause as usize], slot.position as usize);
                show(pattern, position, pattern.bind(position, &arguments));
            }
        }
    }

    fn list(&self, head: u16) -> impl Iterator<Item = &Link> {
        let mut at = head;
        std::iter::from_fn(move || {
            let link = &self.links[at as usize];
            (std::mem::replace(&mut at, link.next) != 0).then_some(link)
        })
    }
}
