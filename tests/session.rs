//! Sessions, by document 02: what a first run leaves, where a session stands, and what going on with it says and leaves. The walk is a list of nodes
//! that grows and shrinks, and the deepest figure is how far it ever grew; of `walk.rs` it has only the place that an engine finds under a list of
//! entered atoms. It shares nothing with the crates.
#![allow(dead_code)] // each program uses its own part

use crate::library::{Session, SESSION};
use crate::reference::{NO_SESSION, TOO_MANY_ENTRIES};
use crate::walk::{fitting, Engine, Found, Outcome, Place, Verdict};

/// The most entries that a session has room for.
pub const ROOM: usize = 1024;

/// What a call says that is not refused, and the session that it leaves.
#[derive(Clone, Debug, PartialEq, Eq)]
pub struct Told {
    pub outcome: Outcome,
    pub session: Session,
}

/// A first run under a limit.
pub fn begun(engine: &dyn Engine, limit: u32) -> Told {
    let root = Node::new(engine.place(&[]));
    Walk { engine, count: 0, deepest: 0, nodes: vec![root] }.run(limit)
}

/// Going on with a session, or the refusal: 41 by count and further limit alone, then 42.
pub fn resumed(engine: &dyn Engine, session: &Session, further: u32) -> Result<Told, u8> {
    if session.count as u64 + further as u64 > u32::MAX as u64 {
        return Err(TOO_MANY_ENTRIES);
    }
    let nodes = standing(engine, session).ok_or(NO_SESSION)?;
    Ok(Walk { engine, count: session.count, deepest: session.deepest, nodes }.run(further))
}

/// A node: how it is found, its different alternatives, and the next of them.
pub struct Node {
    pub place: Place,
    pub alternatives: Vec<usize>,
    pub next: usize,
}

impl Node {
    /// One of which no alternative is entered yet.
    pub fn new(place: Place) -> Node {
        let mut alternatives = Vec::new();
        if let Found::Split { alternatives: all, .. } = &place.found {
            for atom in all {
                if !alternatives.contains(atom) {
                    alternatives.push(*atom);
                }
            }
        }
        Node { place, alternatives, next: 0 }
    }

    /// How many atoms the ticket has: each fact but "false".
    fn atoms(&self) -> usize {
        self.place.truth.len() - 1
    }

    /// The alternative just before the next one.
    fn entered(&self) -> Option<usize> {
        self.next.checked_sub(1).and_then(|last| self.alternatives.get(last)).copied()
    }

    fn is_open(&self) -> bool {
        self.place.found == Found::Open
    }

    fn is_worked_off(&self) -> bool {
        !self.is_open() && self.next == self.alternatives.len()
    }
}

/// The nodes from the root to where a session stands, or none for 42.
pub fn standing(engine: &dyn Engine, session: &Session) -> Option<Vec<Node>> {
    if session.verdict > Verdict::Spent as u8 || session.length as usize > ROOM {
        return None;
    }
    let mut entered = Vec::new();
    let mut nodes = vec![Node::new(engine.place(&[]))];
    if !(session.length as u64..=nodes[0].atoms() as u64).contains(&(session.deepest as u64)) {
        return None;
    }
    for i in 0..session.length as usize {
        let (atom, node) = (session.atoms[i] as usize, nodes.last_mut()?);
        node.next = session.nexts[i] as usize;
        if node.entered() != Some(atom) {
            return None;
        }
        entered.push(atom);
        nodes.push(Node::new(engine.place(&entered)));
    }
    let is_root = session.length == 0;
    let last = nodes.last_mut()?;
    last.next = session.next as usize;
    let stands = match session.verdict {
        0 => is_root && last.is_worked_off(),
        1 => last.is_open(),
        _ => true,
    };
    (stands && last.next <= last.alternatives.len()).then_some(nodes)
}

struct Walk<'a> {
    engine: &'a dyn Engine,
    count: u32,
    deepest: u32,
    nodes: Vec<Node>,
}

impl Walk<'_> {
    /// Makes up to so many further entries.
    fn run(mut self, mut further: u32) -> Told {
        loop {
            if self.last().is_open() {
                return self.told(Verdict::Fits);
            }
            while self.nodes.len() > 1 && self.last().is_worked_off() {
                self.nodes.pop();
            }
            if self.last().is_worked_off() {
                return self.told(Verdict::None);
            }
            if further == 0 {
                return self.told(Verdict::Spent);
            }
            further -= 1;
            self.enter();
        }
    }

    fn last(&self) -> &Node {
        &self.nodes[self.nodes.len() - 1]
    }

    fn enter(&mut self) {
        self.count += 1;
        let last = self.nodes.len() - 1;
        self.nodes[last].next += 1;
        let entered: Vec<usize> = self.nodes.iter().filter_map(Node::entered).collect();
        self.deepest = self.deepest.max(entered.len() as u32);
        self.nodes.push(Node::new(self.engine.place(&entered)));
    }

    fn told(&self, verdict: Verdict) -> Told {
        let last = self.last();
        let fitting = (verdict == Verdict::Fits).then(|| fitting(&last.place));
        let (count, deepest) = (self.count, self.deepest);
        let path = &self.nodes[..self.nodes.len() - 1];
        let mut session = Session { count, length: path.len() as u16, verdict: verdict as u8, next: last.next as u8, deepest, ..Session::EMPTY };
        for (i, node) in path.iter().enumerate() {
            session.atoms[i] = node.entered().expect("an entry was made from it") as u16;
            session.nexts[i] = node.next as u8;
        }
        Told { outcome: Outcome { verdict, count, deepest, fitting }, session }
    }
}

// ---- The record as bytes ----

/// Where the atoms begin, the next alternatives of the nodes that they were entered from, and the deepest figure.
const ATOMS: usize = 8;
const NEXTS: usize = ATOMS + 2 * ROOM;
const DEEPEST: usize = NEXTS + ROOM;

/// As the header has it: the fields one after the other, of each number the low byte first.
pub fn bytes(session: &Session) -> Vec<u8> {
    let mut bytes = session.count.to_le_bytes().to_vec();
    bytes.extend(session.length.to_le_bytes());
    bytes.extend([session.verdict, session.next]);
    bytes.extend(session.atoms.iter().flat_map(|atom| atom.to_le_bytes()));
    bytes.extend(session.nexts);
    bytes.extend(session.deepest.to_le_bytes());
    bytes
}

pub fn of_bytes(bytes: &[u8]) -> Session {
    assert_eq!(bytes.len(), SESSION, "a session's bytes");
    let atom = |i: usize| u16::from_le_bytes([bytes[ATOMS + 2 * i], bytes[ATOMS + 2 * i + 1]]);
    let number = |at: usize| u32::from_le_bytes(std::array::from_fn(|i| bytes[at + i]));
    Session {
        count: number(0),
        length: u16::from_le_bytes([bytes[4], bytes[5]]),
        verdict: bytes[6],
        next: bytes[7],
        atoms: std::array::from_fn(atom),
        nexts: std::array::from_fn(|i| bytes[NEXTS + i]),
        deepest: number(DEEPEST),
    }
}
