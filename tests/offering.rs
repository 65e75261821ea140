//! Rules offered and set, by the library and by what `slip.rs` has of document 02, on many random tables, frames and slips: each refusal, by which fault
//! of two it comes, offers in between, slips and tables that nobody would hand out. A table after a setting must be, byte for byte, what the library reads the
//! longer text to. Usage: offering [NUMBER OF CALLS]. The same calls in every run.
mod arbitrary;
mod by_hand;
mod library;
mod logic;
mod mangle;
mod memory;
mod met;
mod random;
mod reference;
mod report;
mod slip;
mod stages;
mod threads;
mod tickets;
mod walk;

use by_hand::written;
use library::packed;
use memory::{less_than, same_bytes, Memory};
use met::Required;
use random::Random;
use reference::{clause_frame, Clause, Ticket, MOST_CLAUSES, SLIP, TABLE};
use report::{dump, same, same_answer, Report};
use slip::{filled, text_with, Why, CLAUSE, ROOM, WHYS};
use threads::Run;

const CALLS: u64 = 300_000;

fn main() {
    threads::run("offering", CALLS, 701, run);
}

fn run(run: &mut Run<Met>, calls: u64) -> Result<(), Report> {
    if run.number == 0 {
        by_hand::offers_and_sets()?;
    }
    while run.tally.calls < calls {
        run.step()?;
    }
    Ok(())
}

/// A table, and its ticket if it is one's. Bytes may follow the table's.
struct Lent {
    table: Vec<u8>,
    ticket: Option<Ticket>,
}

impl Lent {
    fn of_table(table: Vec<u8>) -> Lent {
        let ticket = table.get(..TABLE).and_then(reference::ticket_in);
        Lent { table, ticket }
    }

    fn count(&self) -> u8 {
        self.table[2]
    }
}

impl Run<Met> {
    /// A ticket, what is offered to it and what is set in it; then tables that are none, and buffers that are too short.
    fn step(&mut self) -> Result<(), Report> {
        let drawn = self.ticket();
        let mut table = reference::encode(&drawn);
        let more = self.random.pick(&[0, 0, 1, 57]);
        table.extend(arbitrary::bytes(&mut self.random, more));
        let mut lent = Lent::of_table(table);
        if let Some(ticket) = &lent.ticket {
            if self.random.once_in(20) {
                self.grows(ticket)?;
            }
            self.offers(&lent)?;
            self.goes_on(&lent)?;
            self.slips(&lent)?;
            for _ in 0..self.random.pick(&[1, 1, 1, 4]) {
                lent = self.sets(lent)?;
            }
        }
        self.no_table(&lent)?;
        self.too_little(&lent)
    }

    /// One of any size, small, with 62 to 64 clauses, or with a sum near the most.
    fn ticket(&mut self) -> Ticket {
        let random = &mut self.random;
        match random.below(8) {
            0..=2 => tickets::to_walk(random),
            3..=5 => tickets::ticket(random),
            6 => tickets::marks_near_limit(random),
            _ => nearly_full(random),
        }
    }

    /// All clauses of a ticket, offered and set one after another, make its table out of the one without clauses.
    fn grows(&mut self, ticket: &Ticket) -> Result<(), Report> {
        let none = Ticket { clauses: Vec::new(), ..ticket.clone() };
        let mut lent = Lent::of_table(reference::encode(&none));
        for clause in &ticket.clauses {
            let refused = |why: Why| format!("{why:?} of a clause of an accepted ticket");
            let held = self.offer_over_any(&lent, &clause_frame(clause))?.map_err(refused)?;
            lent = self.set(&lent, &held)?.map_err(refused)?;
        }
        self.tally.note(GROWN, "all".to_string());
        same("the table of all clauses", dump(&reference::encode(ticket)), dump(&lent.table))
    }

    /// Frames of all kinds, and no bytes.
    fn offers(&mut self, lent: &Lent) -> Result<(), Report> {
        for _ in 0..6 {
            let frame = arbitrary::frame(&mut self.random, lent.ticket.as_ref());
            self.offer_over_any(lent, &frame).map(drop)?;
        }
        self.offer_over_any(lent, &[]).map(drop)
    }

    /// A frame, and then the same with bytes after it, up to and past what a line holds: an earlier fault stays, and any other frame has bytes left over.
    fn goes_on(&mut self, lent: &Lent) -> Result<(), Report> {
        let mut frame = arbitrary::frame(&mut self.random, lent.ticket.as_ref());
        frame.truncate(ROOM);
        let said = self.offer_over_any(lent, &frame)?.map(drop);
        if matches!(said, Err(Why::Missing | Why::NoBytes)) {
            return Ok(());
        }
        let expected = match said {
            Err(Why::OtherKind | Why::Full | Why::Count | Why::Unknown | Why::Numbering) => said,
            _ => Err(Why::LeftOver),
        };
        let lengths = [frame.len() + 1, 36, 37, self.random.within(38, 254), self.random.pick(&[255, 256]), self.random.pick(&[257, 258, 511, 65536])];
        for len in lengths.into_iter().filter(|len| *len > frame.len()) {
            let mut longer = arbitrary::bytes(&mut self.random, len);
            longer[..frame.len()].copy_from_slice(&frame);
            same("a frame that goes on", expected, self.offer_over_any(lent, &longer)?.map(drop))?;
            self.tally.note(class(longer.len()), named(said.err()));
        }
        Ok(())
    }

    /// Slips that nobody has offered: whatever the clause, the count comes first, then a length that there is no room for; what the frame does not take
    /// is not looked at.
    fn slips(&mut self, lent: &Lent) -> Result<(), Report> {
        let ticket = lent.ticket.as_ref();
        let mut held = arbitrary::bytes(&mut self.random, SLIP);
        for _ in 0..4 {
            held = arbitrary::slip(&mut self.random, &held, ticket);
            let said = self.set(lent, &held)?.map(drop);
            let mut stale = held.clone();
            stale[0] = lent.count().wrapping_add(1 + self.random.below(255) as u8);
            same("another number of clauses", Err(Why::Stale), self.set(lent, &stale)?.map(drop))?;
            self.tally.note(STALE, named(said.err()));
            let mut no_room = held.clone();
            (no_room[0], no_room[1]) = (lent.count(), self.random.pick(&[36, 37, 38, 64, 128, 254, 255]));
            same("a length without room", Err(Why::NoRoom), self.set(lent, &no_room)?.map(drop))?;
            held[0] = lent.count();
            let said = self.set(lent, &held)?.map(|left| left.table);
            let rest = 2 + (held[1] as usize).min(ROOM);
            self.random.fill(&mut held[rest..]);
            same("other bytes past the frame", said, self.set(lent, &held)?.map(|left| left.table))?;
        }
        Ok(())
    }

    /// A rule that can be added is offered; then others are, into the same slip or another. The slip that the first or the last of them has left is
    /// set, and then set again. What is left is gone on with.
    fn sets(&mut self, lent: Lent) -> Result<Lent, Report> {
        let Some(mut frame) = self.addable(&lent) else { return Ok(lent) };
        let mut held = self.offer_over_any(&lent, &frame)?.map_err(|why| format!("{why:?} of what can be added"))?;
        for _ in 0..self.random.below(5) {
            let other = arbitrary::frame(&mut self.random, lent.ticket.as_ref());
            let into_same = self.random.once_in(2);
            let over = if into_same { held.clone() } else { arbitrary::bytes(&mut self.random, SLIP) };
            let said = self.offer(&lent, &other, &over)?;
            if into_same && said.is_ok() {
                (held, frame) = (said.unwrap_or_default(), other);
            }
            self.tally.note(BETWEEN, if into_same { "the same" } else { "another slip" }.to_string());
        }
        let left = self.set(&lent, &held)?.map_err(|why| format!("{why:?} of what was offered: {held:02X?}"))?;
        self.reads_the_same(&lent, &frame, &left)?;
        same("set twice", Err(Why::Stale), self.set(&left, &held)?.map(drop))?;
        self.tally.note(ADDED, format!("{:02}", left.count()));
        Ok(left)
    }

    /// A frame that can be added: the first of some that the judge takes, or one without atoms; none where the ticket is full.
    fn addable(&mut self, lent: &Lent) -> Option<Vec<u8>> {
        let ticket = lent.ticket.as_ref()?;
        let drawn = (0..4).map(|_| clause_frame(&tickets::next_clause(&mut self.random, ticket)));
        drawn.chain([vec![CLAUSE, 0, 0]]).find(|frame| slip::next_clause(ticket, frame).is_ok())
    }

    /// By the library alone: the table that is left is written out as the longer text, and this is read to it.
    fn reads_the_same(&mut self, before: &Lent, frame: &[u8], left: &Lent) -> Result<(), Report> {
        let longer = text_with(&written(&before.table)?, frame);
        same("the longer text", longer.escape_ascii().to_string(), written(&left.table)?.escape_ascii().to_string())?;
        let mut read = arbitrary::bytes(&mut self.random, TABLE);
        same("reading the longer text", 0, library::read(&longer, &mut read))?;
        same("the table of the longer text", dump(&read), dump(&left.table[..TABLE]))
    }

    /// A damaged table: mostly no ticket's, and then it is 31, whatever frame and slip are.
    fn no_table(&mut self, lent: &Lent) -> Result<(), Report> {
        let mut table = lent.table.clone();
        let damaged = tickets::damaged(&mut self.random, &table[..TABLE]);
        table[..TABLE].copy_from_slice(&damaged);
        let damaged = Lent::of_table(table);
        let is_none = damaged.ticket.is_none();
        let any = damaged.ticket.as_ref().or(lent.ticket.as_ref());
        for frame in [arbitrary::frame(&mut self.random, any), Vec::new()] {
            let said = self.offer_over_any(&damaged, &frame)?;
            same("whether an offer is refused by 31", is_none, said == Err(Why::NoTable))?;
        }
        let held = arbitrary::bytes(&mut self.random, SLIP);
        for held in [arbitrary::slip(&mut self.random, &held, any), filled(damaged.count().wrapping_add(1), &[])] {
            let said = self.set(&damaged, &held)?.map(drop);
            same("whether a setting is refused by 31", is_none, said == Err(Why::NoTable))?;
        }
        Ok(())
    }

    /// A short table, a short slip, or both: whatever else there is, it is 11.
    fn too_little(&mut self, lent: &Lent) -> Result<(), Report> {
        let frame = arbitrary::frame(&mut self.random, lent.ticket.as_ref());
        let mut held = filled(lent.count(), &frame[..frame.len().min(ROOM)]);
        let mut table = lent.table.clone();
        let which = self.random.below(3);
        if which != 0 {
            table.truncate(less_than(&mut self.random, TABLE));
        }
        if which != 1 {
            held.truncate(less_than(&mut self.random, SLIP));
        }
        let (short, expected) = (Lent::of_table(table), if which == 0 { Why::ShortSlip } else { Why::ShortTable });
        same("a short buffer for an offer", Err(expected), self.offer(&short, &frame, &held)?.map(drop))?;
        same("a short buffer for a setting", Err(expected), self.set(&short, &held)?.map(drop))
    }

    /// An offer over a slip of any bytes, at times more than there must be.
    fn offer_over_any(&mut self, lent: &Lent, frame: &[u8]) -> Result<Result<Vec<u8>, Why>, Report> {
        let len = SLIP + self.random.pick(&[0, 0, 1, 57]);
        let over = arbitrary::bytes(&mut self.random, len);
        let said = self.offer(lent, frame, &over)?;
        Ok(said.map(|mut slip| {
            slip.truncate(SLIP);
            slip
        }))
    }

    /// One offer by the library, which must answer as document 02 has it; the slip's bytes afterwards. No other byte changes, and none after a refusal.
    fn offer(&mut self, lent: &Lent, frame: &[u8], over: &[u8]) -> Result<Result<Vec<u8>, Why>, Report> {
        let expected = slip::offer(lent.table.len(), over.len(), lent.ticket.as_ref(), frame);
        let (table, bytes) = (Memory::holding(&mut self.random, &lent.table), Memory::holding(&mut self.random, frame));
        let mut held = Memory::random(&mut self.random, over.len()).beginning_with(over);
        let left = held.beginning_with(expected.as_deref().unwrap_or_default());
        let before = (table.clone(), bytes.clone());
        let found = library::offer(table.lent(), bytes.lent(), held.lent_mut());
        let about = || format!("offer of {frame:02X?}, table:\n{}", dump(&lent.table));
        same_answer(expected.as_ref().map_or_else(|why| packed(why.number(), 0), |_| 0), found, about)?;
        same_bytes("table", &before.0, &table, about)?;
        same_bytes("frame", &before.1, &bytes, about)?;
        same_bytes("slip", &left, &held, about)?;
        self.tally.call(OFFERS, expected.as_ref().err().copied());
        Ok(expected.map(|_| held.lent().to_vec()))
    }

    /// One setting by the library, likewise; the table afterwards.
    fn set(&mut self, lent: &Lent, held: &[u8]) -> Result<Result<Lent, Why>, Report> {
        let expected = slip::set(lent.table.len(), lent.ticket.as_ref(), held);
        let mut table = Memory::random(&mut self.random, lent.table.len()).beginning_with(&lent.table);
        let left = table.beginning_with(&expected.as_ref().map(reference::encode).unwrap_or_default());
        let bytes = Memory::holding(&mut self.random, held);
        let before = bytes.clone();
        let found = library::set(table.lent_mut(), bytes.lent());
        let about = || format!("setting of {held:02X?}, table:\n{}", dump(&lent.table));
        same_answer(expected.as_ref().map_or_else(|why| packed(why.number(), 0), |_| 0), found, about)?;
        same_bytes("slip", &before, &bytes, about)?;
        same_bytes("table", &left, &table, about)?;
        self.tally.call(SETTINGS, expected.as_ref().err().copied());
        Ok(expected.map(|ticket| Lent { table: table.lent().to_vec(), ticket: Some(ticket) }))
    }
}

/// A small ticket that is filled up to 62, 63 or 64 clauses.
fn nearly_full(random: &mut Random) -> Ticket {
    let mut ticket = tickets::to_walk(random);
    let wanted = random.within(MOST_CLAUSES - 2, MOST_CLAUSES);
    while ticket.clauses.len() < wanted {
        let next = tickets::next_clause(random, &ticket);
        let fits = slip::next_clause(&ticket, &clause_frame(&next)).is_ok();
        ticket.clauses.push(if fits { next } else { Clause::new(&[], &[]) });
    }
    ticket
}

/// Of rules offered and set.
#[derive(Default)]
struct Offered;

type Met = met::Met<Offered>;

const OFFERS: &str = "offers";
const SETTINGS: &str = "settings";
const STALE: &str = "43, else";
const BETWEEN: &str = "offers in between, into";
const ADDED: &str = "clauses set as number";
const GROWN: &str = "clauses set that a ticket has";

/// How far frames have gone on after a fault, or after all that is asked for.
const LENGTHS: [&str; 6] = [
    "frames gone on to 35 bytes",
    "frames gone on to 36 bytes",
    "frames gone on to 37 bytes",
    "frames gone on to 254 bytes",
    "frames gone on to 256 bytes",
    "frames gone on further",
];

fn class(len: usize) -> &'static str {
    let last = [35, 36, 37, 254, 256];
    LENGTHS[last.iter().take_while(|last| len > **last).count()]
}

fn named(why: Option<Why>) -> String {
    why.map_or("done".to_string(), |why| format!("{} {why:?}", why.number()))
}

impl Required for Offered {
    fn required() -> Vec<(&'static str, String)> {
        let reasons: Vec<Option<Why>> = WHYS.iter().map(|why| Some(*why)).chain([None]).collect();
        let of = |kind: &'static str, is_met: fn(Why) -> bool| {
            let met = reasons.clone().into_iter().filter(move |why| why.is_none_or(is_met));
            met.map(move |why| (kind, named(why)))
        };
        let mut required: Vec<(&str, String)> = of(OFFERS, |why| !matches!(why, Why::Stale | Why::NoRoom)).collect();
        required.extend(of(SETTINGS, |_| true));
        required.extend(of(STALE, |why| why >= Why::NoRoom));
        for length in LENGTHS {
            required.extend(of(length, |why| why >= Why::OtherKind && !matches!(why, Why::Missing | Why::LeftOver)));
        }
        required.push((GROWN, "all".to_string()));
        required.extend(["another slip", "the same"].map(|name| (BETWEEN, name.to_string())));
        required.extend(["01", "63", "64"].map(|number| (ADDED, number.to_string())));
        required
    }
}

impl Met {
    fn call(&mut self, kind: &'static str, why: Option<Why>) {
        self.calls += 1;
        self.note(kind, named(why));
    }
}
