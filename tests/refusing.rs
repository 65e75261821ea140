//! What operations on a ticket's table refuse alike, and what each run of their test must meet of it: tickets of any size, tables that are none, and buffers
//! that are too short, by what `oracle` has of them.

use crate::arbitrary;
use crate::library::packed;
use crate::memory::{less_than, Memory};
use crate::met::{Met, Required};
use crate::operations::{Buffer, Lent, Operation, BUFFERS};
use crate::oracle;
use crate::random::Random;
use crate::reference::{self, Ticket, NO_TABLE, SHORT_BUFFER};
use crate::report::{same, Report};
use crate::threads::Run;
use crate::tickets;

const REFUSED: &str = "refused";

/// The buffers that can be too short.
const SHORT: [Buffer; 4] = [Buffer::Table, Buffer::Answer, Buffer::Work, Buffer::Rules];

/// Buffers that are long enough, or longer, with any bytes in them but for the table.
pub fn lend(random: &mut Random, table: &[u8]) -> Lent {
    let buffers = BUFFERS.map(|buffer| {
        let more = if SHORT.contains(&buffer) { random.pick(&[0, 0, 1, 57]) } else { 0 };
        let memory = Memory::random(random, buffer.required() + more);
        if buffer == Buffer::Table { memory.beginning_with(table) } else { memory }
    });
    Lent { buffers, clause: 0, values: [0; 4], further: 0 }
}

/// The buffers of some operations that can be too short.
fn short_of(operations: &[Operation]) -> impl Iterator<Item = Buffer> + '_ {
    SHORT.into_iter().filter(|buffer| operations.iter().any(|operation| operation.buffers().contains(buffer)))
}

/// The refusals that a test of these operations must meet.
pub fn required(operations: &[Operation]) -> Vec<(&'static str, String)> {
    let short = short_of(operations).map(|buffer| (REFUSED, format!("11 by {buffer:?}")));
    [(REFUSED, "31".to_string())].into_iter().chain(short).collect()
}

impl<R: Required> Run<Met<R>> {
    /// A ticket of any size, a table that is none, or buffers that are too short.
    pub fn refuse(&mut self, operations: &[Operation], ticket: &Ticket) -> Result<(), Report> {
        match self.random.below(3) {
            0 => self.any_size(operations),
            1 => self.no_table(operations, ticket),
            _ => self.too_little(operations, ticket),
        }
    }

    /// A ticket of any size, valid or not, with a limit that is soon reached.
    fn any_size(&mut self, operations: &[Operation]) -> Result<(), Report> {
        let limit = self.random.below(4) as u32;
        let ticket = Ticket { limit: limit.to_be_bytes(), ..tickets::ticket(&mut self.random) };
        let lent = lend(&mut self.random, &reference::encode(&ticket));
        self.as_expected(operations, &lent).map(drop)
    }

    /// A damaged table, mostly no ticket's: then it is 31.
    fn no_table(&mut self, operations: &[Operation], ticket: &Ticket) -> Result<(), Report> {
        let mut table = tickets::damaged(&mut self.random, &reference::encode(ticket));
        table[4..8].copy_from_slice(&[0, 0, 0, 2]);
        let is_table = reference::ticket_in(&table).is_some();
        let lent = lend(&mut self.random, &table);
        let numbers = self.as_expected(operations, &lent)?;
        self.tally.note(REFUSED, if is_table { "no".to_string() } else { "31".to_string() });
        same("whether it is refused by 31", !is_table, numbers.iter().all(|number| *number == NO_TABLE))
    }

    /// A buffer that is too short: whatever the table is, it is 11.
    fn too_little(&mut self, operations: &[Operation], ticket: &Ticket) -> Result<(), Report> {
        let table = if self.random.once_in(2) { reference::encode(ticket) } else { arbitrary::bytes(&mut self.random, reference::TABLE) };
        for buffer in short_of(operations) {
            let mut lent = lend(&mut self.random, &table);
            lent[buffer] = lent[buffer].truncated(less_than(&mut self.random, buffer.required()));
            for operation in operations.iter().filter(|operation| operation.buffers().contains(&buffer)) {
                self.tally.calls += 1;
                self.tally.note(REFUSED, format!("11 by {buffer:?}"));
                lent.agrees(*operation, packed(SHORT_BUFFER, 0), &lent)?;
            }
        }
        Ok(())
    }

    /// A call by each operation, as `oracle` has it: the refusals.
    fn as_expected(&mut self, operations: &[Operation], lent: &Lent) -> Result<Vec<u8>, Report> {
        let mut numbers = Vec::new();
        for operation in operations {
            let (answer, left) = oracle::expected(*operation, lent);
            self.tally.calls += 1;
            lent.agrees(*operation, answer, &left)?;
            numbers.push(answer as u8);
        }
        Ok(numbers)
    }
}
