//! A list made by rules of which each can be another: what is left out of the whole one, and row 84.

use super::reply;
use compare::against::{Reply, Services};
use compare::checks::{accept, Refusal, ENTRY, ROOM, SEQUENT};
use compare::plain::{self, is_left_out};
use compare::rows::{bytes_of, Row, ROW_BYTES};
use compare::sequents::{spell_out, whole_list, Entry, Sequent};
use compare::services::sequent_rows;
use compare::table::Table;

/// What a list is made by: what is left out of the whole one, what becomes of the others, and row 84.
#[derive(Clone, Copy)]
pub struct Rules {
    pub leaves_out: Rule,
    pub changes: fn(&Table, &mut Sequent),
    pub counts: Count,
}

/// Row 84 of a goal.
pub type Count = fn(&Table, Entry) -> [i32; 3];

/// Whether a sequent is left out.
pub type Rule = fn(&Table, &Sequent) -> bool;

pub const RIGHT: Rules = Rules {
    leaves_out: is_left_out,
    changes: |_, _| {},
    counts: plain::counted,
};

impl Rules {
    fn list(&self, bytes: &[u8]) -> Result<(Table, Vec<Sequent>), Refusal> {
        let table = accept(bytes)?;
        let mut list = whole_list(&table);
        list.retain(|one| !(self.leaves_out)(&table, one));
        for sequent in &mut list {
            (self.changes)(&table, sequent);
        }
        Ok((table, list))
    }

    fn sequent(&self, bytes: &[u8], k: u64) -> Result<Vec<Row>, Refusal> {
        let (table, list) = self.list(bytes)?;
        let sequent = place(k, list.len(), SEQUENT).map(|place| &list[place])?;
        Ok(sequent_rows(sequent, (self.counts)(&table, sequent.goal)))
    }

    fn entry(&self, bytes: &[u8], k: u64, j: u64) -> Result<Vec<Row>, Refusal> {
        let (table, list) = self.list(bytes)?;
        let entries = place(k, list.len(), SEQUENT).map(|place| list[place].entries())?;
        let entry = place(j, entries.len(), ENTRY).map(|place| entries[place])?;
        let spelled = spell_out(&table, entry).into_iter();
        Ok(spelled
            .map(|one| Row::new(83, one.operator, one.b, 0))
            .collect())
    }
}

/// The place of a number from 1 in a list of so many.
fn place(number: u64, count: usize, refusal: i32) -> Result<usize, Refusal> {
    let place = usize::try_from(number)
        .ok()
        .and_then(|one| one.checked_sub(1));
    place.filter(|&place| place < count).ok_or(Refusal {
        number: refusal,
        row: 0,
    })
}

fn written(rows: Result<Vec<Row>, Refusal>, out: &mut [u8]) -> Reply {
    let answer = rows.and_then(|rows| {
        let size = rows.len() * ROW_BYTES;
        let room = out.get_mut(..size);
        let room = room.ok_or(Refusal {
            number: ROOM,
            row: 0,
        })?;
        room.copy_from_slice(&bytes_of(&rows));
        Ok(rows.len())
    });
    reply(answer)
}

impl Services for Rules {
    fn stack(&self) -> usize {
        8 << 20
    }

    fn check(&self, table: &[u8]) -> Reply {
        reply(self.list(table).map(|(_, list)| list.len()))
    }

    fn write_sequent(&self, table: &[u8], k: u64, out: &mut [u8]) -> Reply {
        written(self.sequent(table, k), out)
    }

    fn spell_entry(&self, table: &[u8], k: u64, j: u64, out: &mut [u8]) -> Reply {
        written(self.entry(table, k, j), out)
    }
}
