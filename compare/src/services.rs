//! The services: check, write sequent k, spell entry j of sequent k, and print.

use crate::checks::{accept, Refusal, ENTRY, ROOM, SEQUENT};
use crate::formula::Symbol;
use crate::mentioned::{counted, Mentioned};
use crate::plain;
use crate::rows::{bytes_of, Row, ROW_BYTES};
use crate::sequents::{list, spell_out, Sequent};
use crate::table::Table;

/// A table read once, for any number of calls: what was accepted, or its refusal.
pub struct Answers {
    accepted: Result<Accepted, Refusal>,
}

/// A table and its sequents.
struct Accepted {
    table: Table,
    list: Vec<Sequent>,
    counting: Counting,
}

/// How row 84 is worked out: from sets of identifiers made once, or from the goal's rows 83.
enum Counting {
    Sets(Mentioned),
    Spelled,
}

impl Answers {
    pub fn of(table: &[u8]) -> Answers {
        let accepted = accept(table).map(|table| {
            let mentioned = Mentioned::of(&table);
            Accepted {
                list: list(&table, &mentioned),
                counting: Counting::Sets(mentioned),
                table,
            }
        });
        Answers { accepted }
    }

    /// The same answers with the list and row 84 worked out from spelled rows, one sequent at a time.
    pub fn plain(table: &[u8]) -> Answers {
        let accepted = accept(table).map(|table| Accepted {
            list: plain::sequents(&table),
            counting: Counting::Spelled,
            table,
        });
        Answers { accepted }
    }

    fn accepted(&self) -> Result<&Accepted, Refusal> {
        self.accepted.as_ref().map_err(|&refusal| refusal)
    }

    /// The count of sequents.
    pub fn check(&self) -> Result<usize, Refusal> {
        Ok(self.accepted()?.list.len())
    }

    /// The rows of sequent k (from 1).
    pub fn sequent(&self, k: usize) -> Result<Vec<Row>, Refusal> {
        let accepted = self.accepted()?;
        let sequent = numbered(&accepted.list, k, SEQUENT)?;
        let identifiers = match &accepted.counting {
            Counting::Sets(mentioned) => counted(mentioned.in_entry(sequent.goal)),
            Counting::Spelled => plain::counted(&accepted.table, sequent.goal),
        };
        Ok(sequent_rows(sequent, identifiers))
    }

    /// The numbers of all sequents of this kind.
    pub fn of_kind(&self, kind: i32) -> Vec<u64> {
        let list = self.accepted.iter().flat_map(|one| &one.list);
        let numbered = list.zip(1..).filter(|one| one.0.kind == kind);
        numbered.map(|one| one.1).collect()
    }

    /// How many entries sequent k (from 1) has.
    pub fn entries(&self, k: usize) -> Result<usize, Refusal> {
        let sequent = numbered(&self.accepted()?.list, k, SEQUENT)?;
        Ok(sequent.hypotheses.len() + 1)
    }

    /// The rows of entry j (from 1, the goal last) of sequent k.
    pub fn entry(&self, k: usize, j: usize) -> Result<Vec<Row>, Refusal> {
        let Accepted { table, list, .. } = self.accepted()?;
        let entries = numbered(list, k, SEQUENT)?.entries();
        let entry = numbered(&entries, j, ENTRY)?;
        let row = |symbol: Symbol| Row::new(83, symbol.operator, symbol.b, 0);
        Ok(spell_out(table, *entry).into_iter().map(row).collect())
    }
}

/// Accepts a table by giving the count of its sequents.
pub fn check(table: &[u8]) -> Result<usize, Refusal> {
    Answers::of(table).check()
}

/// Writes sequent k (from 1) and gives the number of rows.
pub fn write_sequent(table: &[u8], k: usize, out: &mut [u8]) -> Result<usize, Refusal> {
    write_rows(&Answers::of(table).sequent(k)?, out)
}

/// Spells entry j (from 1, the goal last) of sequent k and gives the number of rows.
pub fn spell_entry(table: &[u8], k: usize, j: usize, out: &mut [u8]) -> Result<usize, Refusal> {
    write_rows(&Answers::of(table).entry(k, j)?, out)
}

/// All sequents, or one row 89 (refusal, row, 0).
pub fn print(table: &[u8]) -> Vec<u8> {
    match accept(table) {
        Ok(table) => {
            let mentioned = Mentioned::of(&table);
            let mut rows = Vec::new();
            for sequent in list(&table, &mentioned) {
                let identifiers = counted(mentioned.in_entry(sequent.goal));
                rows.extend(sequent_rows(&sequent, identifiers));
            }
            bytes_of(&rows)
        }
        Err(refusal) => bytes_of(&[refusal_row(refusal)]),
    }
}

/// Row 89 (refusal, row, 0).
pub fn refusal_row(refusal: Refusal) -> Row {
    Row::new(89, refusal.number, refusal.row as i32, 0)
}

/// Row 80 (kind, event or 0, item), row 84 (how many identifiers the goal spelled out mentions, the lowest, the highest),
/// rows 81 (hypotheses), row 82 (goal).
pub fn sequent_rows(sequent: &Sequent, identifiers: [i32; 3]) -> Vec<Row> {
    let [count, lowest, highest] = identifiers;
    let mut rows = vec![
        Row::new(80, sequent.kind, sequent.event, sequent.item),
        Row::new(84, count, lowest, highest),
    ];
    for entry in &sequent.hypotheses {
        rows.push(Row::new(81, entry.form, entry.first, entry.second));
    }
    let goal = sequent.goal;
    rows.push(Row::new(82, goal.form, goal.first, goal.second));
    rows
}

/// The one with this number, counted from 1, or the refusal with row 0.
fn numbered<T>(list: &[T], number: usize, refusal: i32) -> Result<&T, Refusal> {
    let place = number.checked_sub(1);
    place.and_then(|place| list.get(place)).ok_or(Refusal {
        number: refusal,
        row: 0,
    })
}

/// Writes the rows if there is room for all of them.
fn write_rows(rows: &[Row], out: &mut [u8]) -> Result<usize, Refusal> {
    let size = rows.len() * ROW_BYTES;
    if out.len() < size {
        return Err(Refusal {
            number: ROOM,
            row: 0,
        });
    }
    out[..size].copy_from_slice(&bytes_of(rows));
    Ok(rows.len())
}
