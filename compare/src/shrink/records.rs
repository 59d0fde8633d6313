//! Makes a table and a press smaller: its lists of records become rows that name their identifiers, so that both go together.

use super::{shrink_pair, FIRST_RECORD, SECOND_RECORD};
use crate::press::Record;
use crate::rows::{bytes_of, read_row, Row, ROW_BYTES};
use crate::states::batch::Case;
use std::time::Duration;

/// The smallest table and press found of which `stays` is still true.
pub fn shrink_case(
    table: &[u8],
    case: &Case,
    limit: Duration,
    mut stays: impl FnMut(&[u8], &Case) -> bool,
) -> (Vec<u8>, Case) {
    let codes = Codes::of(case);
    let rows = codes.encode(case);
    let (table, rows) = shrink_pair(table, &rows, limit, |table, rows| {
        stays(table, &codes.decode(rows))
    });
    (table, codes.decode(&rows))
}

/// Numbers that stand for the values and types of a press's records; 0 and 1 are themselves, so that simpler rows are simpler
/// records.
struct Codes {
    values: Vec<i64>,
    types: Vec<u64>,
}

impl Codes {
    fn of(case: &Case) -> Codes {
        let (mut values, mut types) = (vec![0, 1], vec![0, 1]);
        for record in case.state.iter().flatten().chain(&case.second) {
            values.push(record.value);
            types.push(record.type_number);
        }
        Codes { values, types }
    }

    /// The records as rows, then the step's bytes.
    fn encode(&self, case: &Case) -> Vec<u8> {
        let mut rows = Vec::new();
        let first = case.state.as_deref().unwrap_or_default();
        for (tag, list) in [(FIRST_RECORD, first), (SECOND_RECORD, &case.second)] {
            rows.extend(list.iter().zip(1..).map(|(&record, number)| {
                let (value, type_number) = self.code(record);
                Row::new(tag, number, value, type_number)
            }));
        }
        let mut bytes = bytes_of(&rows);
        bytes.extend(&case.step);
        bytes
    }

    fn code(&self, Record { value, type_number }: Record) -> (i32, i32) {
        let value = self.values.iter().position(|&one| one == value);
        let type_number = self.types.iter().position(|&one| one == type_number);
        let number = |place: Option<usize>| place.expect("it was put in") as i32;
        (number(value), number(type_number))
    }

    fn decode(&self, bytes: &[u8]) -> Case {
        let (mut first, mut second) = (vec![], vec![]);
        let mut rest = bytes;
        while let Some((row, behind)) = rest.split_at_checked(ROW_BYTES) {
            let list = match read_row(row).map(|row| row.tag) {
                Some(FIRST_RECORD) => &mut first,
                Some(SECOND_RECORD) => &mut second,
                _ => break,
            };
            list.extend(read_row(row).map(|row| Record {
                value: self.values[row.b as usize],
                type_number: self.types[row.c as usize],
            }));
            rest = behind;
        }
        Case {
            state: Some(first),
            second,
            step: rest.to_vec(),
        }
    }
}
