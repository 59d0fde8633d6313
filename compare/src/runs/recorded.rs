//! A log as bytes, with the places of its steps.

use crate::rows::{bytes_of, read_row, write_row, Row, ROW_BYTES};

/// A real run, or what looks like one.
#[derive(Clone, Debug, Default)]
pub struct Recorded {
    pub bytes: Vec<u8>,
    /// The place, from 0, of each step's row 90.
    pub starts: Vec<usize>,
}

impl Recorded {
    pub fn rows(&self) -> usize {
        self.bytes.len() / ROW_BYTES
    }

    /// Adds a step.
    pub fn push(&mut self, rows: &[Row]) {
        self.starts.push(self.rows());
        self.bytes.extend(bytes_of(rows));
    }

    /// The first steps, the initialisation counted too.
    pub fn first(&self, steps: usize) -> Recorded {
        let end = self.step(steps - 1).end;
        Recorded {
            bytes: self.bytes[..end * ROW_BYTES].to_vec(),
            starts: self.starts[..steps].to_vec(),
        }
    }

    /// The places of a step's rows.
    pub fn step(&self, step: usize) -> std::ops::Range<usize> {
        let end = self.starts.get(step + 1).copied();
        self.starts[step]..end.unwrap_or(self.rows())
    }

    /// The bytes of these rows.
    pub fn rows_in(&self, places: std::ops::Range<usize>) -> &[u8] {
        &self.bytes[places.start * ROW_BYTES..places.end * ROW_BYTES]
    }

    pub fn row(&self, place: usize) -> Row {
        read_row(self.rows_in(place..place + 1)).expect("recorded rows are in the row form")
    }

    /// The step that a row belongs to.
    pub fn step_of(&self, place: usize) -> usize {
        self.starts.partition_point(|&start| start <= place) - 1
    }

    pub fn is_start(&self, place: usize) -> bool {
        self.starts.binary_search(&place).is_ok()
    }
}

/// Writes another row in this place.
pub fn set_row(log: &mut [u8], place: usize, row: Row) {
    write_row(row, &mut log[place * ROW_BYTES..]);
}
