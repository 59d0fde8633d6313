//! Reads the rows of a log in order, one at a time.

use super::{Cause, Stop};
use crate::rows::{read_row, Row, ROW_BYTES};

/// The bytes that are left, and how many rows were read.
pub struct Log<'a> {
    rest: &'a [u8],
    pub rows: usize,
}

/// An identifier that a step logs. Variables are logged with their after values.
#[derive(Clone, Copy, Debug, PartialEq, Eq)]
pub struct Logged {
    pub number: i32,
    pub boolean: bool,
    pub variable: bool,
}

impl Logged {
    /// Its place among the values of a state.
    pub fn place(self) -> usize {
        self.number as usize - 1
    }
}

impl<'a> Log<'a> {
    pub fn new(bytes: &'a [u8]) -> Log<'a> {
        Log {
            rest: bytes,
            rows: 0,
        }
    }

    pub fn is_at_end(&self) -> bool {
        self.rest.is_empty()
    }

    /// The event in the next row, a row 90.
    pub fn event(&mut self) -> Result<i32, Stop> {
        let row = self.row(Cause::Empty, Cause::TornBetween)?;
        match row {
            Row {
                tag: 90,
                a,
                b: 0,
                c: 0,
            } => Ok(a),
            Row { tag: 90, .. } => Err(self.stop(Cause::Unused)),
            _ => Err(self.stop(Cause::Tag)),
        }
    }

    /// The value in the next row, a row 91 of this identifier.
    pub fn value(&mut self, logged: Logged) -> Result<i64, Stop> {
        let row = self.row(Cause::Ended, Cause::TornInside)?;
        let cause = match row {
            Row { tag: 91, a, .. } if a != logged.number => Cause::Identifier,
            Row {
                tag: 91, c: 0, b, ..
            } if !logged.boolean || b == 0 || b == 1 => return Ok(i64::from(b)),
            Row { tag: 91, c: 0, .. } => Cause::Boolean,
            Row { tag: 91, .. } => Cause::Unused,
            _ => Cause::Tag,
        };
        Err(self.stop(cause))
    }

    /// The next row. A missing one has no number, a torn one has.
    fn row(&mut self, missing: Cause, torn: Cause) -> Result<Row, Stop> {
        if self.rest.is_empty() {
            return Err(Stop {
                row: 0,
                cause: missing,
            });
        }
        self.rows += 1;
        let Some((bytes, rest)) = self.rest.split_at_checked(ROW_BYTES) else {
            return Err(self.stop(torn));
        };
        self.rest = rest;
        read_row(bytes).ok_or(self.stop(Cause::Form))
    }

    /// A stop at the row that was read last.
    fn stop(&self, cause: Cause) -> Stop {
        Stop {
            row: self.rows,
            cause,
        }
    }
}
