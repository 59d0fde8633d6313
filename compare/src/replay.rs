//! Replays a recorded run: whether a log is a run of a table's refined machine, and how many steps it has.

pub mod log;
pub mod machine;
pub mod term;

use crate::checks::{accept, Refusal};
use crate::rows::{bytes_of, Row};
use crate::services::refusal_row;
use machine::Machine;
use term::Fault;

pub const OUTSIDE: i32 = 16;
pub const UNDEFINED: i32 = 17;
pub const NOT_A_RUN: i32 = 18;

/// The number of steps after the initialisation, or the table's refusal, or else the log's.
pub fn replay(table: &[u8], run: &[u8]) -> Result<u64, Refusal> {
    let machine = Machine::of(&accept(table)?);
    machine.replay(run).map_err(Stop::refusal)
}

/// What the program `replay` prints: row 92 (steps, 0, 0), or row 89 (refusal, row, 0).
pub fn replayed(table: &[u8], run: &[u8]) -> Vec<u8> {
    let row = match replay(table, run) {
        Ok(steps) => Row::new(92, steps as i32, 0, 0),
        Err(refusal) => refusal_row(refusal),
    };
    bytes_of(&[row])
}

/// Where a log stops being a run: a row of it, counted from 1, or 0, and why.
#[derive(Clone, Copy, Debug, PartialEq, Eq)]
pub struct Stop {
    pub row: usize,
    pub cause: Cause,
}

#[derive(Clone, Copy, Debug, PartialEq, Eq, PartialOrd, Ord)]
pub enum Cause {
    /// The log has no bytes.
    Empty,
    /// It ends inside a step.
    Ended,
    /// Its last bytes, between steps, aren't a whole row.
    TornBetween,
    TornInside,
    /// A row isn't in the row form.
    Form,
    /// A row has another tag than 90 or 91, whichever is expected.
    Tag,
    /// A column that the tag doesn't use isn't 0.
    Unused,
    /// A row 90 names none of the events that may come.
    Event,
    /// A row 91 names another identifier than the next one.
    Identifier,
    /// A boolean is neither 0 nor 1.
    Boolean,
    /// A formula is faulty or doesn't allow the step.
    Formula(Role, Verdict),
    /// A variable that isn't assigned has changed.
    Kept,
}

/// The formulas that a replay reads.
#[derive(Clone, Copy, Debug, PartialEq, Eq, PartialOrd, Ord)]
pub enum Role {
    Axiom,
    Guard,
    Equal,
    SuchThat,
}

#[derive(Clone, Copy, Debug, PartialEq, Eq, PartialOrd, Ord)]
pub enum Verdict {
    Outside,
    Undefined,
    /// A predicate is false, or a value isn't the logged one.
    False,
}

impl Stop {
    pub fn refusal(self) -> Refusal {
        Refusal {
            number: self.cause.number(),
            row: self.row,
        }
    }
}

impl Cause {
    pub fn number(self) -> i32 {
        match self {
            Cause::Formula(_, Verdict::Outside) => OUTSIDE,
            Cause::Formula(_, Verdict::Undefined) => UNDEFINED,
            _ => NOT_A_RUN,
        }
    }
}

impl From<Fault> for Verdict {
    fn from(fault: Fault) -> Verdict {
        match fault {
            Fault::Outside => Verdict::Outside,
            Fault::Undefined => Verdict::Undefined,
        }
    }
}
