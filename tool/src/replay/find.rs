//! Looks for the reason of a refusal of a log. The verdict is the library's: what doesn't agree with it is no reason.

use super::judge::{judge, Verdict};
use super::terms::State;
use crate::library::Refusal;
use crate::log::shape::{Shape, Shapes};
use crate::log::{Log, STEP, VALUE};
use crate::rows::{Row, ROW_BYTES};
use crate::table::Table;

/// Refusals of a log.
pub const OUTSIDE: u64 = 16;
pub const UNDEFINED: u64 = 17;
pub const LOG: u64 = 18;

/// What stops a log, and in which step: the initialisation is step 0.
#[derive(Clone, Debug)]
pub struct Found {
    pub step: usize,
    pub cause: Cause,
}

#[derive(Clone, Debug)]
pub enum Cause {
    /// The log has no bytes.
    Empty,
    /// It ends inside a step of this event, where so many of the step's rows are there.
    Ended { event: i64, rows: usize },
    /// A row isn't the one that is expected.
    Row {
        row: usize,
        expected: Expected,
        wrong: Wrong,
    },
    /// A step of this event isn't allowed, or a term of it has no value.
    Step {
        event: i64,
        state: State,
        verdict: Verdict,
    },
}

/// What a row of a log has to be.
#[derive(Clone, Copy, Debug, PartialEq, Eq)]
pub enum Expected {
    /// Row 90 of the initialisation.
    First,
    /// Row 90 of another event, after a step of this one.
    Next { after: i64 },
    /// Row 91 of an identifier, in a step of this event.
    Value { event: i64, identifier: i64 },
}

/// How a row differs from the one that is expected.
#[derive(Clone, Copy, Debug, PartialEq, Eq)]
pub enum Wrong {
    /// It has so many bytes, and they are the last.
    Torn(usize),
    /// It isn't in the row form.
    Form,
    Tag,
    /// A column that isn't used isn't 0.
    Unused,
    /// The event can't step here.
    Event,
    Identifier,
    /// A boolean is neither 0 nor 1.
    Boolean,
}

/// The reason, if it is found.
pub fn find(table: &Table, shapes: &Shapes, log: &Log, refusal: Refusal) -> Option<Found> {
    let search = Search { table, shapes, log };
    match (refusal.number, refusal.row) {
        (LOG, 0) => search.ended(),
        (LOG, row) => search.wrong_row(row).or_else(|| search.step(row)),
        (_, row) => search.step(row),
    }
    .filter(|found| found.cause.number() == refusal.number)
}

impl Cause {
    /// The refusal that a cause is the reason of.
    pub fn number(&self) -> u64 {
        match self {
            Cause::Step { verdict, .. } => verdict.number(),
            _ => LOG,
        }
    }
}

struct Search<'a> {
    table: &'a Table,
    shapes: &'a Shapes,
    log: &'a Log,
}

impl Search<'_> {
    /// The last row 90 before this row.
    fn start_before(&self, row: usize) -> Option<usize> {
        (1..row).rev().find(|&row| self.is_start(row))
    }

    fn is_start(&self, row: usize) -> bool {
        self.log.row_bytes(row).starts_with(b"  90")
    }

    /// The shape of the step that begins in this row.
    fn shape(&self, row: usize) -> Option<&Shape> {
        self.shapes.of_event(self.log.row(row)?.a)
    }

    /// How many steps begin before this row; where it begins one, that one's number.
    fn steps_before(&self, row: usize) -> usize {
        let rows = self.log.bytes.chunks(ROW_BYTES).take(row.saturating_sub(1));
        rows.filter(|row| row.starts_with(b"  90")).count()
    }

    /// The log has no rows, or ends inside its last step.
    fn ended(&self) -> Option<Found> {
        let end = self.log.rows() + 1;
        if end == 1 {
            return Some(Found {
                step: 0,
                cause: Cause::Empty,
            });
        }
        let start = self.start_before(end)?;
        let shape = self.shape(start)?;
        let rows = end - start;
        (rows <= shape.logged.len()).then(|| Found {
            step: self.steps_before(start),
            cause: Cause::Ended {
                event: shape.event,
                rows,
            },
        })
    }

    /// What this row has to be, and its step. The rows before it are as they should be.
    fn expected(&self, row: usize) -> Option<(usize, Expected)> {
        if row == 1 {
            return Some((0, Expected::First));
        }
        let start = self.start_before(row)?;
        let shape = self.shape(start)?;
        let step = self.steps_before(start);
        match shape.logged.get(row - start - 1) {
            Some(logged) => {
                let (event, identifier) = (shape.event, logged.number);
                Some((step, Expected::Value { event, identifier }))
            }
            None if row == start + shape.logged.len() + 1 => {
                let after = shape.event;
                Some((step + 1, Expected::Next { after }))
            }
            None => None,
        }
    }

    /// What is wrong with a row by itself.
    fn wrong_row(&self, row: usize) -> Option<Found> {
        let (step, expected) = self.expected(row)?;
        let wrong = self.wrong(row, expected)?;
        let cause = Cause::Row {
            row,
            expected,
            wrong,
        };
        Some(Found { step, cause })
    }

    /// How a row differs from the one that is expected, if it does.
    fn wrong(&self, row: usize, expected: Expected) -> Option<Wrong> {
        let found = match (self.log.row_bytes(row).len(), self.log.row(row)) {
            (0, _) => return None,
            (length @ 1..ROW_BYTES, _) => return Some(Wrong::Torn(length)),
            (_, None) => return Some(Wrong::Form),
            (_, Some(found)) => found,
        };
        match expected {
            Expected::First => self.wrong_start(found, true),
            Expected::Next { .. } => self.wrong_start(found, false),
            Expected::Value { event, identifier } => self.wrong_value(found, event, identifier),
        }
    }

    fn wrong_start(&self, found: Row, first: bool) -> Option<Wrong> {
        let shape = self.shapes.of_event(found.a);
        let fits = |shape: &Shape| (shape.event == self.shapes.initial) == first;
        match found {
            Row { tag, .. } if tag != STEP => Some(Wrong::Tag),
            Row { b: 0, c: 0, .. } => (!shape.is_some_and(fits)).then_some(Wrong::Event),
            _ => Some(Wrong::Unused),
        }
    }

    fn wrong_value(&self, found: Row, event: i64, identifier: i64) -> Option<Wrong> {
        let logged = self.shapes.of_event(event)?.numbered(identifier)?;
        match found {
            Row { tag, .. } if tag != VALUE => Some(Wrong::Tag),
            Row { a, .. } if a != identifier => Some(Wrong::Identifier),
            Row { c: 0, b, .. } => {
                let boolean = logged.boolean && b != 0 && b != 1;
                boolean.then_some(Wrong::Boolean)
            }
            _ => Some(Wrong::Unused),
        }
    }

    /// The first fault of the step that begins in this row.
    fn step(&self, row: usize) -> Option<Found> {
        let (step, expected) = self.expected(row)?;
        let begins = !matches!(expected, Expected::Value { .. });
        if !begins || self.wrong(row, expected).is_some() {
            return None;
        }
        let event = self.shape(row)?.event;
        let mut state = State::new(self.shapes.identifiers);
        if let Some(before) = self.start_before(row) {
            // constants are logged first, present values by the step before
            self.load(1, &mut state, false)?;
            self.load(before, &mut state, false)?;
        }
        self.load(row, &mut state, true)?;
        let verdict = judge(self.table, self.shapes, event, &state)?;
        let cause = Cause::Step {
            event,
            state,
            verdict,
        };
        Some(Found { step, cause })
    }

    /// Takes the values that the step in this row logs, those of variables as after values or as present ones.
    fn load(&self, start: usize, state: &mut State, after: bool) -> Option<()> {
        for (logged, row) in self.shape(start)?.logged.iter().zip(start + 1..) {
            let values = match logged.variable && after {
                true => &mut state.after,
                false => &mut state.now,
            };
            values[logged.number as usize - 1] = self.log.row(row)?.b;
        }
        Some(())
    }
}
