//! How a bench is started: by the initialisation with chosen values, or by a recorded run.

use super::choice::{asked, logged_rows, Choice};
use super::keep::bytes_of;
use super::{words, Bench};
use crate::library::{self, Record, Refusal};
use crate::log::read::remember;
use crate::log::shape::{Logged, Shape, Shapes};
use crate::log::Log;
use crate::rows::{read_rows, Row};
use crate::source::Source;
use crate::table::tag;

/// The shape of the initialisation.
fn initial(shapes: &Shapes) -> &Shape {
    let shape = shapes.of_event(shapes.initial);
    shape.expect("an accepted table has an initialisation")
}

/// What the initialisation asks: the constants, and the variables that become such that.
pub fn asked_at_start<'a>(source: &Source, shapes: &'a Shapes) -> Vec<&'a Logged> {
    asked(&source.table, initial(shapes))
}

impl<'a> Bench<'a> {
    /// The bench after the initialisation with these answers; an error says why the library refuses it.
    pub fn begin(
        source: &'a Source,
        shapes: &'a Shapes,
        answers: Vec<(i64, i64)>,
    ) -> Result<Bench<'a>, String> {
        let event = shapes.initial;
        let choice = Choice { event, answers };
        let now = vec![0; shapes.identifiers];
        let values = choice.values(&source.table, initial(shapes), now);
        let rows = logged_rows(initial(shapes), &values);
        let bytes = bytes_of(source, &rows)?;
        match library::replay(&source.bytes, &bytes) {
            Ok(steps) => Ok(Bench::left_by(source, shapes, rows, steps)),
            Err(refusal) => Err(words::refused_log(source, shapes, bytes, refusal)),
        }
    }

    /// The bench after a recorded run, if it is one.
    pub fn resume(source: &'a Source, shapes: &'a Shapes, log: &Log) -> Result<Bench<'a>, Refusal> {
        let steps = library::replay(&source.bytes, &log.bytes)?;
        let rows = read_rows(&log.bytes).expect("an accepted log has rows");
        Ok(Bench::left_by(source, shapes, rows, steps))
    }

    /// The bench in the state that an accepted run has left.
    fn left_by(source: &'a Source, shapes: &'a Shapes, rows: Vec<Row>, steps: u64) -> Bench<'a> {
        let mut last = vec![None; shapes.identifiers];
        rows.iter().for_each(|&row| remember(&mut last, row));
        // parameters of past steps are no part of the state
        let is_held = |number: i64| initial(shapes).numbered(number).is_some();
        let record = |(number, (_, row)): (i64, (usize, Row))| Record {
            value: last[number as usize - 1]
                .filter(|_| is_held(number))
                .unwrap_or(0),
            type_number: row.b as u64,
        };
        let identifiers = (1..).zip(source.table.tagged(tag::IDENTIFIER));
        Bench {
            source,
            shapes,
            state: identifiers.map(record).collect(),
            kept: rows.len(),
            rows,
            steps_at_start: steps as usize,
            presses: vec![],
        }
    }
}
