//! The bench: events of the refinement are chosen, previewed, pressed and taken back, one at a time. The library judges and
//! performs every step; the bench keeps the state and the run, and says why a step isn't allowed.

pub mod choice;
pub mod keep;
pub mod lines;
pub mod questions;
pub mod session;
pub mod start;
pub mod words;

use crate::library::{self, Record, Refusal};
use crate::log::shape::{Shape, Shapes};
use crate::log::STEP;
use crate::replay::judge::judge;
use crate::replay::reasons::reason;
use crate::replay::terms::State;
use crate::rows::Row;
use crate::source::Source;
use choice::{logged_rows, Choice};

/// A state of an accepted model, and the run that leads to it.
pub struct Bench<'a> {
    pub source: &'a Source,
    pub shapes: &'a Shapes,
    /// One record for each identifier.
    state: Vec<Record>,
    /// The run as a log's rows; values may be wider than their columns.
    rows: Vec<Row>,
    /// The steps after the initialisation that the run had at the start.
    steps_at_start: usize,
    presses: Vec<Press>,
    /// How many of the rows stand in a file, or were there at the start.
    kept: usize,
}

/// What a press is taken back to.
struct Press {
    event: i64,
    state: Vec<Record>,
    rows: usize,
}

/// A step that can be pressed, and what it makes of the state.
#[derive(Clone, Debug)]
pub struct Preview {
    pub choice: Choice,
    pub after: Vec<Record>,
}

/// A step that is refused: the library's number, and the reason in words.
#[derive(Clone, Debug, PartialEq, Eq)]
pub struct NoStep {
    pub number: u64,
    pub reason: String,
}

impl Bench<'_> {
    /// The records of the state, in the order of the identifiers.
    pub fn state(&self) -> &[Record] {
        &self.state
    }

    /// The rows of the run so far.
    pub fn rows(&self) -> &[Row] {
        &self.rows
    }

    /// How many steps the run has after the initialisation.
    pub fn steps(&self) -> usize {
        self.steps_at_start + self.presses.len()
    }

    /// The event of the last step, the initialisation's if there is no other.
    pub fn last_event(&self) -> i64 {
        let last = self.rows.iter().rev().find(|row| row.tag == STEP);
        last.map_or(self.shapes.initial, |row| row.a)
    }

    /// The value of an identifier.
    pub fn value(&self, identifier: i64) -> i64 {
        self.state[identifier as usize - 1].value
    }

    /// The events that can be pressed.
    pub fn events(&self) -> impl Iterator<Item = &Shape> {
        let initial = self.shapes.initial;
        self.shapes
            .all()
            .filter(move |shape| shape.event != initial)
    }

    /// The event with this number or this name, if it can be pressed.
    pub fn event(&self, word: &str) -> Option<&Shape> {
        let number = word.parse().ok();
        self.events()
            .find(|shape| shape.name == word || Some(shape.event) == number)
    }

    /// What pressing would do, as the library says.
    pub fn preview(&self, choice: Choice) -> Result<Preview, NoStep> {
        let after = library::preview(&self.source.bytes, &choice.bytes(), &self.state);
        match after {
            Ok(after) => Ok(Preview { choice, after }),
            Err(refusal) => Err(self.no_step(&choice, refusal)),
        }
    }

    /// Performs a step that was previewed; an error says why it isn't taken.
    pub fn press(&mut self, preview: &Preview) -> Result<(), String> {
        let choice = &preview.choice;
        let mut state = self.state.clone();
        let pressed = library::press(&self.source.bytes, &choice.bytes(), &mut state);
        pressed.map_err(|refusal| words::refused(self, &self.no_step(choice, refusal)))?;
        if state != preview.after {
            let agree = "the library's press and preview don't agree, so the step isn't taken";
            return Err(agree.to_string());
        }
        let mut values = self.values_of(choice);
        values.after = values_in(&state);
        let rows = logged_rows(self.shape(choice), &values);
        self.presses.push(Press {
            event: choice.event,
            state: std::mem::replace(&mut self.state, state),
            rows: self.rows.len(),
        });
        self.kept = self.kept.min(self.rows.len());
        self.rows.extend(rows);
        Ok(())
    }

    /// Takes the last press back, if there is one, and gives its event.
    pub fn undo(&mut self) -> Option<i64> {
        let press = self.presses.pop()?;
        self.state = press.state;
        self.rows.truncate(press.rows);
        Some(press.event)
    }

    /// Whether the run has presses that stand in no file.
    pub fn has_unwritten(&self) -> bool {
        self.rows.len() > self.kept
    }

    fn shape(&self, choice: &Choice) -> &Shape {
        let shape = self.shapes.of_event(choice.event);
        shape.expect("an event of the refinement")
    }

    /// The values of a chosen step from the present state.
    fn values_of(&self, choice: &Choice) -> State {
        let now = values_in(&self.state);
        choice.values(&self.source.table, self.shape(choice), now)
    }

    /// Why the library refuses a step; what doesn't agree with its number is no reason.
    fn no_step(&self, choice: &Choice, refusal: Refusal) -> NoStep {
        let (number, event) = (refusal.number, choice.event);
        let values = self.values_of(choice);
        let verdict = judge(&self.source.table, self.shapes, event, &values);
        let verdict = verdict.filter(|verdict| verdict.number() == number);
        let reason = match verdict {
            Some(verdict) => reason(self.source, event, &verdict, &values),
            None => "the library refuses the step".to_string(),
        };
        NoStep { number, reason }
    }
}

/// The values of records.
fn values_in(state: &[Record]) -> Vec<i64> {
    state.iter().map(|record| record.value).collect()
}
