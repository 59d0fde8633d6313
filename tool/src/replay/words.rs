//! The refusal of a log in words: which step, which row, what is wrong there.

use super::find::{find, Cause, Expected, Found, Wrong, LOG, OUTSIDE, UNDEFINED};
use super::reasons::reason;
use crate::library::Refusal;
use crate::log::shape::Shapes;
use crate::log::{Log, STEP, VALUE};
use crate::refusal::{columns_of, kind_word, word};
use crate::rows::{Row, ROW_BYTES};
use crate::source::Source;
use crate::table::{class, BOOLEAN};

/// The refusal with the line of the log and what it says, then a line on what to look for.
pub fn report(source: &Source, shapes: &Shapes, log: &Log, refusal: Refusal) -> String {
    let Refusal { number, row } = refusal;
    let said = said(source, shapes, log, refusal);
    let (place, word) = (log.place(row), word(number));
    let head = format!("{place}: refusal {number} ({word}), row {row}: {said}");
    format!("{head}\n    look for: {}\n", look_for(number))
}

/// What a refusal says, without its number and its place.
pub fn said(source: &Source, shapes: &Shapes, log: &Log, refusal: Refusal) -> String {
    let words = Words {
        source,
        shapes,
        log,
    };
    match find(&source.table, shapes, log, refusal) {
        Some(found) => words.said(&found),
        None => "the library refuses the log here".to_string(),
    }
}

/// A step that is refused with this number for this reason; the initialisation is step 0.
pub fn refused_step(step: usize, number: u64, reason: &str) -> String {
    let step = numbered(step);
    match number {
        LOG => format!("{step} isn't allowed: {reason}"),
        _ => format!("{step}: {reason}"),
    }
}

/// Why an event can't step, at the start of a run or later.
pub fn cannot_step(source: &Source, event: i64) -> String {
    let (table, names) = (&source.table, &source.names);
    let (name, machine) = (names.event(event), names.machine(2));
    match table.event(event) {
        None => format!("no event has number {event}"),
        Some(row) if row.a == 1 => {
            format!("{name} is an event of {}", names.machine(1))
        }
        Some(row) if row.b == class::INITIALISATION => {
            format!("the INITIALISATION of {machine} comes first and only once")
        }
        _ => format!("{name} is no INITIALISATION, and a log begins with it"),
    }
}

struct Words<'a> {
    source: &'a Source,
    shapes: &'a Shapes,
    log: &'a Log,
}

impl Words<'_> {
    fn said(&self, found: &Found) -> String {
        let step = found.step;
        match &found.cause {
            Cause::Empty => "the log is empty; it begins with the initialisation".to_string(),
            Cause::Ended { event, rows } => {
                let (step, missing) = (self.step(step, *event), self.missing(*event, *rows));
                format!("the log ends inside {step}, before its rows 91 for {missing}")
            }
            Cause::Row {
                row,
                expected,
                wrong,
            } => self.row(step, *row, *expected, *wrong),
            Cause::Step {
                event,
                state,
                verdict,
            } => {
                let reason = reason(self.source, *event, verdict, state);
                refused_step(step, verdict.number(), &reason)
            }
        }
    }

    /// A step by its number and its event.
    fn step(&self, step: usize, event: i64) -> String {
        match step {
            0 => numbered(0),
            _ => format!("{} ({})", numbered(step), self.source.names.event(event)),
        }
    }

    /// The names whose rows 91 aren't there, where so many of the step's rows are.
    fn missing(&self, event: i64, rows: usize) -> String {
        let logged = self.shapes.of_event(event).map(|shape| &shape.logged[..]);
        let missing = logged.unwrap_or(&[]).iter().skip(rows - 1);
        let names: Vec<&str> = missing.map(|one| one.name.as_str()).collect();
        names.join(", ")
    }

    /// What is wrong with a row by itself.
    fn row(&self, step: usize, row: usize, expected: Expected, wrong: Wrong) -> String {
        let whole = self.log.row(row);
        let shown = format!("`{}`", columns_of(self.log.row_bytes(row)));
        let found = match wrong {
            Wrong::Torn(length) => format!("a torn row, {length} bytes of {ROW_BYTES}"),
            Wrong::Form => format!(
                "{shown}, which isn't in the row form (numbers lie between −2147483648 and 2147483647)"
            ),
            Wrong::Tag => shown + &self.complete(step, expected),
            Wrong::Unused => format!("{shown}, where a column that isn't used isn't 0"),
            Wrong::Event => {
                let event = whole.map_or(0, |row| row.a);
                format!("{shown}: {}", cannot_step(self.source, event))
            }
            Wrong::Identifier => format!("{shown}: {}", self.identifier(whole)),
            Wrong::Boolean => shown,
        };
        let step = match expected {
            Expected::Value { event, .. } => self.step(step, event),
            _ => numbered(step),
        };
        format!(
            "{step}: expected {}, found {found}",
            self.expected(expected)
        )
    }

    /// The step before this one has its rows, where a new one is expected.
    fn complete(&self, step: usize, expected: Expected) -> String {
        let Expected::Next { after } = expected else {
            return String::new();
        };
        let shape = self.shapes.of_event(after);
        let rows = shape.map_or(0, |shape| shape.logged.len());
        let before = self.step(step - 1, after);
        format!("; {before} has its {rows} rows 91 already")
    }

    fn expected(&self, expected: Expected) -> String {
        let names = &self.source.names;
        let machine = names.machine(2);
        match expected {
            Expected::First => {
                let initial = self.shapes.initial;
                format!("`{STEP} {initial} 0 0`, the INITIALISATION of {machine}")
            }
            Expected::Next { .. } => format!("`{STEP} EVENT 0 0`, an event of {machine}"),
            Expected::Value { identifier, .. } => {
                let row = self.source.table.identifier(identifier);
                let kind = row.map_or("", |row| kind_word(row.a));
                let boolean = row.is_some_and(|row| row.b == BOOLEAN);
                let values = if boolean { " (0 or 1)" } else { "" };
                let name = names.own_name(identifier as usize);
                format!("`{VALUE} {identifier} VALUE 0`, {kind} {name}{values}")
            }
        }
    }

    /// Whose row 91 it is.
    fn identifier(&self, row: Option<Row>) -> String {
        let number = row.map_or(0, |row| row.a);
        let identifier = self.source.table.identifier(number);
        match identifier {
            None => format!("no identifier has number {number}"),
            Some(row) => {
                let name = self.source.names.own_name(number as usize);
                format!("{} {name}", kind_word(row.a))
            }
        }
    }
}

/// A step by its number.
pub fn numbered(step: usize) -> String {
    match step {
        0 => "the initialisation".to_string(),
        _ => format!("step {step}"),
    }
}

/// What most often causes a refusal.
fn look_for(number: u64) -> &'static str {
    match number {
        OUTSIDE => "a formula whose parts grow far beyond what is logged; every part of it has to stay in signed 64 bits",
        UNDEFINED => "a guard or an axiom that keeps the divisor from 0, and of mod both sides from below 0, before the formula that divides",
        _ => "a step that isn't in the model, a row that was lost or logged twice, another version of the model",
    }
}
