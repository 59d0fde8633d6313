//! A chosen step: what its event asks, the answers, and the rows and values that they make.

use crate::formula::Mention;
use crate::log::shape::{Logged, Shape};
use crate::log::{row, STEP, VALUE};
use crate::replay::terms::{value, State};
use crate::rows::{push_row, write_row, Row};
use crate::table::{tag, Table};

/// An event, and the values of what it asks by identifier.
#[derive(Clone, Debug, PartialEq, Eq)]
pub struct Choice {
    pub event: i64,
    pub answers: Vec<(i64, i64)>,
}

/// What a step asks, in order: constants at the initialisation, else parameters; and the variables that become such that.
pub fn asked<'a>(table: &Table, shape: &'a Shape) -> Vec<&'a Logged> {
    let becomes_such = |variable: i64| {
        let mut actions = table.of_event(tag::BECOMES_SUCH, shape.event);
        actions.any(|(_, row)| row.b == variable)
    };
    let is_asked = |one: &&Logged| !one.variable || becomes_such(one.number);
    shape.logged.iter().filter(is_asked).collect()
}

/// The question for a value: a name, with a prime for an after value, and its type.
pub fn question(logged: &Logged) -> String {
    let prime = if logged.variable { "'" } else { "" };
    let values = if logged.boolean { "BOOL" } else { "ℤ" };
    format!("{}{prime} ∈ {values}", logged.name)
}

impl Choice {
    /// The rows that the library takes.
    pub fn bytes(&self) -> Vec<u8> {
        let mut bytes = write_row(row(STEP, self.event, 0));
        for &(identifier, value) in &self.answers {
            push_row(&mut bytes, row(VALUE, identifier, value));
        }
        bytes
    }

    /// The values of the step from these present ones. A variable that isn't set keeps its value; one whose action gives
    /// none has 0.
    pub fn values(&self, table: &Table, shape: &Shape, now: Vec<i64>) -> State {
        let after = now.clone();
        let mut values = State { now, after };
        for &(identifier, answer) in &self.answers {
            let after = shape.numbered(identifier).is_some_and(|one| one.variable);
            let values = match after {
                true => &mut values.after,
                false => &mut values.now,
            };
            values[identifier as usize - 1] = answer;
        }
        for (_, row) in table.of_event(tag::BECOMES_EQUAL, self.event) {
            let formula = table.formula(row.c);
            let given = formula.and_then(|formula| value(&formula, &values).ok());
            values.after[row.b as usize - 1] = given.unwrap_or(0);
        }
        values
    }
}

/// The rows that a log has for a step with these values.
pub fn logged_rows(shape: &Shape, values: &State) -> Vec<Row> {
    let value = |one: &Logged| {
        let (identifier, after) = (one.number as usize, one.variable);
        values.value(Mention { identifier, after })
    };
    let logged = shape.logged.iter();
    let logged = logged.map(|one| row(VALUE, one.number, value(one)));
    let start = row(STEP, shape.event, 0);
    [start].into_iter().chain(logged).collect()
}
