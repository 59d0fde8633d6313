//! The shape of a log's steps: the events that may step, and the identifiers that each logs, in order.

use crate::names::Names;
use crate::rows::Row;
use crate::table::{class, kind, tag, Table, BOOLEAN};

/// An identifier that a step logs: a constant, a parameter or, with its after value, a variable.
#[derive(Clone, Debug)]
pub struct Logged {
    pub number: i64,
    pub name: String,
    pub boolean: bool,
    pub variable: bool,
}

/// What the steps of an event of the refinement log.
#[derive(Clone, Debug)]
pub struct Shape {
    pub event: i64,
    pub name: String,
    pub logged: Vec<Logged>,
}

/// The shapes of all steps of an accepted model.
pub struct Shapes {
    /// By event number less one; nothing for the abstract machine's.
    events: Vec<Option<Shape>>,
    /// The number of the refinement's initialisation.
    pub initial: i64,
    /// How many identifiers the table has.
    pub identifiers: usize,
}

impl Shapes {
    pub fn of(table: &Table, names: &Names) -> Shapes {
        let events = table.tagged(tag::EVENT).zip(1..);
        let shape = |((_, row), event): ((usize, Row), i64)| {
            (row.a == 2).then(|| Shape {
                event,
                name: names.event(event),
                logged: logged(table, names, event, row.b == class::INITIALISATION),
            })
        };
        let mut first = table.tagged(tag::EVENT).zip(1..);
        let initial = first.find(|((_, row), _)| row.a == 2 && row.b == class::INITIALISATION);
        Shapes {
            events: events.map(shape).collect(),
            initial: initial.map_or(0, |(_, event)| event),
            identifiers: table.places(tag::IDENTIFIER).count(),
        }
    }

    /// The shape of an event's steps, if the refinement has the event.
    pub fn of_event(&self, event: i64) -> Option<&Shape> {
        let place = usize::try_from(event).ok()?.checked_sub(1)?;
        self.events.get(place)?.as_ref()
    }

    /// The shapes of all events of the refinement, in order.
    pub fn all(&self) -> impl Iterator<Item = &Shape> {
        self.events.iter().flatten()
    }

    /// The shape of the refinement's event with this name.
    pub fn named(&self, name: &str) -> Option<&Shape> {
        self.all().find(|one| one.name == name)
    }
}

impl Logged {
    /// A value as a log's text has it.
    pub fn shown(&self, value: i64) -> String {
        match value {
            0 if self.boolean => "FALSE".to_string(),
            1 if self.boolean => "TRUE".to_string(),
            ..0 => format!("−{}", value.unsigned_abs()),
            _ => value.to_string(),
        }
    }

    /// The name and its value.
    pub fn entry(&self, value: i64) -> String {
        format!("{} = {}", self.name, self.shown(value))
    }
}

impl Shape {
    /// The identifier of this name that a step logs.
    pub fn named(&self, name: &str) -> Option<&Logged> {
        self.logged.iter().find(|one| one.name == name)
    }

    pub fn numbered(&self, identifier: i64) -> Option<&Logged> {
        self.logged.iter().find(|one| one.number == identifier)
    }
}

/// Constants at the initialisation, else the event's parameters; and the refinement's variables.
fn logged(table: &Table, names: &Names, event: i64, initial: bool) -> Vec<Logged> {
    let is_logged = |row: Row| match row.a {
        kind::CONSTANT => initial,
        kind::CONCRETE_PARAMETER => row.c == event,
        other => Table::has_variable(2, other),
    };
    let identifiers = table.tagged(tag::IDENTIFIER).zip(1..);
    identifiers
        .filter(|((_, row), _)| is_logged(*row))
        .map(|((_, row), number)| Logged {
            number: number as i64,
            name: names.own_name(number),
            boolean: row.b == BOOLEAN,
            variable: Table::has_variable(2, row.a),
        })
        .collect()
}
