//! What refusal 12 is about, in the paper's order: initialisations, initial actions, witnesses, the variant.

use crate::faults::is_refining;
use crate::names::Names;
use crate::rows::Row;
use crate::table::{class, kind, tag, Table};

/// What isn't there, and the row (counted from 1) of what asks for it, or 0.
pub struct Missing {
    pub what: String,
    pub row: usize,
}

impl Missing {
    fn new(what: String, place: usize) -> Missing {
        Missing {
            what,
            row: place + 1,
        }
    }
}

/// The first thing that isn't there.
pub fn missing(table: &Table, names: &Names) -> Option<Missing> {
    initialisation(table, names)
        .or_else(|| initial_action(table, names))
        .or_else(|| witness(table, names))
        .or_else(|| variant(table, names))
}

/// An event's number and its row, with its place.
fn events(table: &Table) -> impl Iterator<Item = (i64, usize, Row)> + '_ {
    let numbered = table.tagged(tag::EVENT).zip(1..);
    numbered.map(|((place, row), number)| (number, place, row))
}

fn identifiers(table: &Table) -> impl Iterator<Item = (i64, Row)> + '_ {
    table
        .tagged(tag::IDENTIFIER)
        .zip(1..)
        .map(|((_, row), number)| (number, row))
}

fn initialisation(table: &Table, names: &Names) -> Option<Missing> {
    let initial = |machine| {
        events(table).any(|(_, _, row)| row.a == machine && row.b == class::INITIALISATION)
    };
    let machine = [1, 2].into_iter().find(|&machine| !initial(machine))?;
    let what = match names.machine(machine) {
        "" => "there is no refinement: a model is a machine and one refinement of it".to_string(),
        name => format!("machine {name} has no event INITIALISATION"),
    };
    let first = events(table).find(|(_, _, row)| row.a == machine);
    let row = first.map_or(0, |(_, place, _)| place + 1);
    Some(Missing { what, row })
}

/// A variable of its machine that an initialisation doesn't set.
fn initial_action(table: &Table, names: &Names) -> Option<Missing> {
    let mut initial = events(table).filter(|(_, _, row)| row.b == class::INITIALISATION);
    initial.find_map(|(event, place, row)| {
        let mut own =
            identifiers(table).filter(|(_, identifier)| Table::has_variable(row.a, identifier.a));
        let (number, _) = own.find(|(number, _)| table.action(event, *number).is_none())?;
        let variable = names.own_name(number as usize);
        let what = format!(
            "the INITIALISATION of {} has no action for {variable}",
            names.machine(row.a)
        );
        Some(Missing::new(what, place))
    })
}

/// An abstract variable or a parameter of the refined event without its witness.
fn witness(table: &Table, names: &Names) -> Option<Missing> {
    let mut refining = events(table).filter(|(_, _, row)| is_refining(*row));
    refining.find_map(|(event, place, row)| {
        let wanted = |identifier: &Row| match identifier.a {
            kind::ABSTRACT_VARIABLE => true,
            kind::ABSTRACT_PARAMETER => identifier.c == row.c,
            _ => false,
        };
        let has = |target: i64| {
            table
                .of_event(tag::WITNESS, event)
                .any(|(_, row)| row.b == target)
        };
        let mut targets = identifiers(table).filter(|(_, identifier)| wanted(identifier));
        let (target, identifier) = targets.find(|(number, _)| !has(*number))?;
        let prime = if identifier.a == kind::ABSTRACT_VARIABLE {
            "'"
        } else {
            ""
        };
        let name = names.own_name(target as usize);
        let (event, machine) = (names.event(event), names.machine(row.a));
        let what = format!("event {event} of {machine} has no witness @{name}{prime}");
        Some(Missing::new(what, place))
    })
}

fn variant(table: &Table, names: &Names) -> Option<Missing> {
    let of_class = |class| events(table).find(move |(_, _, row)| row.b == class);
    let variant = table.places(tag::VARIANT).next();
    match (
        variant,
        of_class(class::CONVERGENT),
        of_class(class::ANTICIPATED),
    ) {
        (None, Some((event, place, row)), _) => {
            let (event, machine) = (names.event(event), names.machine(row.a));
            let what = format!("event {event} is convergent, and {machine} has no variant");
            Some(Missing::new(what, place))
        }
        (Some(place), None, None) => {
            let what = "there is a variant, and no convergent or anticipated event".to_string();
            Some(Missing::new(what, place))
        }
        _ => None,
    }
}
