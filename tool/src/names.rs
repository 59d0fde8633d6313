//! The names of a table's identifiers, events and formulas: those of the text it comes from, or invented ones.

use crate::formula::{written, Formula};
use crate::rows::Row;
use crate::table::{class, kind, tag, Table};
use std::collections::BTreeMap;

/// The name of every initialisation.
pub const INITIALISATION: &str = "INITIALISATION";

#[derive(Clone, Debug, Default)]
pub struct Names {
    pub context: String,
    /// The abstract machine and its refinement.
    pub machines: [String; 2],
    /// By number less one.
    pub identifiers: Vec<String>,
    pub events: Vec<String>,
    /// The labels of formulas, by the places of the rows that name their roots.
    pub labels: BTreeMap<usize, String>,
}

impl Names {
    /// Names for a table that has none: identifiers by a letter of their kind and their number, labels by their place.
    pub fn invented(table: &Table) -> Names {
        let identifiers = table.tagged(tag::IDENTIFIER).enumerate();
        let events = table.tagged(tag::EVENT).enumerate();
        Names {
            context: "c0".into(),
            machines: ["m0".into(), "m1".into()],
            identifiers: identifiers
                .map(|(place, (_, row))| format!("{}{}", letter(row.a), place + 1))
                .collect(),
            events: events
                .map(|(place, (_, row))| invented_event(place + 1, row))
                .collect(),
            labels: invented_labels(table),
        }
    }

    /// An identifier's name; that of a parameter with its event where others have the name too.
    pub fn identifier(&self, number: usize, table: &Table) -> String {
        let name = self.own_name(number);
        let alike = |other: &&String| **other == name;
        if self.identifiers.iter().filter(alike).count() < 2 {
            return name;
        }
        let row = table.identifier(number as i64);
        let event = row.map_or(0, |row| row.c);
        let machine = table.event(event).map_or(0, |event| event.a);
        match machine {
            1 | 2 => format!("{}.{}.{name}", self.machine(machine), self.event(event)),
            _ => name,
        }
    }

    /// An identifier's name as its text has it.
    pub fn own_name(&self, number: usize) -> String {
        let name = number.checked_sub(1).and_then(|n| self.identifiers.get(n));
        // a row may name a number below 0
        let invented = || format!("identifier {}", number as i64);
        name.cloned().unwrap_or_else(invented)
    }

    pub fn event(&self, number: i64) -> String {
        let place = usize::try_from(number).ok().and_then(|n| n.checked_sub(1));
        let name = place.and_then(|place| self.events.get(place));
        name.cloned().unwrap_or(format!("event {number}"))
    }

    /// A machine's name: 1 the abstract one, 2 its refinement.
    pub fn machine(&self, number: i64) -> &str {
        &self.machines[usize::from(number == 2)]
    }

    /// The label of the formula whose root this row names.
    pub fn label(&self, place: usize) -> &str {
        self.labels.get(&place).map_or("?", String::as_str)
    }

    /// A formula with these names.
    pub fn written(&self, formula: &Formula, table: &Table) -> String {
        written(formula, &|number| self.identifier(number, table))
    }
}

fn letter(identifier_kind: i64) -> char {
    match identifier_kind {
        kind::CONSTANT => 'c',
        kind::ABSTRACT_VARIABLE => 'a',
        kind::CONCRETE_VARIABLE => 'v',
        kind::SHARED_VARIABLE => 's',
        _ => 'p',
    }
}

fn invented_event(number: usize, row: Row) -> String {
    match row.b {
        class::INITIALISATION => INITIALISATION.to_string(),
        _ => format!("e{number}"),
    }
}

/// Labels by tag and place: axm1, inv1, in each event grd1 and act1; a witness has its target's name.
fn invented_labels(table: &Table) -> BTreeMap<usize, String> {
    let mut labels = BTreeMap::new();
    let mut counts = BTreeMap::new();
    let kinds: Vec<i64> = table
        .tagged(tag::IDENTIFIER)
        .map(|(_, row)| row.a)
        .collect();
    for (place, row) in table.rows.iter().enumerate() {
        let (word, event) = match row.tag {
            tag::AXIOM => ("axm", 0),
            tag::ABSTRACT_INVARIANT => ("inv", -1),
            tag::CONCRETE_INVARIANT => ("inv", -2),
            tag::GUARD => ("grd", row.a),
            tag::BECOMES_EQUAL | tag::BECOMES_SUCH => ("act", row.a),
            tag::WITNESS => {
                labels.insert(place, invented_target(&kinds, row.b));
                continue;
            }
            tag::VARIANT => {
                labels.insert(place, "variant".to_string());
                continue;
            }
            _ => continue,
        };
        let count = counts.entry((word, event)).or_insert(0);
        *count += 1;
        labels.insert(place, format!("{word}{count}"));
    }
    labels
}

/// The label of a witness: the parameter's name, or the variable's with a prime. Kinds are by number less one.
fn invented_target(kinds: &[i64], target: i64) -> String {
    let place = usize::try_from(target - 1).ok();
    let target_kind = place
        .and_then(|place| kinds.get(place))
        .copied()
        .unwrap_or(0);
    let prime = match Table::is_parameter(target_kind) {
        true => "",
        false => "'",
    };
    format!("{}{target}{prime}", letter(target_kind))
}
