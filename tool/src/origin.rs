//! Where an entry of a sequent comes from: the part of the model, and its label there.

use crate::names::Names;
use crate::sequents::Entry;
use crate::table::{tag, Table};

pub struct Origin {
    pub part: String,
    pub label: String,
}

/// The origin of an entry: an axiom, an invariant, a guard, an action, a witness, the variant.
pub fn origin(entry: Entry, table: &Table, names: &Names) -> Origin {
    match entry.form {
        4 | 5 => of_action(entry, table, names),
        6 => of_witness(entry, table, names),
        10 => Origin {
            part: "shared variables".to_string(),
            label: names.own_name(entry.first as usize),
        },
        _ => of_root(entry.first, table, names),
    }
}

fn of_root(root: i64, table: &Table, names: &Names) -> Origin {
    let Some(place) = table.named_by(root) else {
        return Origin {
            part: "formulas".to_string(),
            label: format!("node {root}"),
        };
    };
    let row = table.rows[place];
    let part = match row.tag {
        tag::AXIOM => "axioms".to_string(),
        tag::ABSTRACT_INVARIANT => format!("invariants of {}", names.machine(1)),
        tag::CONCRETE_INVARIANT => format!("invariants of {}", names.machine(2)),
        tag::GUARD => format!("guards of {}", names.event(row.a)),
        tag::WITNESS => format!("witnesses of {}", names.event(row.a)),
        tag::VARIANT => "variant".to_string(),
        _ => format!("actions of {}", names.event(row.a)),
    };
    let label = names.label(place).to_string();
    Origin { part, label }
}

/// What an event does to a variable: the label of its action, or where it does nothing the variable's name.
fn of_action(entry: Entry, table: &Table, names: &Names) -> Origin {
    let label = match table.action(entry.first, entry.second) {
        Some(place) => names.label(place).to_string(),
        None => names.own_name(entry.second as usize),
    };
    Origin {
        part: format!("actions of {}", names.event(entry.first)),
        label,
    }
}

fn of_witness(entry: Entry, table: &Table, names: &Names) -> Origin {
    let mut witnesses = table.of_event(tag::WITNESS, entry.first);
    let found = witnesses.find(|(_, row)| row.b == entry.second);
    Origin {
        part: format!("witnesses of {}", names.event(entry.first)),
        label: found.map_or(String::new(), |(place, _)| names.label(place).to_string()),
    }
}
