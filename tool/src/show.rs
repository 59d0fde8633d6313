//! A sequent as mathematics: its label, the hypotheses by their origin, the goal last.

use crate::names::Names;
use crate::origin::origin;
use crate::sequents::Spelled;
use crate::table::Table;

pub fn show(spelled: &Spelled, count: u64, table: &Table, names: &Names) -> String {
    let sequent = &spelled.sequent;
    let (label, component) = (sequent.label(table, names), sequent.component(table, names));
    let mut text = format!("sequent {} of {count}: {label} in {component}\n", sequent.k);
    let origins = sequent
        .hypotheses
        .iter()
        .map(|&entry| origin(entry, table, names));
    let origins: Vec<_> = origins.collect();
    let width = origins.iter().map(|one| one.label.chars().count()).max();
    let width = width.unwrap_or(0);
    let mut part = "";
    for (origin, formula) in origins.iter().zip(&spelled.hypotheses) {
        if origin.part != part {
            text += &format!("  {}\n", origin.part);
            part = &origin.part;
        }
        let formula = names.written(formula, table);
        text += &format!("    {:width$}  {formula}\n", origin.label);
    }
    text + &format!("  ⊢ {}\n", names.written(&spelled.goal, table))
}
