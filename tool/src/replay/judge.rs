//! What a step must meet, in the order in which a replay reads it, and the first thing that it doesn't.

use super::find::{LOG, OUTSIDE, UNDEFINED};
use super::terms::{value, Fault, Faulty, State};
use crate::formula::Formula;
use crate::log::shape::Shapes;
use crate::table::{tag, Table};

/// Why a step isn't allowed. Places are those of the table's rows, counted from 0.
#[derive(Clone, Debug)]
pub enum Verdict {
    /// A term of the formula that this row names has no value.
    Faulty {
        place: usize,
        fault: Fault,
        term: Formula,
        operands: Vec<i64>,
    },
    /// The axiom, guard or "becomes such that" of this row is false.
    False { place: usize },
    /// The action of this row gives another value than the logged one.
    Gives { place: usize, value: i64 },
    /// The variable isn't assigned, but has changed.
    Changed { variable: i64 },
}

impl Verdict {
    pub fn number(&self) -> u64 {
        match self {
            Verdict::Faulty { fault, .. } => match fault {
                Fault::Outside => OUTSIDE,
                Fault::Undefined => UNDEFINED,
            },
            _ => LOG,
        }
    }
}

/// Why a step of this event isn't allowed, if it isn't: axioms at the initialisation, guards, then each variable.
pub fn judge(table: &Table, shapes: &Shapes, event: i64, state: &State) -> Option<Verdict> {
    let axioms = table.places(tag::AXIOM).filter(|_| event == shapes.initial);
    let guards = table.of_event(tag::GUARD, event).map(|(place, _)| place);
    let mut conditions = axioms.chain(guards);
    let broken = conditions.find_map(|place| judge_predicate(table, place, state));
    let logged = &shapes.of_event(event)?.logged;
    let mut variables = logged.iter().filter(|one| one.variable);
    broken.or_else(|| variables.find_map(|one| judge_variable(table, event, one.number, state)))
}

fn judge_predicate(table: &Table, place: usize, state: &State) -> Option<Verdict> {
    let formula = table.root(place).and_then(|root| table.formula(root))?;
    match value(&formula, state) {
        Ok(1) => None,
        Ok(_) => Some(Verdict::False { place }),
        Err(faulty) => Some(without_value(place, faulty)),
    }
}

fn judge_variable(table: &Table, event: i64, variable: i64, state: &State) -> Option<Verdict> {
    let after = state.after[variable as usize - 1];
    let Some(place) = table.action(event, variable) else {
        let changed = after != state.now[variable as usize - 1];
        return changed.then_some(Verdict::Changed { variable });
    };
    if table.rows[place].tag == tag::BECOMES_SUCH {
        return judge_predicate(table, place, state);
    }
    let formula = table.root(place).and_then(|root| table.formula(root))?;
    match value(&formula, state) {
        Ok(value) => (value != after).then_some(Verdict::Gives { place, value }),
        Err(faulty) => Some(without_value(place, faulty)),
    }
}

fn without_value(place: usize, faulty: Faulty) -> Verdict {
    Verdict::Faulty {
        place,
        fault: faulty.fault,
        term: faulty.term.clone(),
        operands: faulty.operands,
    }
}
