//! A log as presses: the records after its initialisation, and its other steps with only the rows that a press has.

use super::values::fitting_record;
use crate::generate::random::Random;
use crate::press::{given, Panel, Record};
use crate::replay::log::Log;
use crate::replay::machine::Step;
use crate::replay::term::State;
use crate::rows::bytes_of;
use crate::runs::simulate::rows_with;
use crate::table::Table;

/// A log's initialisation as a list of records, then its steps.
#[derive(Clone, Debug)]
pub struct Reduced {
    pub state: Vec<Record>,
    pub steps: Vec<Pressed>,
}

/// A step to press, and the list that the log has after it.
#[derive(Clone, Debug)]
pub struct Pressed {
    pub step: Vec<u8>,
    pub after: Vec<Record>,
}

/// The log as far as its rows are those of steps, if it has an initialisation. What no log has, parameters and abstract
/// variables, gets any values.
pub fn reduced(table: &Table, panel: &Panel, log: &[u8], random: &mut Random) -> Option<Reduced> {
    let types = table.identifiers.iter().map(|one| one.type_number);
    let mut list: Vec<Record> = types.map(|one| fitting_record(one, random)).collect();
    let (mut log, mut state) = (Log::new(log), State::default());
    let first = panel.machine.read(&mut log, true, &mut state).ok()?;
    for one in first.inputs() {
        list[one.place()].value = state.now[one.place()];
    }
    settle(first, &mut state, &mut list);
    let mut reduced = Reduced {
        state: list.clone(),
        steps: vec![],
    };
    while let Ok(step) = panel.machine.read(&mut log, false, &mut state) {
        let rows = rows_with(step, &given(step), &state);
        settle(step, &mut state, &mut list);
        reduced.steps.push(Pressed {
            step: bytes_of(&rows),
            after: list.clone(),
        });
    }
    Some(reduced)
}

fn settle(step: &Step, state: &mut State, list: &mut [Record]) {
    step.settle(state);
    for &(place, _) in &step.variables {
        list[place].value = state.now[place];
    }
}
