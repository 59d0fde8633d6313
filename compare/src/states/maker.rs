//! Makes states of a table, and steps for them.

use super::values::fitting_record;
use crate::generate::random::Random;
use crate::press::{given, Cause, Panel, Record};
use crate::replay;
use crate::replay::machine::{Change, Step};
use crate::replay::term::State;
use crate::replay::{Role, Verdict, OUTSIDE, UNDEFINED};
use crate::rows::{bytes_of, Row};
use crate::runs::simulate::Simulator;
use crate::table::*;

/// Initialisations of which the best is taken.
const STARTS: usize = 2;

/// States and steps that are tried for what is wanted of a press.
const SEARCHES: usize = 14;

/// What a press may be wanted to give.
#[derive(Clone, Copy, Debug, PartialEq, Eq)]
pub enum Wanted {
    Performed,
    /// Performed, with a value after it that no row can hold.
    Wide,
    Number(i32),
    /// 18 by a formula that is false.
    False(Role),
}

pub const WANTED: [Wanted; 12] = [
    Wanted::Performed,
    Wanted::Performed,
    Wanted::Wide,
    Wanted::Wide,
    Wanted::Number(OUTSIDE),
    Wanted::Number(OUTSIDE),
    Wanted::Number(UNDEFINED),
    Wanted::Number(UNDEFINED),
    Wanted::False(Role::Axiom),
    Wanted::False(Role::Guard),
    Wanted::False(Role::Guard),
    Wanted::False(Role::SuchThat),
];

/// A table with its panel, and what tries values.
pub struct Maker<'a> {
    pub table: &'a Table,
    pub panel: &'a Panel,
    simulator: Simulator<'a>,
}

/// A list of records and a step for it.
pub type Pair = (Vec<Record>, Vec<u8>);

impl<'a> Maker<'a> {
    pub fn new(table: &'a Table, panel: &'a Panel) -> Maker<'a> {
        Maker {
            table,
            panel,
            simulator: Simulator::new(table, &panel.machine),
        }
    }

    /// The state after an initialisation, if one is found, with the rows that log it.
    pub fn initial(&mut self, random: &mut Random) -> Option<(Vec<Row>, Vec<Record>)> {
        let rows = self.simulator.start(STARTS, random)?;
        let state = self.simulator.state.clone();
        Some((rows, self.records(&state, random)))
    }

    /// These values of constants and variables; those of all other records are any.
    fn records(&self, state: &State, random: &mut Random) -> Vec<Record> {
        let identifiers = self.table.identifiers.iter().enumerate();
        let record = |(place, one): (usize, &Identifier)| {
            let mut record = fitting_record(one.type_number, random);
            if one.kind == CONSTANT || is_variable_of(CONCRETE, one.kind) {
                record.value = state.now[place];
            }
            record
        };
        identifiers.map(record).collect()
    }

    /// Constants that meet the axioms, if such are found, and any values of all others; one in four times of the constants too.
    pub fn any_state(&mut self, random: &mut Random) -> Vec<Record> {
        let initial = self.panel.machine.step(self.panel.machine.initial);
        self.simulator.state = State::default();
        self.simulator
            .choose_inputs(initial.expect("there is one"), random);
        let constants = self.simulator.state.clone();
        let any = random.one_in(4);
        let mut list = self.records(&constants, random);
        for (record, one) in list.iter_mut().zip(&self.table.identifiers) {
            if any || one.kind != CONSTANT {
                *record = fitting_record(one.type_number, random);
            }
        }
        list
    }

    /// The list with other values of some constants, or of some variables.
    fn varied(&self, list: &[Record], random: &mut Random) -> Vec<Record> {
        let constants = random.one_in(2);
        let mut list = list.to_vec();
        for (record, one) in list.iter_mut().zip(&self.table.identifiers) {
            if (one.kind == CONSTANT) == constants && random.one_in(2) {
                *record = fitting_record(one.type_number, random);
            }
        }
        list
    }

    /// A step of any event for this list; values that fit are searched for, or not. Without events, a row 90 of none.
    pub fn step(&mut self, list: &[Record], fitting: bool, random: &mut Random) -> Vec<u8> {
        let panel = self.panel;
        let event = random.maybe(&self.simulator.events).unwrap_or(0);
        let rows = match panel.event(event) {
            Some(step) => self.rows(step, list, fitting, random),
            None => vec![Row::new(90, event, 0, 0)],
        };
        bytes_of(&rows)
    }

    fn rows(
        &mut self,
        step: &Step,
        list: &[Record],
        fitting: bool,
        random: &mut Random,
    ) -> Vec<Row> {
        self.simulator.state = State::default();
        for (now, record) in self.simulator.state.now.iter_mut().zip(list) {
            *now = record.value;
        }
        if fitting {
            self.simulator.choose_inputs(step, random);
        }
        let mut rows = vec![Row::new(90, step.event, 0, 0)];
        for one in given(step) {
            let fit = match root(step, one.place()) {
                Some(root) if fitting => self.simulator.such_that(one, root, random),
                None if fitting => Some(self.simulator.state.now[one.place()]),
                _ => None,
            };
            let value = fit.unwrap_or_else(|| self.simulator.any_value(one, random));
            rows.push(Row::new(91, one.number, value as i32, 0));
        }
        rows
    }

    /// A step that is performed, if one is found: one that changes a record, or else any.
    pub fn performed(&mut self, list: &[Record], random: &mut Random) -> Vec<u8> {
        let mut best = self.step(list, true, random);
        for _ in 0..SEARCHES {
            let step = self.step(list, true, random);
            match self.panel.after(&step, list) {
                Ok(after) if after != list => return step,
                Ok(_) => best = step,
                Err(_) => {}
            }
        }
        best
    }

    /// A list and a step that give what is wanted, if such are found, from this list on.
    pub fn searched(&mut self, list: &[Record], wanted: Wanted, random: &mut Random) -> Pair {
        let mut pair = (list.to_vec(), self.step(list, true, random));
        for _ in 0..SEARCHES {
            if self.gives(&pair, wanted) {
                break;
            }
            let list = match random.below(3) {
                0 => list.to_vec(),
                1 => self.varied(list, random),
                _ => self.any_state(random),
            };
            let fitting = !random.one_in(3);
            let step = self.step(&list, fitting, random);
            pair = (list, step);
        }
        pair
    }

    fn gives(&self, (list, step): &Pair, wanted: Wanted) -> bool {
        match (self.panel.after(step, list), wanted) {
            (Ok(_), Wanted::Performed) => true,
            (Ok(after), Wanted::Wide) => after
                .iter()
                .zip(list)
                .any(|(after, before)| after != before && i32::try_from(after.value).is_err()),
            (Err(cause), Wanted::Number(number)) => cause.number() == number,
            (Err(cause), Wanted::False(role)) => cause == is_false(role),
            _ => false,
        }
    }
}

fn is_false(role: Role) -> Cause {
    Cause::Step(replay::Cause::Formula(role, Verdict::False))
}

/// The root of the 52 action for this variable, if there is one.
fn root(step: &Step, place: usize) -> Option<i32> {
    let mut changes = step.variables.iter().filter(|change| change.0 == place);
    changes.find_map(|change| match change.1 {
        Change::SuchThat(root) => Some(root),
        _ => None,
    })
}
