//! Damaged presses: lists and rows with one fault, each fault in each place.

use super::batch::Case;
use super::values::{any_record, fitting_record};
use crate::generate::random::Random;
use crate::press::{Panel, Record};
use crate::rows::{bytes_of, Row};
use crate::runs::damage::{self as rows, Subject as Logged};
use crate::runs::recorded::Recorded;
use crate::runs::values::any_integer;
use crate::shrink::rows_of;
use crate::table::*;

#[derive(Clone, Copy, Debug, PartialEq, Eq, PartialOrd, Ord)]
pub enum Damage {
    /// The first list lacks a record, its last one or another.
    Shorter,
    /// It has one record more.
    Longer,
    NoRecords,
    /// It has 65 records or another number.
    OtherLength,
    /// A record has no type, an unknown one, the other one, or one of which some bits fit.
    OtherType,
    /// A boolean's record holds 2, −1 or a number farther off.
    NoBoolean,
    /// The second list has another length.
    SecondLength,
    /// The step is the initialisation, with the rows that a log has for it.
    Initialisation,
    /// It is an abstract event's, with rows for its parameters and 52 actions.
    Abstract,
    /// It has a row more, in order, of another variable, a constant or another event's parameter.
    Extra,
    /// It has rows for all variables, as in a log.
    AsLogged,
    /// It comes again and again, past the most bytes that a table may have.
    Long,
    /// A damage of a log's rows.
    Rows(rows::Damage),
}

/// Those of lists, the ones with most places more often, then those of rows.
pub const LISTS: [Damage; 12] = [
    Damage::Shorter,
    Damage::Longer,
    Damage::NoRecords,
    Damage::OtherLength,
    Damage::OtherType,
    Damage::OtherType,
    Damage::OtherType,
    Damage::NoBoolean,
    Damage::NoBoolean,
    Damage::NoBoolean,
    Damage::SecondLength,
    Damage::SecondLength,
];

pub const ROWS: [Damage; 21] = [
    Damage::Initialisation,
    Damage::Abstract,
    Damage::Extra,
    Damage::AsLogged,
    Damage::Long,
    Damage::Rows(rows::Damage::ByOne),
    Damage::Rows(rows::Damage::ToAnEnd),
    Damage::Rows(rows::Damage::NoBoolean),
    Damage::Rows(rows::Damage::Dropped),
    Damage::Rows(rows::Damage::Doubled),
    Damage::Rows(rows::Damage::Exchanged),
    Damage::Rows(rows::Damage::OtherTag),
    Damage::Rows(rows::Damage::UnusedColumn),
    Damage::Rows(rows::Damage::OutOfForm),
    Damage::Rows(rows::Damage::Byte),
    Damage::Rows(rows::Damage::OtherEvent),
    Damage::Rows(rows::Damage::OtherIdentifier),
    Damage::Rows(rows::Damage::Torn),
    Damage::Rows(rows::Damage::CutInside),
    Damage::Rows(rows::Damage::Emptied),
    Damage::Rows(rows::Damage::More),
];

/// Lengths that are worth trying, besides those near the right one.
const LENGTHS: [usize; 9] = [1, 2, 63, 64, 65, 66, 128, 200, 256];

/// Values that are no booleans, some of them by their upper bits alone.
const NO_BOOLEANS: [i64; 10] = [
    -1,
    -1,
    2,
    2,
    3,
    256,
    1 << 32,
    (1 << 32) + 1,
    i64::MIN,
    i64::MAX,
];

/// A table, and the case to damage, which may be damaged already.
pub struct Subject<'a> {
    pub table: &'a Table,
    pub panel: &'a Panel,
    pub state: &'a [Record],
    pub second: &'a [Record],
    pub step: &'a [u8],
}

impl Subject<'_> {
    /// The case with this damage somewhere, if there is a place for it.
    pub fn damaged(&self, damage: Damage, random: &mut Random) -> Option<Case> {
        match damage {
            Damage::SecondLength => {
                let second = resized(self.second, random)?;
                let state = Some(self.state.to_vec());
                let step = self.step.to_vec();
                Some(Case {
                    state,
                    second,
                    step,
                })
            }
            Damage::Initialisation => Some(self.with_rows(self.initialisation(random))),
            Damage::Abstract => Some(self.with_rows(self.abstract_step(random)?)),
            Damage::Extra => Some(self.with_rows(self.extra(random)?)),
            Damage::AsLogged => Some(self.with_rows(self.as_logged(random)?)),
            Damage::Long => Some(self.with_step(self.long()?)),
            Damage::Rows(damage) => Some(self.with_step(self.bad_rows(damage, random)?)),
            _ => Some(self.with_state(self.bad_list(damage, random)?)),
        }
    }

    fn with_state(&self, state: Vec<Record>) -> Case {
        Case {
            state: Some(state),
            second: self.second.to_vec(),
            step: self.step.to_vec(),
        }
    }

    fn with_step(&self, step: Vec<u8>) -> Case {
        Case {
            state: Some(self.state.to_vec()),
            second: self.second.to_vec(),
            step,
        }
    }

    fn with_rows(&self, rows: Vec<Row>) -> Case {
        self.with_step(bytes_of(&rows))
    }

    fn bad_list(&self, damage: Damage, random: &mut Random) -> Option<Vec<Record>> {
        let mut state = self.state.to_vec();
        match damage {
            Damage::Shorter if random.one_in(3) => drop(state.remove(self.any_place(random)?)),
            Damage::Shorter => drop(state.pop()?),
            Damage::Longer => state.push(match random.one_in(2) {
                true => any_record(random),
                false => state.last().copied().unwrap_or_default(),
            }),
            Damage::NoRecords => state.clear(),
            Damage::OtherLength => state = resized(self.state, random)?,
            Damage::OtherType => {
                let place = self.place_of_kind(|_| true, random)?;
                let right = self.table.identifiers[place].type_number;
                state[place].type_number = other_type(right as u64, random);
            }
            _ => {
                let boolean = |one: &Identifier| one.type_number == BOOLEAN;
                let place = self.place_of_kind(boolean, random)?;
                state[place].value = random.pick(&NO_BOOLEANS);
            }
        }
        (state != self.state).then_some(state)
    }

    fn any_place(&self, random: &mut Random) -> Option<usize> {
        let places: Vec<usize> = (0..self.state.len()).collect();
        random.maybe(&places)
    }

    /// A record of an identifier that fits, of each kind as often.
    fn place_of_kind(
        &self,
        fits: impl Fn(&Identifier) -> bool,
        random: &mut Random,
    ) -> Option<usize> {
        let all = self.table.identifiers.iter().take(self.state.len());
        let all = all.enumerate();
        let fitting: Vec<(usize, i32)> = all
            .filter(|(_, one)| fits(one))
            .map(|(place, one)| (place, one.kind))
            .collect();
        let mut kinds: Vec<i32> = fitting.iter().map(|one| one.1).collect();
        kinds.sort();
        kinds.dedup();
        let kind = random.maybe(&kinds)?;
        let places = fitting.iter().filter(|one| one.1 == kind);
        let places: Vec<usize> = places.map(|one| one.0).collect();
        random.maybe(&places)
    }

    /// The concrete initialisation with any values of what it logs.
    fn initialisation(&self, random: &mut Random) -> Vec<Row> {
        let initial = self.panel.machine.initial;
        let step = self.panel.machine.step(initial);
        let logged = step.map_or(vec![], |step| step.logged.clone());
        let numbers = logged.iter().map(|one| one.number);
        // As a press gives it, with its 52 actions alone, or as a log has it.
        let numbers: Vec<i32> = match random.one_in(2) {
            true => numbers
                .filter(|&one| self.is_such_that(initial, one))
                .collect(),
            false => numbers.collect(),
        };
        self.rows_for(initial, &numbers, random)
    }

    fn abstract_step(&self, random: &mut Random) -> Option<Vec<Row>> {
        let events = 1..=self.table.events.len() as i32;
        let is_abstract = |&event: &i32| self.table.events[event as usize - 1].machine == ABSTRACT;
        let events: Vec<i32> = events.filter(is_abstract).collect();
        let event = random.maybe(&events)?;
        let all = 1..=self.table.identifiers.len() as i32;
        let given = |&number: &i32| {
            let one = self.table.identifiers[number as usize - 1];
            one.is_parameter() && one.owner == event || self.is_such_that(event, number)
        };
        let numbers: Vec<i32> = all.filter(given).collect();
        Some(self.rows_for(event, &numbers, random))
    }

    fn is_such_that(&self, event: i32, variable: i32) -> bool {
        let action = self.table.action(event, variable);
        action.is_some_and(|action| action.tag == BECOMES_SUCH_THAT)
    }

    fn rows_for(&self, event: i32, numbers: &[i32], random: &mut Random) -> Vec<Row> {
        let mut rows = vec![Row::new(90, event, 0, 0)];
        rows.extend(numbers.iter().map(|&one| self.value_row(one, random)));
        rows
    }

    /// A row 91 with a value that fits.
    fn value_row(&self, number: i32, random: &mut Random) -> Row {
        let one = self.table.identifiers[number as usize - 1];
        let value = match one.type_number {
            BOOLEAN => random.below(2) as i64,
            _ => any_integer(&[], &[], random),
        };
        Row::new(91, number, value as i32, 0)
    }

    /// The step's rows, if all are in the row form and there are any.
    fn rows(&self) -> Option<Vec<Row>> {
        rows_of(self.step).filter(|rows| !rows.is_empty())
    }

    /// A row of an identifier that the step doesn't give, put in by its number.
    fn extra(&self, random: &mut Random) -> Option<Vec<Row>> {
        let mut rows = self.rows()?;
        let given: Vec<i32> = rows.iter().skip(1).map(|row| row.a).collect();
        let wanted = |one: &Identifier| match one.kind {
            ABSTRACT_VARIABLE | ABSTRACT_PARAMETER | CONSTANT => 1,
            // Another event's parameter, a variable that becomes equal or isn't assigned.
            _ => 3,
        };
        let mut others = Vec::new();
        for (one, number) in self.table.identifiers.iter().zip(1..) {
            if !given.contains(&number) {
                others.extend(vec![number; wanted(one)]);
            }
        }
        let number = random.maybe(&others)?;
        let before = given.iter().filter(|&&one| one < number).count();
        rows.insert(1 + before, self.value_row(number, random));
        Some(rows)
    }

    /// Rows for the variables that the step doesn't give too, with the values before.
    fn as_logged(&self, random: &mut Random) -> Option<Vec<Row>> {
        let given = self.rows()?;
        let logged = &self.panel.event(given[0].a)?.logged;
        if logged.len() + 1 == given.len() {
            return None;
        }
        let mut rows = vec![given[0]];
        for one in logged {
            let row = given[1..].iter().find(|row| row.a == one.number);
            rows.push(match row {
                Some(&row) => row,
                None => self.value_row(one.number, random),
            });
        }
        Some(rows)
    }

    fn long(&self) -> Option<Vec<u8>> {
        let times = Table::MOST_BYTES / self.step.len().max(1) + 1;
        (!self.step.is_empty()).then(|| self.step.repeat(times))
    }

    fn bad_rows(&self, damage: rows::Damage, random: &mut Random) -> Option<Vec<u8>> {
        let mut run = Recorded::default();
        run.push(&self.rows()?);
        let logged = Logged {
            table: self.table,
            machine: &self.panel.machine,
            run: &run,
        };
        let damaged = logged.damaged(damage, random)?;
        Some(damaged.log)
    }
}

/// The list with another number of records.
fn resized(list: &[Record], random: &mut Random) -> Option<Vec<Record>> {
    let near = [
        list.len() + 1,
        list.len() + 2,
        list.len().saturating_sub(1),
        0,
    ];
    let length = match random.one_in(2) {
        true => random.pick(&near),
        false => random.pick(&LENGTHS),
    };
    let mut resized = list.to_vec();
    let more = match random.one_in(2) {
        true => any_record(random),
        false => fitting_record(random.pick(&[INTEGER, BOOLEAN]), random),
    };
    resized.resize(length, more);
    (length != list.len()).then_some(resized)
}

fn other_type(right: u64, random: &mut Random) -> u64 {
    let swapped = 3 - right;
    random.pick(&[
        0,
        3,
        4,
        swapped,
        swapped,
        swapped,
        1 << 63,
        right | 1 << 63,
        right | 1 << 32,
        right | 1 << 8,
        right.wrapping_neg(),
        u64::MAX,
    ])
}
