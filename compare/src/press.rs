//! Presses an event: one step of a table's refined machine on a lent list of records, performed or only looked at.

use crate::checks::{accept, Refusal};
use crate::replay::log::{Log, Logged};
use crate::replay::machine::{is_wanted, Change, Machine, Step};
use crate::replay::term::State;
use crate::replay::{self, Role, Stop, NOT_A_RUN};
use crate::table::*;

/// The value (booleans 0 or 1) and the type of an identifier, laid out as the C header has it.
#[repr(C)]
#[derive(Clone, Copy, Debug, Default, PartialEq, Eq)]
pub struct Record {
    pub value: i64,
    pub type_number: u64,
}

/// Performs the step on the list, or changes nothing of it: the table's refusal, or else the step's, with row 0.
pub fn press(table: &[u8], step: &[u8], state: &mut [Record]) -> Result<(), Refusal> {
    let panel = Panel::of(&accept(table)?);
    panel.press(step, state).map_err(Cause::refusal)
}

/// Writes into the second list what pressing would make of the first, or changes nothing of either.
pub fn preview(
    table: &[u8],
    step: &[u8],
    first: &[Record],
    second: &mut [Record],
) -> Result<(), Refusal> {
    let panel = Panel::of(&accept(table)?);
    panel.preview(step, first, second).map_err(Cause::refusal)
}

/// Why a step isn't performed.
#[derive(Clone, Copy, Debug, PartialEq, Eq, PartialOrd, Ord)]
pub enum Cause {
    /// The first list hasn't one record for each identifier.
    Length,
    /// The second one hasn't.
    SecondLength,
    /// A record has another type than its identifier.
    Type,
    /// A boolean's record holds neither 0 nor 1.
    Boolean,
    /// Something follows the step's last row.
    More,
    /// A row of the step, or a formula, by replay's rules.
    Step(replay::Cause),
}

impl Cause {
    pub fn number(self) -> i32 {
        match self {
            Cause::Step(cause) => cause.number(),
            _ => NOT_A_RUN,
        }
    }

    pub fn refusal(self) -> Refusal {
        Refusal {
            number: self.number(),
            row: 0,
        }
    }
}

impl From<replay::Cause> for Cause {
    fn from(cause: replay::Cause) -> Cause {
        Cause::Step(cause)
    }
}

impl From<Stop> for Cause {
    fn from(stop: Stop) -> Cause {
        Cause::Step(stop.cause)
    }
}

/// What presses need of an accepted table.
pub struct Panel {
    pub machine: Machine,
    types: Vec<i32>,
}

impl Panel {
    pub fn of(table: &Table) -> Panel {
        let types = table.identifiers.iter().map(|one| one.type_number);
        Panel {
            machine: Machine::of(table),
            types: types.collect(),
        }
    }

    pub fn press(&self, step: &[u8], state: &mut [Record]) -> Result<(), Cause> {
        let after = self.after(step, state)?;
        state.copy_from_slice(&after);
        Ok(())
    }

    pub fn preview(
        &self,
        step: &[u8],
        first: &[Record],
        second: &mut [Record],
    ) -> Result<(), Cause> {
        if second.len() != self.types.len() {
            return Err(Cause::SecondLength);
        }
        let after = self.after(step, first)?;
        second.copy_from_slice(&after);
        Ok(())
    }

    /// What the step makes of the list: first the list and the rows are judged, then the formulas.
    pub fn after(&self, step: &[u8], list: &[Record]) -> Result<Vec<Record>, Cause> {
        let (step, mut state) = self.begin(step, list)?;
        self.judge_conditions(step, &state)?;
        self.change(step, &mut state)?;
        let mut after = list.to_vec();
        for &(place, _) in &step.variables {
            after[place].value = state.after[place];
        }
        Ok(after)
    }

    /// The event, and the values that its formulas see.
    pub fn begin(&self, step: &[u8], list: &[Record]) -> Result<(&Step, State), Cause> {
        self.judge_list(list)?;
        let mut state = State::default();
        for (now, record) in state.now.iter_mut().zip(list) {
            *now = record.value;
        }
        let step = self.read(step, &mut state)?;
        Ok((step, state))
    }

    /// One record for each identifier, each of its type, whatever its kind.
    fn judge_list(&self, list: &[Record]) -> Result<(), Cause> {
        if list.len() != self.types.len() {
            return Err(Cause::Length);
        }
        for (record, &type_number) in list.iter().zip(&self.types) {
            if record.type_number != type_number as u64 {
                return Err(Cause::Type);
            }
            if type_number == BOOLEAN && !(0..=1).contains(&record.value) {
                return Err(Cause::Boolean);
            }
        }
        Ok(())
    }

    /// Reads the step's rows, all of them: parameters stand in place of their records, given after values beside them.
    fn read(&self, step: &[u8], state: &mut State) -> Result<&Step, Cause> {
        let mut log = Log::new(step);
        let event = log.event()?;
        let step = self.event(event).ok_or(replay::Cause::Event)?;
        for one in given(step) {
            let value = log.value(one)?;
            if one.variable {
                state.after[one.place()] = value;
            } else {
                state.now[one.place()] = value;
            }
        }
        match log.is_at_end() {
            true => Ok(step),
            false => Err(Cause::More),
        }
    }

    /// The event with this number, if it can be pressed: concrete, and not the initialisation.
    pub fn event(&self, event: i32) -> Option<&Step> {
        let step = self.machine.step(event);
        step.filter(|step| step.event != self.machine.initial)
    }

    /// Axioms, then guards.
    fn judge_conditions(&self, step: &Step, state: &State) -> Result<(), Cause> {
        for &(role, root) in self.axioms().iter().chain(&step.conditions) {
            is_wanted(role, self.machine.value(root, state), 1)?;
        }
        Ok(())
    }

    /// The axioms are the conditions of the initialisation, which has no guards.
    pub fn axioms(&self) -> &[(Role, i32)] {
        let initial = self.machine.step(self.machine.initial);
        &initial.expect("an accepted table has one").conditions
    }

    /// The after values of all variables, in order. The values before stay, so that each action reads them.
    fn change(&self, step: &Step, state: &mut State) -> Result<(), Cause> {
        for &(place, change) in &step.variables {
            match change {
                Change::Equal(root) => state.after[place] = self.equal(root, state)?,
                Change::SuchThat(root) => {
                    is_wanted(Role::SuchThat, self.machine.value(root, state), 1)?;
                }
                Change::Kept => state.after[place] = state.now[place],
            }
        }
        Ok(())
    }

    fn equal(&self, root: i32, state: &State) -> Result<i64, Cause> {
        let value = self.machine.value(root, state);
        value.map_err(|fault| replay::Cause::Formula(Role::Equal, fault.into()).into())
    }
}

/// What a step's rows 91 give, in order: the event's parameters, and the after values of its 52 actions.
pub fn given(step: &Step) -> Vec<Logged> {
    let such_that = |one: &Logged| {
        let mut changes = step
            .variables
            .iter()
            .filter(|change| change.0 == one.place());
        changes.any(|change| matches!(change.1, Change::SuchThat(_)))
    };
    let logged = step.logged.iter();
    let given = logged.filter(|one| !one.variable || such_that(one));
    given.copied().collect()
}
