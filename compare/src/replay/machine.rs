//! The refined machine of an accepted table, laid out once for steps of any number.

use super::log::{Log, Logged};
use super::term::{value, Answer, State};
use super::{Cause, Role, Stop, Verdict};
use crate::checks::initialisation;
use crate::table::*;

/// What the steps of a run need of a table.
pub struct Machine {
    nodes: Vec<Node>,
    /// The number of the concrete initialisation.
    pub initial: i32,
    /// By event number less one; nothing for abstract events.
    events: Vec<Option<Step>>,
}

/// A concrete event: what its steps log, and the formulas that allow them.
pub struct Step {
    pub event: i32,
    /// Constants or parameters, and variables, in identifier order.
    pub logged: Vec<Logged>,
    /// Roots that must be true, in order: axioms at the initialisation, then guards.
    pub conditions: Vec<(Role, i32)>,
    /// Variables in identifier order.
    pub variables: Vec<(usize, Change)>,
}

/// What becomes of a variable: the root of its action, or nothing if it isn't assigned.
#[derive(Clone, Copy, Debug, PartialEq, Eq)]
pub enum Change {
    Equal(i32),
    SuchThat(i32),
    Kept,
}

impl Machine {
    pub fn of(table: &Table) -> Machine {
        let numbers = 1..=table.events.len() as i32;
        Machine {
            nodes: table.nodes.clone(),
            initial: initialisation(table, CONCRETE).expect("an accepted table has one"),
            events: numbers.map(|number| step_of(table, number)).collect(),
        }
    }

    /// The number of steps after the initialisation, or where the log stops being a run.
    pub fn replay(&self, run: &[u8]) -> Result<u64, Stop> {
        let (mut log, mut state) = (Log::new(run), State::default());
        let mut steps = 0;
        self.replay_step(&mut log, true, &mut state)?;
        while !log.is_at_end() {
            self.replay_step(&mut log, false, &mut state)?;
            steps += 1;
        }
        Ok(steps)
    }

    /// One step: first all its rows, then what they must meet.
    fn replay_step(&self, log: &mut Log, first: bool, state: &mut State) -> Result<(), Stop> {
        let row = log.rows + 1;
        let step = self.read(log, first, state)?;
        self.judge(step, state)
            .map_err(|cause| Stop { row, cause })?;
        step.settle(state);
        Ok(())
    }

    /// Reads the rows of a step. The first one is the initialisation, all others aren't.
    pub fn read(&self, log: &mut Log, first: bool, state: &mut State) -> Result<&Step, Stop> {
        let event = log.event()?;
        let step = self
            .step(event)
            .filter(|step| (step.event == self.initial) == first);
        let step = step.ok_or(Stop {
            row: log.rows,
            cause: Cause::Event,
        })?;
        for &one in &step.logged {
            let value = log.value(one)?;
            if one.variable {
                state.after[one.place()] = value;
            } else {
                state.now[one.place()] = value;
            }
        }
        Ok(step)
    }

    /// Whether the step is allowed; if not, by its first fault.
    pub fn judge(&self, step: &Step, state: &State) -> Result<(), Cause> {
        for &(role, root) in &step.conditions {
            is_wanted(role, self.value(root, state), 1)?;
        }
        for &(place, change) in &step.variables {
            self.judge_change(change, place, state)?;
        }
        Ok(())
    }

    fn judge_change(&self, change: Change, place: usize, state: &State) -> Result<(), Cause> {
        let after = state.after[place];
        match change {
            Change::Equal(root) => is_wanted(Role::Equal, self.value(root, state), after),
            Change::SuchThat(root) => is_wanted(Role::SuchThat, self.value(root, state), 1),
            Change::Kept if after != state.now[place] => Err(Cause::Kept),
            Change::Kept => Ok(()),
        }
    }

    pub fn value(&self, root: i32, state: &State) -> Answer {
        value(&self.nodes, root, state)
    }

    /// The concrete event with this number, if there is one.
    pub fn step(&self, event: i32) -> Option<&Step> {
        let place = usize::try_from(event).ok()?.checked_sub(1)?;
        self.events.get(place)?.as_ref()
    }
}

impl Step {
    /// The constants or parameters that it logs.
    pub fn inputs(&self) -> Vec<Logged> {
        let inputs = self.logged.iter().filter(|one| !one.variable);
        inputs.copied().collect()
    }

    /// What the step leaves is what the next one starts from.
    pub fn settle(&self, state: &mut State) {
        for &(place, _) in &self.variables {
            state.now[place] = state.after[place];
        }
    }
}

/// A formula has its value first, then this is judged.
pub fn is_wanted(role: Role, answer: Answer, wanted: i64) -> Result<(), Cause> {
    match answer {
        Ok(value) if value == wanted => Ok(()),
        Ok(_) => Err(Cause::Formula(role, Verdict::False)),
        Err(fault) => Err(Cause::Formula(role, fault.into())),
    }
}

/// The steps of an event, if it is concrete.
fn step_of(table: &Table, event: i32) -> Option<Step> {
    let Event { machine, class, .. } = table.event(event)?;
    let first = class == INITIALISATION;
    let variables = table.variables(CONCRETE).into_iter();
    let change = |number: i32| (number as usize - 1, change_of(table, event, number));
    (machine == CONCRETE).then(|| Step {
        event,
        logged: logged_by(table, event, first),
        conditions: conditions_of(table, event, first),
        variables: variables.map(change).collect(),
    })
}

fn logged_by(table: &Table, event: i32, first: bool) -> Vec<Logged> {
    let is_logged = |one: &Identifier| match one.kind {
        CONSTANT => first,
        CONCRETE_PARAMETER => one.owner == event,
        kind => is_variable_of(CONCRETE, kind),
    };
    let numbered = table.identifiers.iter().zip(1..);
    let logged = numbered.filter(|(one, _)| is_logged(one));
    let logged = logged.map(|(one, number)| Logged {
        number,
        boolean: one.type_number == BOOLEAN,
        variable: one.is_variable(),
    });
    logged.collect()
}

fn conditions_of(table: &Table, event: i32, first: bool) -> Vec<(Role, i32)> {
    let axioms = table.tagged(AXIOM).filter(|_| first);
    let axioms = axioms.map(|row| (Role::Axiom, row.root));
    let guards = table.guards(event).map(|row| (Role::Guard, row.root));
    axioms.chain(guards).collect()
}

fn change_of(table: &Table, event: i32, variable: i32) -> Change {
    match table.action(event, variable) {
        Some(row) if row.tag == BECOMES_EQUAL => Change::Equal(row.root),
        Some(row) => Change::SuchThat(row.root),
        None => Change::Kept,
    }
}
