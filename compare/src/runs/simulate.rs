//! Real runs of a table: values are tried until a step is allowed.

use super::values::any_integer;
use crate::formula::LITERAL;
use crate::generate::random::Random;
use crate::replay::log::Logged;
use crate::replay::machine::{Change, Machine, Step};
use crate::replay::term::State;
use crate::replay::Role;
use crate::rows::{bytes_of, Row};
use crate::table::*;

/// How often a value is changed in search of constants or parameters that are allowed.
const CHANGES: usize = 60;

/// How many after values are tried for a 52 action.
const AFTER_VALUES: usize = 60;

/// How often an initialisation is searched for, and the steps by which those that are found are told apart.
const SEARCHES: usize = 4;
const TRIAL: usize = 16;

/// Initialisations of which `simulate` takes the best.
const STARTS: usize = 16;

/// Walks from state to state of a machine.
#[derive(Clone)]
pub struct Simulator<'a> {
    pub machine: &'a Machine,
    literals: Vec<i32>,
    identifiers: usize,
    /// Concrete events but the initialisation.
    pub events: Vec<i32>,
    pub state: State,
}

/// A log of so many steps after an initialisation, or how far it was found.
pub fn simulate(table: &Table, steps: u64, seed: u64) -> Result<Vec<u8>, String> {
    let (machine, mut random) = (Machine::of(table), Random::new(seed));
    let mut simulator = Simulator::new(table, &machine);
    let first = simulator.start(STARTS, &mut random);
    let mut log = bytes_of(&first.ok_or("no initialisation was found")?);
    for taken in 0..steps {
        let rows = simulator.step(&mut random);
        let rows = rows.ok_or(format!("no step was found after {taken}"))?;
        log.extend(bytes_of(&rows));
    }
    Ok(log)
}

impl<'a> Simulator<'a> {
    pub fn new(table: &Table, machine: &'a Machine) -> Simulator<'a> {
        let literals = table.nodes.iter().filter(|node| node.operator == LITERAL);
        let numbers = 1..=table.events.len() as i32;
        let later = |&event: &i32| event != machine.initial && machine.step(event).is_some();
        Simulator {
            machine,
            literals: literals.map(|node| node.b).collect(),
            identifiers: table.identifiers.len(),
            events: numbers.filter(later).collect(),
            state: State::default(),
        }
    }

    /// The rows of an initialisation: of so many, the one from which most events were met.
    pub fn start(&mut self, starts: usize, random: &mut Random) -> Option<Vec<Row>> {
        let mut best: Option<(usize, Vec<Row>, State)> = None;
        for _ in 0..starts {
            let Some(rows) = self.initialise(random) else {
                continue;
            };
            let met = self.clone().met(random);
            if best.as_ref().is_none_or(|one| one.0 < met) {
                best = Some((met, rows, self.state.clone()));
            }
            if met == self.events.len() {
                break;
            }
        }
        let (_, rows, state) = best?;
        self.state = state;
        Some(rows)
    }

    fn initialise(&mut self, random: &mut Random) -> Option<Vec<Row>> {
        let step = self.machine.step(self.machine.initial)?;
        (0..SEARCHES).find_map(|_| self.take(step, random))
    }

    /// How many events are met by a few steps from here.
    fn met(mut self, random: &mut Random) -> usize {
        let mut met = Vec::new();
        for _ in 0..TRIAL {
            let Some(rows) = self.step(random) else {
                break;
            };
            met.push(rows[0].a);
        }
        met.sort();
        met.dedup();
        met.len()
    }

    /// The rows of a step of any event that has one.
    pub fn step(&mut self, random: &mut Random) -> Option<Vec<Row>> {
        let machine = self.machine;
        for place in 0..self.events.len() {
            let other = random.between(place, self.events.len() - 1);
            self.events.swap(place, other);
            let step = machine.step(self.events[place])?;
            if let Some(rows) = self.take(step, random) {
                return Some(rows);
            }
        }
        None
    }

    /// Takes a step of this event, if values are found that allow it.
    fn take(&mut self, step: &Step, random: &mut Random) -> Option<Vec<Row>> {
        let found = self.choose_inputs(step, random) && self.choose_outcome(step, random);
        if !found {
            return None;
        }
        let rows = rows_of(step, &self.state);
        step.settle(&mut self.state);
        Some(rows)
    }

    /// Constants or parameters that meet the axioms and guards: one value after another is changed, for no worse.
    pub fn choose_inputs(&mut self, step: &Step, random: &mut Random) -> bool {
        let inputs = step.inputs();
        for &one in &inputs {
            self.state.now[one.place()] = self.any_value(one, random);
        }
        let all = step.conditions.len();
        let mut met = self.met_conditions(step);
        for _ in 0..CHANGES {
            let Some(one) = random.maybe(&inputs).filter(|_| met < all) else {
                break;
            };
            let old = self.state.now[one.place()];
            self.state.now[one.place()] = self.any_value(one, random);
            let met_now = self.met_conditions(step);
            if met_now < met {
                self.state.now[one.place()] = old;
            } else {
                met = met_now;
            }
        }
        met == all
    }

    /// How many axioms and guards are true before the first that isn't.
    fn met_conditions(&self, step: &Step) -> usize {
        let conditions = step.conditions.iter();
        let is_true = |&&(_, root): &&(Role, i32)| self.machine.value(root, &self.state) == Ok(1);
        conditions.take_while(is_true).count()
    }

    /// After values that the actions allow and that a row can hold.
    fn choose_outcome(&mut self, step: &Step, random: &mut Random) -> bool {
        let variables = step.logged.iter().filter(|one| one.variable);
        for (&one, &(place, change)) in variables.zip(&step.variables) {
            let found = match change {
                Change::Equal(root) => self.machine.value(root, &self.state).ok(),
                Change::SuchThat(root) => self.such_that(one, root, random),
                Change::Kept => Some(self.state.now[place]),
            };
            match found.filter(|&value| i32::try_from(value).is_ok()) {
                Some(value) => self.state.after[place] = value,
                None => return false,
            }
        }
        true
    }

    /// An after value for which the predicate is true.
    pub fn such_that(&mut self, one: Logged, root: i32, random: &mut Random) -> Option<i64> {
        for _ in 0..AFTER_VALUES {
            let value = self.any_value(one, random);
            self.state.after[one.place()] = value;
            if self.machine.value(root, &self.state) == Ok(1) {
                return Some(value);
            }
        }
        None
    }

    /// A value of its type.
    pub fn any_value(&self, one: Logged, random: &mut Random) -> i64 {
        if one.boolean {
            return random.below(2) as i64;
        }
        any_integer(&self.literals, &self.state.now[..self.identifiers], random)
    }
}

/// The rows of a step with these values.
pub fn rows_of(step: &Step, state: &State) -> Vec<Row> {
    rows_with(step, &step.logged, state)
}

/// The row 90 of a step, and rows 91 of these identifiers with their values.
pub fn rows_with(step: &Step, identifiers: &[Logged], state: &State) -> Vec<Row> {
    let mut rows = vec![Row::new(90, step.event, 0, 0)];
    for one in identifiers {
        let values = if one.variable {
            &state.after
        } else {
            &state.now
        };
        rows.push(Row::new(91, one.number, values[one.place()] as i32, 0));
    }
    rows
}
