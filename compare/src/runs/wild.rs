//! Steps with any values: mostly not allowed, by every formula that can forbid them.

use super::simulate::{rows_of, Simulator};
use crate::generate::random::Random;
use crate::replay::machine::{Change, Step};
use crate::replay::{Cause, NOT_A_RUN, OUTSIDE, UNDEFINED};
use crate::rows::Row;

/// What a step may be made for: allowed, or refused by a number.
const WANTED: [Option<i32>; 6] = [
    None,
    Some(OUTSIDE),
    Some(OUTSIDE),
    Some(UNDEFINED),
    Some(UNDEFINED),
    Some(NOT_A_RUN),
];

/// Steps that are tried for it.
const STEPS: usize = 20;

impl Simulator<'_> {
    /// The rows of an initialisation with any values.
    pub fn wild_start(&mut self, random: &mut Random) -> Vec<Row> {
        let step = self.machine.step(self.machine.initial);
        self.wild(step.expect("there is one"), random)
    }

    /// The rows of a step from here with any values, if there is an event for it.
    pub fn wild_step(&mut self, random: &mut Random) -> Option<Vec<Row>> {
        let event = random.maybe(&self.events)?;
        let machine = self.machine;
        Some(self.wild(machine.step(event)?, random))
    }

    /// Of several steps the first that is refused, or allowed, as chosen before.
    fn wild(&mut self, step: &Step, random: &mut Random) -> Vec<Row> {
        let wanted = random.pick(&WANTED);
        for _ in 0..STEPS {
            self.wild_inputs(step, random);
            self.wild_outcome(step, random);
            let refused = self.machine.judge(step, &self.state).err();
            if refused.map(Cause::number) == wanted {
                break;
            }
        }
        rows_of(step, &self.state)
    }

    /// Half of the inputs meet all conditions, if such are found, so that faults in the actions are met too.
    fn wild_inputs(&mut self, step: &Step, random: &mut Random) {
        if random.one_in(2) {
            self.choose_inputs(step, random);
            return;
        }
        for one in step.inputs() {
            self.state.now[one.place()] = self.any_value(one, random);
        }
    }

    /// The after values that the actions ask for, as far as they have any, or others.
    fn wild_outcome(&mut self, step: &Step, random: &mut Random) {
        let variables = step.logged.iter().filter(|one| one.variable);
        for (&one, &(place, change)) in variables.zip(&step.variables) {
            let wanted = match change {
                Change::Equal(root) => self.machine.value(root, &self.state).ok(),
                Change::SuchThat(_) if random.one_in(2) => None,
                Change::SuchThat(root) => self.such_that(one, root, random),
                Change::Kept => Some(self.state.now[place]),
            };
            let fits = |&value: &i64| i32::try_from(value).is_ok() && !random.one_in(16);
            let value = wanted.filter(fits);
            self.state.after[place] = value.unwrap_or_else(|| self.any_value(one, random));
        }
    }
}
