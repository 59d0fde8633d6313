//! Tables made to be pressed: each has an event for it, and most have parameters, variables of both sorts and axioms.

use crate::generate::draft::Draft;
use crate::generate::plan::Plan;
use crate::generate::random::Random;
use crate::runs::tables::{few, many, with_formulas};
use crate::table::Table;

/// A draft of an accepted table with few of everything.
pub fn pressed(random: &mut Random) -> Draft {
    let mut plan = few(random);
    if plan.ordinary + plan.new_events() == 0 {
        plan.anticipated = 1;
    }
    plan.abstract_variables = random.pick(&[0, 1, 1, 2]);
    plan.abstract_parameters = random.pick(&[0, 1, 1]);
    plan.concrete_variables += random.pick(&[0, 0, 1, 2]);
    plan.concrete_parameters = random.pick(&[0, 1, 1, 2, 3]);
    plan.concrete_invariants = random.pick(&[0, 0, 1]);
    plan.nodes = 8 * plan.concrete_invariants;
    plan.actions = actions(&plan, random);
    with_formulas(plan, 6, random)
}

/// A draft near all limits, with as many identifiers as can be; its formulas are true for most values.
pub fn full(random: &mut Random) -> Draft {
    let mut plan = many(random);
    plan.constants = Table::MOST_IDENTIFIERS - plan.other_identifiers();
    with_formulas(plan, 18, random)
}

/// The initial actions, and at least half as many as concrete events may have.
fn actions(plan: &Plan, random: &mut Random) -> usize {
    let concrete = plan.concrete_variables + plan.shared_variables;
    let initial = concrete + plan.shared_variables + plan.abstract_variables;
    let most = concrete * (plan.ordinary + plan.new_events());
    initial + random.between(most.div_ceil(2), most)
}
